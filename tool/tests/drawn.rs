// SPDX-License-Identifier: Apache-2.0 OR MIT
//! What the page shows of worked examples, as it was drawn of them by hand: who calls whom where, what is refused, who ends.
//! HULLPIPPIN_PLAYER names the player that plays them.
mod common;
use common::*;
use serde_json::Value;
use std::collections::BTreeSet;
use std::process::Command;

/// Where an arrow begins and ends, each as a seat and a place; its end is None where nobody has read it.
type Arrow = (&'static str, u64, u64, Option<(u64, u64)>);

/// Plays a script, and gives its journal.
fn played(form: &str, script: &str) -> Kept {
    let name = std::env::var("HULLPIPPIN_PLAYER").expect("HULLPIPPIN_PLAYER names the player");
    let path = format!("{}/../examples/{script}.script", env!("CARGO_MANIFEST_DIR"));
    let journal = kept(&format!("{form}-{}.journal", script.replace('/', "-")), b"");
    let done = Command::new(name).args(["run", &path, "--journal", journal.path()]).output().expect("the player");
    assert!(done.status.success(), "{script}: {}", String::from_utf8_lossy(&done.stderr));
    journal
}

/// The data of its page.
fn drawn(script: &str) -> Value {
    page_data(&printed(&["diagram", played("page", script).path()]))
}

/// The diagrams that the player drew of these runs when it had that word, with codes in hex.
#[test]
#[ignore = "needs a player"]
fn sequences_are_as_they_were_drawn() {
    for script in ["dead_server_over_an_open_child", "nested_call_back", "words/eight_threads"] {
        let journal = played("sequence", script);
        let name = script.trim_start_matches("words/");
        for (form, suffix) in [("text", "txt"), ("mermaid", "mmd"), ("svg", "svg")] {
            // One of them is in the documents.
            let folder = if suffix == "svg" && name == "nested_call_back" { "../docs" } else { "tests/worked" };
            let path = format!("{}/{folder}/diagrams/{name}.{suffix}", env!("CARGO_MANIFEST_DIR"));
            let wanted = std::fs::read_to_string(&path).expect("a diagram");
            let told = printed(&["diagram", journal.path(), "--format", form]);
            for (number, (told, wanted)) in told.lines().zip(wanted.lines()).enumerate() {
                assert_eq!(told, wanted, "line {} of {path}", number + 1);
            }
            assert_eq!(told, wanted, "{path}");
        }
    }
}

/// README's picture is of the recording that stands beside it: a call with its reply, and the one before.
#[test]
fn the_picture_is_of_the_kept_recording() {
    let at = |name: &str| format!("{}/../{name}", env!("CARGO_MANIFEST_DIR"));
    let journal = at("examples/recorded/first_call.journal");
    let told = printed(&["diagram", &journal, "--format", "svg", "--from", "72", "--to", "91"]);
    assert_eq!(told, std::fs::read_to_string(at("docs/diagrams/ping.svg")).expect("the picture"));
}

fn seat(told: &Value, lane: &Value) -> u64 {
    let lane = lane.as_u64().expect("a lane") as usize;
    told["lanes"][lane]["seat"].as_u64().expect("a seat")
}

fn marks<'a>(told: &'a Value, sort: &'a str) -> impl Iterator<Item = &'a Value> {
    told["marks"].as_array().expect("marks").iter().filter_map(move |it| it.get(sort))
}

fn check_arrows(told: &Value, wanted: &[Arrow]) {
    let end = |it: &Value| (seat(told, &it[0]), it[1].as_u64().expect("a place"));
    let arrow = |it: &Value| {
        let (from, to) = (end(&it["from"]), Some(&it["to"]).filter(|it| !it.is_null()).map(end));
        (it["kind"].as_str().expect("a kind").to_string(), from.0, from.1, to)
    };
    let drawn: BTreeSet<_> = marks(told, "arrow").map(arrow).collect();
    let wanted: BTreeSet<_> = wanted.iter().map(|it| (it.0.to_string(), it.1, it.2, it.3)).collect();
    assert_eq!(drawn, wanted);
}

/// The dots of a kind: seats, places, and how each text begins.
fn check_dots(told: &Value, kind: &str, wanted: &[(u64, u64, &str)]) {
    let dots: Vec<_> = marks(told, "dot").filter(|it| it["kind"] == kind).collect();
    let at = |it: &&Value| (seat(told, &it["lane"]), it["at"].as_u64().expect("a place"));
    assert_eq!(dots.iter().map(at).collect::<Vec<_>>(), wanted.iter().map(|it| (it.0, it.1)).collect::<Vec<_>>());
    for (dot, (_, place, text)) in dots.iter().zip(wanted) {
        assert!(dot["text"].as_str().expect("a text").starts_with(text), "{place}: {dot}");
    }
}

#[test]
#[ignore = "needs a player"]
fn a_server_that_dies_over_an_open_child() {
    let told = drawn("dead_server_over_an_open_child");
    let arrows: [Arrow; 5] = [
        ("oneway", 2, 6, Some((0, 8))),
        ("call", 1, 9, Some((0, 11))),
        ("reply", 0, 12, Some((1, 14))),
        ("call", 1, 15, Some((2, 17))),
        ("call", 2, 18, Some((0, 20))),
    ];
    check_arrows(&told, &arrows);
    check_dots(&told, "refused", &[(0, 23, "X16 CallerGone: ")]);
    check_dots(&told, "noreply", &[(1, 25, "BR_DEAD_REPLY: no reply to the call at 15")]);
    let lives =
        [(0, 0, "open pid 100"), (0, 1, "manager"), (1, 3, "open pid 200"), (2, 4, "open pid 300"), (2, 21, "ends")];
    check_dots(&told, "life", &lives);
}

#[test]
#[ignore = "needs a player"]
fn a_call_back_within_a_call() {
    let told = drawn("nested_call_back");
    check_arrows(&told, &[("call", 1, 6, Some((0, 7))), ("call", 0, 8, Some((1, 10)))]);
    let lives = [(0, 0, "open pid 100"), (0, 1, "manager"), (1, 3, "open pid 200"), (2, 4, "attach pid 200")];
    check_dots(&told, "life", &lives);
}

#[test]
#[ignore = "needs a player"]
fn eight_threads_of_five_processes() {
    let told = drawn("words/eight_threads");
    let arrows: [Arrow; 18] = [
        ("call", 2, 14, Some((0, 15))),
        ("reply", 0, 16, Some((2, 17))),
        ("call", 6, 18, Some((1, 19))),
        ("reply", 1, 20, Some((6, 21))),
        ("call", 4, 22, Some((1, 25))),
        ("call", 7, 23, Some((0, 27))),
        ("reply", 1, 28, Some((4, 30))),
        ("reply", 0, 29, Some((7, 31))),
        ("call", 3, 32, Some((1, 34))),
        ("reply", 1, 35, Some((3, 36))),
        ("call", 4, 39, Some((2, 40))),
        ("call", 2, 42, Some((6, 48))),
        ("oneway", 5, 43, Some((3, 46))),
        ("oneway", 5, 44, Some((3, 55))),
        ("oneway", 5, 45, None),
        ("call", 6, 50, Some((0, 57))),
        ("reply", 0, 58, Some((6, 59))),
        ("reply", 2, 64, Some((4, 65))),
    ];
    check_arrows(&told, &arrows);
    check_dots(&told, "refused", &[(5, 51, "X1 NotStronglyNamed: "), (3, 54, "N6 NotHandedOut: ")]);
    check_dots(&told, "noreply", &[(2, 63, "BR_DEAD_REPLY: no reply to the call at 42")]);
}
