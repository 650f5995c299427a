// SPDX-License-Identifier: Apache-2.0 OR MIT
//! What `explain` says was looked at, of entries of worked examples, as it was written from docs/RULES.md.
//! HULLPIPPIN_PLAYER names the player that plays them.
mod common;
use common::*;
use serde_json::{json, Value};
use std::process::Command;

fn explained(run: &str, place: u64, format: &str) -> String {
    let name = std::env::var("HULLPIPPIN_PLAYER").expect("HULLPIPPIN_PLAYER names the player");
    let path = format!("{}/../examples/{run}.script", env!("CARGO_MANIFEST_DIR"));
    let journal = kept(&format!("{run}-{place}-{format}.journal"), b"");
    let done = Command::new(name).args(["run", &path, "--journal", journal.path()]).output().expect("the player");
    assert!(done.status.success(), "{run}: {}", String::from_utf8_lossy(&done.stderr));
    printed(&["explain", journal.path(), &place.to_string(), "--format", format])
}

#[test]
#[ignore = "needs a player"]
fn entries_are_explained_by_what_was_looked_at() {
    let sent = "F4 no, X2 no, X3 no, X4 no, X7 no, X8 no, X9 no, X10 no, X11 no, X12 no, X13 no, X14 no";
    for (run, place, looked, rules) in [
        ("one_way_call", 0, "F7 no, F8 no, F5 no, F6 no", "Requests and steps"),
        ("one_way_call", 4, sent, "Calls and replies"),
        ("one_way_call", 6, "F4 no, F11 no, F12 no", "Work items and reading"),
        ("death_notice", 14, "F4 no, X1 no, X4 yes", "Calls and replies, Refusals"),
        ("death_notice", 11, "F4 no, F11 no, F12 yes", "Work items and reading, Refusals"),
        ("window_of_a_process_that_ended", 17, "F4 no, N5 yes", "Buffers and windows, Refusals"),
        ("one_way_flooding", 4, "F4 no", "Requests and steps"),
        ("one_way_flooding", 13, "F4 yes", "Requests and steps, Refusals"),
    ] {
        let told = explained(run, place, "text");
        let order = format!("\n    looked at, up to the first that holds: {looked}\n    rules: {rules}\n");
        assert!(told.starts_with(&format!("{place} seat ")) && told.contains(&order), "{run} {place}: {told}");
    }
}

/// The values that the player told of these entries when it had that word.
#[test]
#[ignore = "needs a player"]
fn entries_are_explained_by_values() {
    for (run, place, entry, why) in [
        (
            "death_notice",
            14,
            json!({"place": 14, "seat": 0, "pid": 100, "step": {"name": "BC_TRANSACTION", "handle": 1, "cookie": "0x0", "code": 1,
                "flags": 1, "data_size": 0, "offsets_size": 0}, "answer": {"name": "stopped", "cause": "X4"}}),
            json!({"looked": [{"reason": "F4", "holds": false}, {"reason": "X1", "holds": false}, {"reason": "X4", "holds": true}],
                "section": "Calls and replies"}),
        ),
        (
            "window_of_a_process_that_ended",
            17,
            json!({"place": 17, "seat": 0, "pid": 100, "step": {"name": "BC_FREE_BUFFER", "buffer": "0x10000"},
                "answer": {"name": "noted", "note": "N5"}}),
            json!({"looked": [{"reason": "F4", "holds": false}, {"reason": "N5", "holds": true}], "section": "Buffers and windows"}),
        ),
        (
            "one_way_call",
            6,
            json!({"place": 6, "seat": 0, "pid": 100, "step": {"name": "read", "limit": 256}}),
            json!({"looked": [{"reason": "F4", "holds": false}, {"reason": "F11", "holds": false}, {"reason": "F12", "holds": false}],
                "section": "Work items and reading"}),
        ),
    ] {
        let told = explained(run, place, "json");
        let values: Vec<Value> = told.lines().map(|it| serde_json::from_str(it).expect("JSON")).collect();
        let has = |ours: &Value, theirs: &Value| {
            theirs.as_object().expect("members").iter().all(|(name, it)| ours[name] == *it)
        };
        assert!(has(&values[0], &entry) && has(&values[1], &why), "{told}");
    }
}
