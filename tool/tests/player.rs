// SPDX-License-Identifier: Apache-2.0 OR MIT
//! The worked examples, as the player that HULLPIPPIN_PLAYER names plays them. What has to be told of them stands in tests/worked: lines
//! and values that were written from docs/RULES.md and docs/FORMATS.md (entries.txt, json.txt), and the states that the player told,
//! by the engine's own looks, when it had that word (states.jsonl). `tool/check` runs this where there is a player.
mod common;
use common::*;
use serde_json::{json, Value};
use std::collections::BTreeMap;
use std::path::{Path, PathBuf};
use std::process::Command;

const EXAMPLES: &str = concat!(env!("CARGO_MANIFEST_DIR"), "/../examples");
const WORKED: &str = concat!(env!("CARGO_MANIFEST_DIR"), "/tests/worked");

/// Runs the player. A script whose seats wait for one another ends with status 2 where they have no threads.
fn player(words: &[&str]) -> String {
    let name = std::env::var_os("HULLPIPPIN_PLAYER").expect("HULLPIPPIN_PLAYER names the player");
    let done = Command::new(name).args(words).output().expect("the player");
    let is_well = done.status.success() || words[0] == "run" && done.status.code() == Some(2);
    assert!(is_well, "{words:?}: {}", String::from_utf8_lossy(&done.stderr));
    String::from_utf8(done.stdout).expect("text")
}

/// A worked example that was played: what its lines printed, and its journal.
struct Run {
    lines: String,
    journal: Kept,
}

/// The scripts of the worked examples, each played, by their names, into files that no other test has.
fn runs(test: &str) -> BTreeMap<String, Run> {
    let files = [EXAMPLES.to_string(), format!("{EXAMPLES}/words")];
    let files = files.iter().flat_map(|it| std::fs::read_dir(it).expect("the examples"));
    let scripts =
        files.map(|it| it.expect("a file").path()).filter(|it| it.extension().map_or(false, |it| it == "script"));
    let mut played = BTreeMap::new();
    for script in scripts.collect::<Vec<PathBuf>>() {
        let name = script.file_stem().and_then(|it| it.to_str()).expect("a name");
        let journal = kept(&format!("{test}-{name}.journal"), b"");
        let lines = player(&["run", path(&script), "--turns", "1000", "--journal", journal.path()]);
        played.insert(name.to_string(), Run { lines, journal });
    }
    assert!(played.len() > 50, "{} examples", played.len());
    played
}

fn path(it: &Path) -> &str {
    it.to_str().expect("a path of letters")
}

fn worked(file: &str) -> String {
    std::fs::read_to_string(format!("{WORKED}/{file}")).expect("what is expected")
}

fn values(text: &str) -> Vec<Value> {
    text.lines().map(|it| serde_json::from_str(it).expect("JSON")).collect()
}

/// Whether all that one value has is so in the other, which may have more.
fn has(ours: &Value, theirs: &Value) -> bool {
    match (ours, theirs) {
        (Value::Object(ours), Value::Object(theirs)) => {
            theirs.iter().all(|(name, value)| ours.get(name).map_or(false, |it| has(it, value)))
        }
        (Value::Array(ours), Value::Array(theirs)) => {
            ours.len() == theirs.len() && ours.iter().zip(theirs).all(|(ours, theirs)| has(ours, theirs))
        }
        _ => ours == theirs,
    }
}

fn compare(words: &[&str], theirs: &[Value]) {
    let ours = values(&chosen(words));
    assert_eq!(ours.len(), theirs.len(), "{words:?}");
    for (ours, theirs) in ours.iter().zip(theirs) {
        assert!(has(ours, theirs), "{words:?}:\n{ours}\n{theirs}");
    }
}

/// The blocks of a file: the name of a run, the words behind it, and the lines that they have to print.
fn blocks(file: &str) -> Vec<(String, String, String)> {
    let text = worked(file);
    let blocks = text.trim().split("\n\n").map(|it| it.lines().filter(|it| !it.starts_with('#')).collect::<Vec<_>>());
    let blocks = blocks.filter(|it| !it.is_empty()).map(|block| {
        let (name, words) = block[0].split_once(": ").expect("a run and words");
        let (status, lines) = block[1..].split_last().expect("a status");
        assert_eq!(*status, "    status 0", "{}", block[0]);
        let lines: String = lines.iter().map(|it| format!("{}\n", &it[4..])).collect();
        (name.to_string(), words.to_string(), lines)
    });
    blocks.collect()
}

/// The words of a block, with the journal in its place.
fn words_over<'a>(words: &'a str, run: &'a Run) -> Vec<&'a str> {
    words.split(' ').map(|it| if it == "JOURNAL" { run.journal.path() } else { it }).collect()
}

/// A line without what stands in brackets, and the space before them.
fn unbracketed(line: &str) -> String {
    let mut parts = line.split(" (");
    let first = parts.next().unwrap_or_default();
    parts.fold(first.to_string(), |rest, it| rest + it.split_once(')').map_or("", |(_, behind)| behind))
}

/// An entry's own lines, without what is told beside, and with decimal pointers, cookies and codes.
fn plain(text: &str) -> String {
    let mut lines = String::new();
    for line in text.lines().filter(|it| !it.starts_with(' ') || it.starts_with("    BR_")) {
        let line = unbracketed(line);
        let mut before = "";
        let indent = &line[..line.len() - line.trim_start().len()];
        let words = line.split_whitespace().map(|word| {
            let number = word.strip_prefix("0x").and_then(|it| u64::from_str_radix(it.trim_end_matches(':'), 16).ok());
            let is_plain = ["ptr", "cookie", "code", "buffer"].contains(&before);
            before = word;
            let end = if word.ends_with(':') { ":" } else { "" };
            number.filter(|_| is_plain).map_or_else(|| word.to_string(), |it| format!("{it}{end}"))
        });
        lines += &format!("{indent}{}\n", words.collect::<Vec<_>>().join(" "));
    }
    lines
}

/// Compares what each block's words print, over the run that it names, with its lines. There are more than `least` blocks.
fn each_block(made: &str, file: &str, least: usize, compare: impl Fn(&[&str], &str)) {
    let runs = runs(made);
    let blocks = blocks(file);
    assert!(blocks.len() > least, "{} blocks", blocks.len());
    for (name, words, lines) in blocks {
        compare(&words_over(&words, &runs[&name]), &lines);
    }
}

#[test]
#[ignore = "needs a player"]
fn entries_have_the_lines_that_were_written_for_them() {
    each_block("lines", "entries.txt", 8, |words, lines| assert_eq!(plain(&chosen(words)), lines, "{words:?}"));
}

#[test]
#[ignore = "needs a player"]
fn entries_and_states_have_the_values_that_were_written_for_them() {
    each_block("values", "json.txt", 20, |words, lines| compare(words, &values(lines)));
}

/// A script that is played here, by its name.
fn told_of_a_run(name: &str) -> String {
    let script = [EXAMPLES.to_string(), format!("{EXAMPLES}/words")].map(|it| format!("{it}/{name}.script"));
    let script = script.iter().find(|it| Path::new(it).exists()).expect("a script");
    let player = std::env::var("HULLPIPPIN_PLAYER").expect("HULLPIPPIN_PLAYER names the player");
    printed(&["script", script, "--run", &player, "--format", "json"])
}

#[test]
#[ignore = "needs a player"]
fn what_a_run_says_has_the_values_that_were_written_for_it() {
    let blocks = blocks("runs.txt");
    assert_eq!(blocks.len(), 4);
    for (name, _, lines) in blocks {
        assert_eq!(told_of_a_run(&name), lines, "{name}");
    }
    for (name, run) in runs("said") {
        let told = values(&told_of_a_run(&name));
        let lines: Vec<(&str, &str)> = run.lines.lines().filter_map(|it| it.split_once(": ")).collect();
        let said = |it: &Value| (it["line"].to_string(), it["kind"].as_str().expect("a kind").to_string());
        let wanted = lines.iter().map(|it| (it.0.to_string(), it.1.split(' ').next().expect("a word").to_string()));
        assert_eq!(told.iter().map(said).collect::<Vec<_>>(), wanted.collect::<Vec<_>>(), "{name}");
    }
}

#[test]
#[ignore = "needs a player"]
fn states_are_told_as_a_proved_player_told_them() {
    let runs = runs("states");
    let states = values(&worked("states.jsonl"));
    assert!(states.len() > 200, "{} states", states.len());
    for state in states {
        let name = state["run"].as_str().expect("a run");
        let journal = runs[name].journal.path();
        let told = state["told"].as_array().expect("what was told");
        compare(&["state", journal, "--at", &state["at"].to_string(), "--format", "json"], told);
    }
}

/// What the entries that a line made have to tell, by their places, where the line says so.
fn entries_of(line: &str) -> Vec<(u64, Value)> {
    let words: Vec<&str> = line.split(' ').skip(1).collect();
    let place = |at: usize| words[at].parse::<u64>().expect("a place");
    match words[0] {
        "opened" | "set" | "exited" => vec![(place(1), json!({"answer": {"name": words[0]}}))],
        // What makes no step is in no entry.
        "refused" if words[2] == words[3] => Vec::new(),
        "refused" => vec![(place(2), json!({"answer": {"name": "refused", "fault": words[1]}}))],
        "got" => vec![(place(4), got_by(&words))],
        "wrote" => written(&words, place(2), place(3)),
        _ => Vec::new(),
    }
}

/// What was read: how many bytes of returns, and the data of their parcel.
fn got_by(words: &[&str]) -> Value {
    let mut entry = json!({"answer": {"name": "got", "bytes": words[1].len() / 2}});
    if words[2] != "-" {
        entry["parcel"] = json!({ "data": words[2] });
    }
    entry
}

/// The same of a write: its notes, each by the number of its command, the cause that stopped it, and that all else was accepted.
fn written(words: &[&str], from: u64, to: u64) -> Vec<(u64, Value)> {
    let accepted = json!({"answer": {"name": "accepted"}});
    let mut entries: BTreeMap<u64, Value> = (from..to).map(|it| (it, accepted.clone())).collect();
    for word in &words[4..] {
        if let Some((command, note)) = word.split_once(':') {
            let command: u64 = command.parse().expect("a command's number");
            entries.insert(from + command, json!({"answer": {"name": "noted", "note": note}}));
        } else if word.starts_with('X') {
            entries.insert(to - 1, json!({"answer": {"name": "stopped", "cause": word}}));
        }
    }
    entries.into_iter().collect()
}

#[test]
#[ignore = "needs a player"]
fn answers_are_those_that_the_lines_of_a_run_printed() {
    let mut seen = 0;
    for (name, run) in runs("answers") {
        let entries = values(&printed(&["show", run.journal.path(), "--format", "json", "--bytes", "1000000"]));
        for (place, wanted) in run.lines.lines().flat_map(entries_of) {
            let entry = &entries[place as usize];
            assert_eq!(entry["place"], place, "{name}");
            assert!(has(entry, &wanted), "{name}:\n{entry}\n{wanted}");
            seen += 1;
        }
    }
    assert!(seen > 1000, "{seen} entries");
}

#[test]
#[ignore = "needs a player"]
fn replies_answer_the_calls_that_the_player_certifies() {
    let mut replies = 0;
    for run in runs("replies").into_values() {
        let journal = run.journal.path();
        for told in values(&chosen(&["show", journal, "--format", "json", "--command", "BR_REPLY"])) {
            let returns = told["answer"]["returns"].as_array().expect("returns");
            let reply = returns.iter().find(|it| it["name"] == "BR_REPLY").expect("a reply");
            let certified = player(&["call-of-reply", journal, &told["place"].to_string()]);
            let call = certified.split(' ').next().expect("the place of a call");
            assert_eq!(reply["about"]["answers"].to_string(), call, "{told}");
            replies += 1;
        }
    }
    assert!(replies > 10, "{replies} replies");
}
