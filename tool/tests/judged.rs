// SPDX-License-Identifier: Apache-2.0 OR MIT
//! What is said of entries that don't follow from those before them. HULLPIPPIN_LIBRARY names the library that judges, and
//! HULLPIPPIN_PLAYER the player of the worked examples. What the rules give is written from docs/RULES.md.
mod common;
use common::*;
use std::process::Command;

/// The bytes of a read's limit, by which it is too small, and so on: an entry with another answer than it has.
fn answered(mut journal: Journal, from: usize, answer: &[u8]) -> Journal {
    journal.bytes.truncate(from);
    journal.bytes.extend((answer.len() as u32).to_le_bytes());
    journal.bytes.extend(answer);
    journal
}

/// Where the answer of the latest entry begins.
fn last_answer(journal: &Journal, size: usize) -> usize {
    journal.bytes.len() - size - 4
}

/// The one-way call is recorded as refused, which it isn't by the rules: the manager's object is there, and its window has room.
fn refused_call() -> Journal {
    let mut journal = Journal::base();
    let sent = Record { code: 7, flags: 1, data: 2, ..Record::default() };
    journal.send(1, &sent.bytes(BC_TRANSACTION), b"hi", &[], ACCEPTED);
    let from = last_answer(&journal, ACCEPTED.len());
    let mut journal = answered(journal, from, &stopped(2));
    journal.read(1, &refused(12));
    journal
}

/// The service calls a handle that it never had, and that is recorded as accepted.
fn accepted_call() -> Journal {
    let mut journal = Journal::base();
    let sent = Record { target: 5, code: 7, flags: 1, data: 2, ..Record::default() };
    journal.send(1, &sent.bytes(BC_TRANSACTION), b"hi", &[], ACCEPTED);
    journal
}

/// The latest read has got other data than were sent.
fn other_data() -> Journal {
    let mut journal = Journal::one_way();
    let at = journal.bytes.windows(2).rposition(|it| it == b"hi").expect("what was read");
    journal.bytes[at + 1] = b'o';
    journal
}

#[test]
#[ignore = "needs the library"]
fn what_the_rules_give_in_place_of_an_entry_is_told() {
    let explained = |name: &str, journal: &Journal, place: u32| {
        printed(&["explain", journal.file(name).path(), &place.to_string()])
    };
    let call = explained("refused-call", &refused_call(), 4);
    let told = "    unlawful: it doesn't follow from the entries before it, by which it is: accepted\n    \
        looked at, up to the first that holds: F4 no, X2 no, X3 no, X4 no, X7 no, X8 no, X9 no, X10 no, X11 no, X12 no, X13 no, X14 no\n    \
        rules: Calls and replies\n";
    assert!(
        call.contains("data_size 2 offsets_size 0: stopped X2 NoManager: there is no manager\n")
            && call.ends_with(told),
        "{call}"
    );
    let call = explained("accepted-call", &accepted_call(), 4);
    let told = "by which it is: stopped X1 NotStronglyNamed: the handle is not strongly named\n    \
        looked at, up to the first that holds: F4 no, X1 yes\n    rules: Calls and replies, Refusals\n    \
        pid 200 never had handle 5\n    its handles are: none\n    X1 holds: ";
    assert!(call.contains(": accepted\n") && call.contains(told), "{call}");
    let read = explained("other-data", &other_data(), 6);
    let told = "by which it is: got 72\n    BR_NOOP\n    BR_TRANSACTION ptr 0x0 cookie 0x0 code 0x7 flags 0x1 TF_ONE_WAY data_size 2 \
        offsets_size 0 sender_pid 0 sender_euid 2000 buffer 0x10000\n        0000  68 69";
    assert!(read.contains(told) && read.contains("\n    the data differ from byte 1 on\n"), "{read}");
    let later = explained("later", &refused_call(), 5);
    assert!(later.ends_with("    not judged: already entry 4 doesn't follow from those before it\n"), "{later}");
    let values = printed(&["explain", refused_call().file("refused-json").path(), "4", "--format", "json"]);
    let values: Vec<serde_json::Value> = values.lines().map(|it| serde_json::from_str(it).expect("JSON")).collect();
    assert_eq!((&values[0]["given"]["name"], &values[1]["lawful"]), (&"accepted".into(), &false.into()), "{values:?}");
    assert_eq!(values[1]["looked"].as_array().map(Vec::len), Some(12), "{values:?}");
    let well = explained("well", &refused_call(), 3);
    assert!(well.ends_with("    lawful: it follows from the entries before it, and so do they\n"), "{well}");
}

#[test]
#[ignore = "needs the library"]
fn a_journal_is_shown_as_it_is_judged() {
    let journal = refused_call().file("shown");
    let done = run(&["show", journal.path(), "--judge"]);
    let (out, said) = (String::from_utf8_lossy(&done.stdout), String::from_utf8_lossy(&done.stderr));
    assert_eq!(out.matches("unlawful").count(), 1, "{out}");
    let told = format!(
        "hullpippin: {}: unlawful: entry 4 doesn't follow from those before it; what is behind it wasn't judged\n",
        journal.path()
    );
    assert_eq!((said.as_ref(), done.status.code()), (&told[..], Some(1)));
    let done = run(&["show", journal.path(), "--judge", "--from", "5"]);
    assert_eq!((String::from_utf8_lossy(&done.stderr).as_ref(), done.status.code()), (&told[..], Some(1)));
    let json = run(&["show", journal.path(), "--judge", "--format", "json"]);
    let lines: Vec<serde_json::Value> =
        String::from_utf8_lossy(&json.stdout).lines().map(|it| serde_json::from_str(it).expect("JSON")).collect();
    assert_eq!(lines[4]["given"], serde_json::json!({"name": "accepted"}));
    assert!(lines.iter().enumerate().all(|(place, it)| it.get("given").is_some() == (place == 4)), "{lines:?}");
    let other = other_data().file("shown-data");
    let json = run(&["show", other.path(), "--judge", "--format", "json", "--from", "6"]);
    let read: serde_json::Value = serde_json::from_slice(&json.stdout).expect("JSON");
    assert_eq!(read["differ"], serde_json::json!({"data": 1}));
    assert_eq!(fault(&["explain", other.path()]).matches("entry 6").count(), 1);
}

/// A journal of each version, of many seats too, and a step that has no parcel.
#[test]
#[ignore = "needs the library"]
fn lawful_journals_are_said_to_be() {
    let mut bare = Journal::base();
    let command = Record { code: 7, flags: 1, ..Record::default() }.bytes(BC_TRANSACTION);
    bare.command(1, &command, &stopped(7));
    for (name, journal) in [
        ("first", Journal { bytes: [b"BNDJ0001", &Journal::one_way().bytes[8..]].concat(), count: 7 }),
        ("second", Journal::registered()),
        ("third", Journal::registered().widened(65_536)),
        ("bare", bare),
    ] {
        let journal = journal.file(&format!("lawful-{name}"));
        let told = printed(&["explain", journal.path()]);
        assert!(
            told.starts_with("lawful: all ") && told.ends_with(" entries follow from those before them\n"),
            "{name}: {told}"
        );
        assert_eq!(printed(&["show", journal.path(), "--judge"]), printed(&["show", journal.path()]));
    }
}

/// All worked examples are lawful, and each stops being so where the player says, once an entry is taken out.
#[test]
#[ignore = "needs the library"]
fn journals_are_judged_as_the_player_judges_them() {
    let player = std::env::var("HULLPIPPIN_PLAYER").expect("HULLPIPPIN_PLAYER names the player");
    let scripts = std::fs::read_dir(concat!(env!("CARGO_MANIFEST_DIR"), "/../examples")).expect("the examples");
    let scripts =
        scripts.map(|it| it.expect("a file").path()).filter(|it| it.extension().map_or(false, |it| it == "script"));
    let mut judged = 0;
    for script in scripts {
        let name = script.file_stem().and_then(|it| it.to_str()).expect("a name").to_string();
        let journal = kept(&format!("judged-{name}"), b"");
        let script = script.to_str().expect("a path of letters");
        Command::new(&player)
            .args(["run", script, "--turns", "1000", "--journal", journal.path()])
            .output()
            .expect("the player");
        for bytes in [std::fs::read(&journal.0).expect("a journal"), without_an_entry(&journal)] {
            let changed = kept(&format!("judged-{name}-changed"), &bytes);
            let theirs = Command::new(&player).args(["check", changed.path()]).output().expect("the player");
            let theirs = String::from_utf8_lossy(&theirs.stdout).trim_end().to_string();
            let ours = run(&["explain", changed.path()]);
            let wanted = match theirs.split_once(' ').expect("a verdict") {
                ("unlawful", place) => format!("unlawful: entry {place} doesn't follow"),
                (_, count) => format!("lawful: all {count} entries"),
            };
            let told = format!("{}{}", String::from_utf8_lossy(&ours.stdout), String::from_utf8_lossy(&ours.stderr));
            assert!(told.contains(&wanted), "{name}: {theirs}: {told}");
            judged += 1;
        }
    }
    assert!(judged > 100, "{judged}");
}

/// A journal whose third entry, or first, is gone.
fn without_an_entry(journal: &Kept) -> Vec<u8> {
    let mut bytes = std::fs::read(&journal.0).expect("a journal");
    let number = |bytes: &[u8], at: usize| u32::from_le_bytes([bytes[at], bytes[at + 1], bytes[at + 2], bytes[at + 3]]);
    let count = number(&bytes, 12);
    let mut at = heading_size(&bytes);
    let end = |bytes: &[u8], at: usize| {
        let answer = at + 8 + number(bytes, at + 4) as usize;
        answer + 4 + number(bytes, answer) as usize
    };
    for _ in 0..count.saturating_sub(1).min(2) {
        at = end(&bytes, at);
    }
    if count > 0 {
        let behind = end(&bytes, at);
        bytes.drain(at..behind);
        bytes[12..16].copy_from_slice(&(count - 1).to_le_bytes());
    }
    bytes
}
