// SPDX-License-Identifier: Apache-2.0 OR MIT
//! What `show` prints of journals that are spelled by hand. The expected lines were written from docs/RULES.md and docs/FORMATS.md.
mod common;
use common::*;

#[test]
fn a_one_way_call_is_told_with_its_bytes() {
    let file = Journal::one_way().file("one-way");
    let lines = "\
0 seat 0 pid 100 open pid 100 euid 1000 window 4096: opened
1 seat 0 pid 100 manager: set
2 seat 0 pid 100 BC_ENTER_LOOPER: accepted
3 seat 1 pid 200 open pid 200 euid 2000 window 4096: opened
4 seat 1 pid 200 BC_TRANSACTION handle 0 (1.0 \"manager\" of pid 100) cookie 0x0 code 0x7 flags 0x1 TF_ONE_WAY data_size 2 offsets_size 0: accepted
    0000  68 69                                             |hi|
5 seat 1 pid 200 read limit 256: got 8
    BR_NOOP
    BR_TRANSACTION_COMPLETE (for 4)
6 seat 0 pid 100 read limit 256: got 72
    BR_NOOP
    BR_TRANSACTION ptr 0x0 cookie 0x0 code 0x7 flags 0x1 TF_ONE_WAY data_size 2 offsets_size 0 sender_pid 0 sender_euid 2000 buffer 0x10000 (the call at 4 by pid 200 seat 1 on 1.0 \"manager\" of pid 100)
        0000  68 69                                             |hi|
";
    assert_eq!(printed(&["show", file.path()]), lines);
    assert_eq!(printed(&["show", file.path(), "--color", "never", "--no-pager"]), lines);
}

#[test]
fn both_versions_tell_the_same() {
    let mut first = Journal::one_way();
    let second = first.file("second");
    first.bytes[7] = b'1';
    assert_eq!(printed(&["show", first.file("first").path()]), printed(&["show", second.path()]));
}

#[test]
fn the_third_version_tells_the_same_to_every_command() {
    let narrow = Journal::registered();
    let (third, second) = (narrow.widened(65_536).file("third"), narrow.file("narrow"));
    for words in [
        &["show"][..],
        &["show", "--format", "json"],
        &["state"],
        &["state", "--diff", "7", "8"],
        &["holders", "4.0"],
        &["leaks"],
        &["stats"],
        &["slow"],
        &["diagram"],
        &["explain", "8"],
        &["export", "--to", "perfetto"],
        &["export", "--to", "pcapng"],
    ] {
        let of = |file: &Kept| run(&[&[words[0], file.path()], &words[1..]].concat());
        let (ours, theirs) = (of(&third), of(&second));
        assert!(ours.status.success() && !ours.stdout.is_empty(), "{words:?}");
        assert_eq!((ours.stdout, ours.stderr), (theirs.stdout, theirs.stderr), "{words:?}");
    }
}

#[test]
fn seats_beyond_thirty_one_are_told() {
    let mut journal = Journal::new("BNDJ0003", 65_536);
    journal.open(40, 100, 1000).manager(40).entry(65_535, &[&[1][..], &100u32.to_le_bytes()].concat(), OPENED);
    let file = journal.file("seats");
    let lines = "\
0 seat 40 pid 100 open pid 100 euid 1000 window 4096: opened
1 seat 40 pid 100 manager: set
2 seat 65535 pid 100 attach pid 100: opened
";
    assert_eq!(printed(&["show", file.path()]), lines);
    assert!(printed(&["show", file.path(), "--seat", "65535"]).starts_with("2 seat 65535"));
    assert!(printed(&["state", file.path()]).contains("\n  seat 40\n  seat 65535\n"));
}

#[test]
fn a_registration_is_told_with_interface_texts_and_objects() {
    let file = Journal::registered().file("registered");
    let lines = printed(&["show", file.path(), "--from", "4", "--bytes", "16"]);
    let sent = "\
4 seat 1 pid 200 BC_TRANSACTION handle 0 (1.0 \"manager\" of pid 100) cookie 0x0 code 0x3 flags 0x0 data_size 112 offsets_size 8: accepted
    interface android.os.IServiceManager
    text at 0x48: \"hello\"
    object at 0x58: BINDER ptr 0x1000 cookie 0x2000 (4.0 \"hello\" of pid 200, handle 1 of pid 100)
    0000  ff ff ff ff ff ff ff ff  ff ff ff ff 1a 00 00 00  |................|
    .. 96 bytes more
";
    assert!(lines.starts_with(sent), "{lines}");
    let read = "        object at 0x58: HANDLE 1 (4.0 \"hello\" of pid 200, handle 1 of pid 100)\n";
    assert!(lines.contains(read), "{lines}");
    assert!(lines.contains("\n6 seat 0 pid 100 BC_ACQUIRE handle 1 (4.0 \"hello\" of pid 200): accepted\n"), "{lines}");
    let reply = "\n7 seat 0 pid 100 BC_REPLY (to the call at 4 by pid 200 seat 1) code 0x0 flags 0x0 data_size 4 offsets_size 0: accepted\n";
    assert!(lines.contains(reply), "{lines}");
    let told = "\
    BR_INCREFS ptr 0x1000 cookie 0x2000 (4.0 \"hello\" of pid 200)
    BR_ACQUIRE ptr 0x1000 cookie 0x2000 (4.0 \"hello\" of pid 200)
    BR_TRANSACTION_COMPLETE (for 4)
    BR_REPLY code 0x0 flags 0x0 data_size 4 offsets_size 0 sender_pid 0 sender_euid 1000 buffer 0x10000 (the reply at 7 by pid 100 seat 0 to the call at 4)
";
    assert!(lines.contains(told), "{lines}");
}

#[test]
fn letters_of_codes_are_told() {
    let mut journal = Journal::base();
    let record = Record { code: 0x5f50_4e47, ..Record::default() };
    journal.send(1, &record.bytes(BC_TRANSACTION), &[], &[], ACCEPTED);
    let file = journal.file("letters");
    assert!(printed(&["show", file.path(), "--from", "4"]).contains("code 0x5f504e47 '_PNG' flags"));
    for word in ["_PNG", "0x5f504e47", "1599098439"] {
        assert!(printed(&["show", file.path(), "--code", word]).starts_with("4 seat 1"), "{word}");
    }
}

fn places(words: &[&str]) -> Vec<u64> {
    let lines = printed(words);
    let heads = lines.lines().filter(|it| !it.starts_with(' '));
    heads.map(|it| it.split(' ').next().and_then(|it| it.parse().ok()).expect("a place")).collect()
}

#[test]
fn selections_choose() {
    let mut journal = Journal::registered();
    journal.command(0, &message(BC_RELEASE, &9u32.to_le_bytes()), &noted(1));
    let file = journal.file("selections");
    let of = |words: &[&str]| places(&[&["show", file.path()], words].concat());
    assert_eq!(of(&["--pid", "200"]), [3, 4, 8]);
    assert_eq!(of(&["--seat", "0", "--seat", "1", "--from", "7"]), [7, 8, 9]);
    assert_eq!(of(&["--handle", "1"]), [5, 6]);
    assert_eq!(of(&["--handle", "9"]), [9]);
    assert_eq!(of(&["--object", "4.0"]), [4, 5, 6, 8]);
    assert_eq!(of(&["--object", "1.0"]), [4, 5]);
    assert_eq!(of(&["--code", "3"]), [4, 5]);
    assert_eq!(of(&["--command", "bc_acquire", "--command", "BR_REPLY"]), [6, 8]);
    assert_eq!(of(&["--refused"]), [9]);
    assert_eq!(of(&["--from", "2", "--to", "5", "--pid", "100"]), [2]);
}

#[test]
fn json_has_what_the_formats_say() {
    let file = Journal::one_way().file("json");
    let line = printed(&["show", file.path(), "--format", "json", "--from", "6"]);
    let told: serde_json::Value = serde_json::from_str(&line).expect("a value on one line");
    assert_eq!(told["step"], serde_json::json!({"name": "read", "limit": 256}));
    let returned = &told["answer"]["returns"][1];
    assert_eq!((&returned["ptr"], &returned["buffer"]), (&"0x0".into(), &"0x10000".into()));
    assert_eq!((&returned["about"]["place"], &returned["about"]["pid"]), (&4.into(), &200.into()));
    assert_eq!(told["parcel"]["data"], "6869");
}

#[test]
fn an_index_changes_nothing_but_time() {
    indexed(Journal::one_way(), "indexed");
    indexed(Journal::one_way().widened(32), "indexed-wide");
}

fn indexed(mut journal: Journal, name: &str) {
    let free = message(BC_FREE_BUFFER, &65536u64.to_le_bytes());
    journal.command(0, &free, ACCEPTED);
    // Rounds of the call, so many that the index has more than one place to begin at.
    let round = journal.bytes[entry_at(&journal.bytes, 4)..].to_vec();
    for _ in 0..10_000 {
        journal.bytes.extend(&round);
        journal.count += 4;
    }
    let count = journal.count;
    let file = journal.says(count).file(name);
    let asked = |words: &[&str]| printed(&[&[words[0], file.path()], &words[1..]].concat());
    let words: [&[&str]; 3] =
        [&["show", "--from", "39990"], &["state", "--at", "30000"], &["show", "--from", "16384", "--to", "16390"]];
    let before: Vec<_> = words.iter().map(|it| asked(it)).collect();
    assert_eq!(printed(&["index", file.path()]), "");
    let after: Vec<_> = words.iter().map(|it| asked(it)).collect();
    assert_eq!(before, after);
    assert!(before[0].starts_with("39990 seat"), "{}", before[0]);
    let index = format!("{}.index", file.path());
    std::fs::write(&index, b"nothing").expect("the index");
    let done = run(&["show", file.path(), "--from", "39990"]);
    assert!(String::from_utf8_lossy(&done.stderr).contains(".index: not used: "), "a broken index is told");
    assert_eq!(String::from_utf8_lossy(&done.stdout), before[0]);
    std::fs::remove_file(index).expect("the index");
}

/// The byte at which an entry stands.
fn entry_at(bytes: &[u8], place: usize) -> usize {
    let number = |at: usize| u32::from_le_bytes(bytes[at..at + 4].try_into().expect("four")) as usize;
    (0..place).fold(heading_size(bytes), |at, _| {
        let answer = at + 8 + number(at + 4);
        answer + 4 + number(answer)
    })
}

#[test]
fn a_parcel_that_the_daemon_wrapped_is_told_as_its_client_sent_it() {
    // One descriptor, the offset of it, no buffers, and the trailer of clients/README.md.
    let mut data = object(0x6664_2a85, 5, 0);
    data.extend([0u64, 24, 8, 0].map(u64::to_le_bytes).concat());
    data.extend([4u32, 1, 2000, 0].map(u32::to_le_bytes).concat());
    data.extend(b"trailer\0");
    let mut journal = Journal::base();
    let record = Record { data: data.len() as u64, ..Record::default() };
    journal.send(1, &record.bytes(BC_TRANSACTION), &data, &[], ACCEPTED);
    let file = journal.file("wrapped");
    let lines = printed(&["show", file.path(), "--from", "4", "--bytes", "1"]);
    let told = "
    wrapped by the daemon: 24 bytes of data, 1 objects, 0 bytes of buffers, 1 descriptors, euid 2000
    object at 0x0: FD fd 5
    0000  85";
    assert!(lines.contains(told), "{lines}");
}

#[test]
fn a_choice_that_nothing_is_of_is_told() {
    let file = Journal::one_way().file("none-chosen");
    for words in [
        &["--pid", "999"][..],
        &["--refused"],
        &["--command", "BC_REPLY"],
        &["--from", "3", "--to", "3"],
        &["--from", "7"],
    ] {
        let said = fault(&[&["show", file.path()], words].concat());
        assert_eq!(said, format!("hullpippin: {}: no entry is as chosen\n", file.path()));
    }
    assert!(printed(&["show", file.path(), "--pid", "200"]).lines().count() > 2);
}
