// SPDX-License-Identifier: Apache-2.0 OR MIT
//! Files that are cut, bad or growing, words that make no sense, pipes that are closed.
mod common;
use common::*;
use std::fs::OpenOptions;
use std::io::{BufRead, BufReader, Read, Write};
use std::process::Stdio;

#[test]
fn a_file_that_is_not_there_is_told_with_why() {
    assert_eq!(
        fault(&["show", "/no/such/file"]),
        "hullpippin: /no/such/file: No such file or directory (os error 2)\n"
    );
}

#[test]
fn what_is_no_journal_is_told() {
    let file = kept("none", b"#!/bin/sh\necho\n");
    assert_eq!(
        fault(&["show", file.path()]),
        format!("hullpippin: {}: byte 0: no journal: it begins with \"#!/bin/s\"\n", file.path())
    );
    let empty = kept("empty", b"");
    assert_eq!(
        fault(&["show", empty.path()]),
        format!("hullpippin: {}: byte 0: no journal: it begins with \"\"\n", empty.path())
    );
}

#[test]
fn few_seats_are_no_matter_of_the_third_version() {
    let file = Journal::one_way().widened(31).file("few");
    assert_eq!(
        fault(&["show", file.path()]),
        format!("hullpippin: {}: byte 8: 31 seats, where this version has 32 to 65536\n", file.path())
    );
    let cut = kept("cut-heading", &Journal::new("BNDJ0003", 32).bytes[..16]);
    assert_eq!(
        fault(&["show", cut.path()]),
        format!("hullpippin: {}: byte 16: the heading has 20 bytes, and the file ends here\n", cut.path())
    );
}

#[test]
fn a_bad_byte_is_told_where_it_is() {
    let at = Journal::base().bytes.len();
    let mut bad = Journal::one_way();
    bad.bytes[at + 8] = 9;
    let file = bad.file("bad");
    let done = run(&["show", file.path()]);
    let told = format!("byte {}: the step of entry 4 begins with 9, which is no step of this version\n", at + 8);
    assert_eq!(String::from_utf8_lossy(&done.stderr), format!("hullpippin: {}: {told}", file.path()));
    assert_eq!(String::from_utf8_lossy(&done.stdout).lines().count(), 4, "what stands before it is printed");
}

#[test]
fn a_cut_off_file_is_shown_as_far_as_it_goes() {
    let whole = Journal::one_way();
    for less in [1, 40] {
        let file = kept("cut", &whole.bytes[..whole.bytes.len() - less]);
        let done = run(&["show", file.path()]);
        assert!(done.status.success());
        let said = String::from_utf8_lossy(&done.stderr).into_owned();
        assert!(said.contains("cut off, or still being written: 6 entries are whole, and "), "{said}");
        let lines = String::from_utf8_lossy(&done.stdout).into_owned();
        assert!(lines.contains("\n5 seat 1") && !lines.contains("\n6 seat 0"), "{lines}");
    }
}

#[test]
fn a_file_that_is_still_written_is_no_fault() {
    let mut journal = Journal::one_way();
    let mut wide = journal.widened(32);
    for file in [journal.says(u32::MAX).file("unended"), wide.says(u32::MAX).file("unended-wide")] {
        for word in ["state", "leaks"] {
            let done = run(&[word, file.path()]);
            assert!(done.status.success());
            let said = String::from_utf8_lossy(&done.stderr).into_owned();
            assert_eq!(said.matches("7 entries are whole\n").count(), 1, "{word}: {said}");
        }
    }
}

/// The heading of the third version may claim more entries than could ever be counted through.
#[test]
fn a_count_that_cannot_be_is_told_once() {
    let mut wide = Journal::one_way().widened(32);
    wide.bytes[12..20].copy_from_slice(&(u64::MAX - 1).to_le_bytes());
    let file = wide.file("claims");
    let done = run(&["leaks", file.path()]);
    let said = String::from_utf8_lossy(&done.stderr).into_owned();
    assert!(done.status.success() && said.matches("7 entries are whole").count() == 1, "{said}");
    assert!(String::from_utf8_lossy(&done.stdout).starts_with("after 7 steps\npid 100: 1 buffers were read"));
}

#[test]
fn what_stands_behind_the_last_entry_is_told() {
    let mut journal = Journal::one_way();
    let end = journal.bytes.len();
    journal.bytes.push(0);
    let file = journal.file("behind");
    let said = fault(&["show", file.path()]);
    assert_eq!(
        said,
        format!("hullpippin: {}: byte {end}: something stands behind the last of 7 entries\n", file.path())
    );
}

#[test]
fn standard_input_is_read() {
    let done = fed(&["show", "-"], &Journal::one_way().bytes);
    assert!(done.status.success());
    assert_eq!(String::from_utf8_lossy(&done.stdout).lines().count(), 7 + 4 + 2, "entries, returns, dumps");
    let done = fed(&["show", "-"], b"BNDJ0007........");
    assert_eq!(
        String::from_utf8_lossy(&done.stderr),
        "hullpippin: standard input: byte 0: no journal: it begins with \"BNDJ0007\"\n"
    );
}

#[test]
fn places_that_there_are_not_are_told_with_the_range() {
    let file = Journal::one_way().file("range");
    let told = |words: &[&str]| fault(&[&[words[0], file.path()], &words[1..]].concat());
    let range = format!("hullpippin: {}: there is no place 9: it has 7 entries, at places 0 to 6\n", file.path());
    for words in [
        &["show", "--from", "9"][..],
        &["show", "--to", "9"],
        &["state", "--at", "9"],
        &["leaks", "--at", "9"],
        &["explain", "9"],
    ] {
        assert_eq!(told(words), range, "{words:?}");
    }
    assert!(told(&["show", "--from", "3", "--to", "2"]).contains("--to 2 lies before --from 3"));
    assert!(told(&["holders", "9.9"]).contains("after 7 steps there is no object 9.9"));
}

#[test]
fn a_word_that_makes_no_sense_is_answered_with_one_that_does() {
    let file = Journal::one_way().file("words");
    let said = |words: &[&str]| {
        let done = run(&[&["show", file.path()], words].concat());
        assert_eq!(done.status.code(), Some(2), "{words:?}");
        String::from_utf8_lossy(&done.stderr).into_owned()
    };
    assert!(said(&["--refusd"]).contains("'--refused'"));
    assert!(said(&["--command", "BC_FREE"]).contains("BC_FREE_BUFFER"));
    assert!(said(&["--object", "3"]).contains("an object is PLACE.INDEX"));
    assert!(said(&["--format", "xml"]).contains("text, json"));
}

#[test]
fn colours_are_for_who_wants_them() {
    let file = Journal::one_way().file("colours");
    assert!(!printed(&["show", file.path()]).contains('\x1b'), "a pipe has none");
    let coloured = printed(&["show", file.path(), "--color", "always"]);
    assert!(coloured.contains('\x1b'));
    let done =
        program().args(["show", file.path(), "--color", "auto"]).env("NO_COLOR", "1").output().expect("the program");
    assert!(!done.stdout.contains(&0x1b));
}

/// What the program prints to a terminal, which `script` of util-linux makes.
fn on_terminal(words: &str, variable: (&str, &str)) -> String {
    let command = format!("{} {words}", env!("CARGO_BIN_EXE_hullpippin"));
    let mut script = std::process::Command::new("script");
    script.args(["-qec", &command, "/dev/null"]).stdin(Stdio::null()).env("TERM", "xterm");
    let done = script.env_remove("NO_COLOR").env(variable.0, variable.1).output().expect("script");
    assert!(done.status.success());
    String::from_utf8(done.stdout).expect("text")
}

#[test]
#[ignore = "needs script"]
fn a_terminal_gets_colours_and_a_pager() {
    let file = Journal::one_way().file("terminal");
    let words = format!("show --to 1 {}", file.path());
    let line = "0 seat 0 pid 100 open pid 100 euid 1000 window 4096: opened\r\n";
    let paged = on_terminal(&words, ("HULLPIPPIN_PAGER", "sed s/^/page:/"));
    assert!(paged.starts_with("page:\x1b[") && paged.contains("\x1b[0m seat 0 pid 100 "), "{paged}");
    let bare = on_terminal(&format!("--no-pager {words}"), ("NO_COLOR", "1"));
    assert_eq!(bare, line);
    assert!(on_terminal(&format!("--no-pager {words}"), ("HULLPIPPIN_PAGER", "false")).contains('\x1b'));
}

#[test]
fn a_closed_pipe_is_silent() {
    let mut journal = Journal::one_way();
    for _ in 0..20_000 {
        journal.command(0, &message(BC_ENTER_LOOPER, &[]), ACCEPTED);
    }
    let file = journal.file("pipe");
    let mut child = program()
        .args(["show", file.path()])
        .stdout(Stdio::piped())
        .stderr(Stdio::piped())
        .spawn()
        .expect("the program");
    let mut line = String::new();
    BufReader::new(child.stdout.take().expect("a pipe")).read_line(&mut line).expect("a line");
    let mut said = String::new();
    child.stderr.take().expect("a pipe").read_to_string(&mut said).expect("text");
    assert_eq!((said.as_str(), child.wait().expect("its end").code()), ("", Some(0)));
    assert!(line.starts_with("0 seat 0 pid 100 open"));
}

#[test]
fn how_far_a_journal_is_read_is_told() {
    let file = Journal::registered().file("progress");
    for words in [&["stats", file.path(), "--progress"][..], &["--progress", "show", file.path()]] {
        let done = run(words);
        let said = String::from_utf8(done.stderr).expect("text");
        assert!(
            said.starts_with("9 of 9 entries, ") && said.ends_with(" a second\n") && said.lines().count() == 1,
            "{said}"
        );
        let without: Vec<&str> = words.iter().copied().filter(|it| *it != "--progress").collect();
        assert_eq!(String::from_utf8_lossy(&done.stdout), printed(&without));
    }
}

/// A word that isn't known is told with the one that it may have been, and the status is that of words that make no sense.
#[test]
fn what_was_meant_is_suggested() {
    for (words, told) in [(&["stast", "x"][..], "'state', 'stats'"), (&["show", "x", "--hande", "1"], "'--handle'")] {
        let done = run(words);
        let said = String::from_utf8(done.stderr).expect("text");
        assert!(said.contains(told), "{said}");
        assert_eq!(done.status.code(), Some(2));
    }
}

#[test]
fn following_goes_on_while_the_file_grows() {
    follow(Journal::base(), Journal::one_way(), "growing");
    follow(Journal::base().widened(32), Journal::one_way().widened(32), "growing-wide");
}

fn follow(mut short: Journal, whole: Journal, name: &str) {
    let file = short.says(u32::MAX).file(name);
    let mut child =
        program().args(["show", "--follow", file.path()]).stdout(Stdio::piped()).spawn().expect("the program");
    let mut lines = BufReader::new(child.stdout.take().expect("a pipe")).lines().map(|it| it.expect("a line"));
    assert!(lines.by_ref().take(4).last().expect("four lines").starts_with("3 seat 1 pid 200 open"));
    let mut grown = OpenOptions::new().append(true).open(&file.0).expect("the file");
    let (half, rest) = whole.bytes[short.bytes.len()..].split_at(10);
    grown.write_all(half).and_then(|()| grown.write_all(rest)).expect("it grows");
    assert!(lines.next().expect("the next line").starts_with("4 seat 1 pid 200 BC_TRANSACTION"));
    // Who writes says in the end how many there are; so it ends.
    std::fs::write(&file.0, &whole.bytes).expect("the file");
    assert!(lines.last().expect("the last line").contains("68 69"));
    assert!(child.wait().expect("its end").success());
}
