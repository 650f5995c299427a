// SPDX-License-Identifier: Apache-2.0 OR MIT
//! What lies beside a journal: times, and the names of threads.
mod common;
use common::*;
use serde_json::{json, Value};
use std::io::{BufRead, BufReader};
use std::path::PathBuf;
use std::process::{Command, Stdio};

/// What it says on standard error, where it ends well.
fn said(words: &[&str]) -> String {
    let done = run(words);
    assert!(done.status.success(), "{words:?}");
    String::from_utf8(done.stderr).expect("text")
}

fn places(words: &[&str]) -> Vec<u64> {
    let lines = printed(words);
    let heads = lines.lines().filter(|it| !it.starts_with(' '));
    heads.map(|it| it.split(' ').next().and_then(|it| it.parse().ok()).expect("a place")).collect()
}

#[test]
fn lines_have_times_threads_and_ages() {
    let file = Recorded::registered("lines");
    let lines = printed(&["show", file.path(), "--bytes", "0"]);
    let told: Vec<&str> = lines.lines().collect();
    assert_eq!(
        told[0],
        "0 11:03:07.000000 seat 0 pid 100 (tid 100 \"manager\") open pid 100 euid 1000 window 4096: opened"
    );
    let call = "4 11:03:10.000000 seat 1 pid 200 (tid 215 \"Binder:200_1 x\") BC_TRANSACTION handle 0 (1.0 ";
    assert!(told[4].starts_with(call), "{lines}");
    assert!(
        told[5].starts_with("5 11:03:10.000013 seat 0 pid 100 (tid 100 \"manager\") read limit 256: got "),
        "{lines}"
    );
    assert!(
        told[7].ends_with("(the call at 4 by pid 200 seat 1 on 1.0 \"manager\" of pid 100, 13.1 us ago)"),
        "{lines}"
    );
    assert!(lines.contains("\n    BR_TRANSACTION_COMPLETE (for 4, 1.2 ms ago)\n"), "{lines}");
    assert!(lines.contains("(the reply at 7 by pid 100 seat 0 to the call at 4, 1.2 ms ago)\n"), "{lines}");
}

#[test]
fn times_are_those_of_where_one_is() {
    let file = Recorded::registered("zone");
    let done = program().args(["show", "--to", "1", file.path()]).env("TZ", "EET-2").output().expect("the program");
    assert!(String::from_utf8_lossy(&done.stdout).starts_with("0 13:03:07.000000 seat 0"));
    let words = ["show", file.path(), "--since", "13:03:10"];
    let done = program().args(words).env("TZ", "EET-2").output().expect("the program");
    assert!(String::from_utf8_lossy(&done.stdout).starts_with("4 13:03:10.000000 seat 1"));
}

#[test]
fn json_has_times_of_no_zone() {
    let file = Recorded::registered("json");
    let lines = printed(&["show", file.path(), "--format", "json"]);
    let told: Vec<Value> = lines.lines().map(|it| serde_json::from_str(it).expect("JSON")).collect();
    assert_eq!(told[5]["time"], "2026-11-28T11:03:10.000013100Z");
    assert_eq!(told[5]["thread"], json!({"pid": 100, "tid": 100, "comm": "manager"}));
    assert_eq!(told[5]["answer"]["returns"][1]["age"], 13_100);
}

#[test]
fn periods_choose() {
    let file = Recorded::registered("periods");
    let of = |words: &[&str]| places(&[&["show", file.path()], words].concat());
    assert_eq!(of(&["--since", "+1.5"]), [3, 4, 5, 6, 7, 8]);
    assert_eq!(of(&["--until", "+1.5"]), [0, 1, 2]);
    assert_eq!(of(&["--since", "11:03:07.0005", "--until", "11:03:10"]), [2, 3]);
    assert_eq!(of(&["--since", "2026-11-28T11:03:10.00005", "--until", "2026-11-28 11:03:11"]), [6, 7, 8]);
    assert_eq!(of(&["--since", "+0.0004", "--from", "3", "--to", "6"]), [3, 4, 5]);
    assert_eq!(places(&["show", file.path(), "--since", "+1.5", "--command", "read"]), [5, 8]);
}

/// Whatever looks at a period in which nothing was says so, and prints nothing: no head of a table, no frame of a picture.
#[test]
fn a_period_without_entries_is_told() {
    let file = Recorded::registered("nothing");
    let periods = [&["--since", "2026-11-29T00:00"][..], &["--until", "1999-12-31T23:59"], &["--from", "9"]];
    let words = [
        &["show"][..],
        &["stats"],
        &["slow"],
        &["diagram"],
        &["diagram", "--format", "svg"],
        &["diagram", "--format", "mermaid"],
        &["diagram", "--format", "text"],
        &["export", "--format", "perfetto"],
        &["export", "--format", "pcapng"],
    ];
    for (words, period) in words.iter().flat_map(|words| periods.iter().map(move |it| (words, it))) {
        let done = run(&[words, &[file.path()][..], period].concat());
        let said = String::from_utf8_lossy(&done.stderr).into_owned();
        assert_eq!(said, format!("hullpippin: {}: no entry is as chosen\n", file.path()), "{words:?} {period:?}");
        assert_eq!((done.status.code(), done.stdout.len()), (Some(1), 0), "{words:?} {period:?}");
    }
    let said = fault(&["calls", file.path(), "--since", "2026-11-29T00:00"]);
    assert_eq!(said, format!("hullpippin: {}: no entry is as chosen\n", file.path()));
}

#[test]
fn threads_are_chosen_by_tid_and_by_name() {
    let file = Recorded::registered("threads");
    let of = |words: &[&str]| places(&[&["show", file.path()], words].concat());
    assert_eq!(of(&["--tid", "215"]), [3, 4, 8]);
    assert_eq!(of(&["--comm", "manager"]), [0, 1, 2, 5, 6, 7]);
    let none = |words: &[&str]| fault(&[&["show", file.path()], words].concat()).ends_with("no entry is as chosen\n");
    assert!(none(&["--comm", "manager", "--tid", "215"]));
    assert_eq!(of(&["--comm", "Binder:200_1 x", "--from", "4"]), [4, 8]);
    assert!(none(&["--tid", "7"]));
}

/// A seat is told by who sits there at that place, and by the system's pid where the history has another one.
#[test]
fn a_seat_that_goes_to_another_thread() {
    let who = "HPWHO 1 binder\n0 0 100 100 manager\n3 1 4000 4001 app\n5 1 -\n7 1 4000 4002 \\x5cn\\xc3\\xa9\n";
    let file = Recorded::new("goes", &Journal::registered(), &CLOCKS, who);
    let lines = printed(&["show", file.path(), "--bytes", "0", "--seat", "1"]);
    assert!(lines.contains("seat 1 pid 200 (pid 4000 tid 4001 \"app\") BC_TRANSACTION"), "{lines}");
    assert!(lines.contains("seat 1 pid 200 (pid 4000 tid 4002 \"\\\\né\") read"), "{lines}");
    assert_eq!(places(&["show", file.path(), "--pid", "4000"]), [3, 4, 8]);
    assert_eq!(places(&["show", file.path(), "--comm", "\\né"]), [8]);
    let state = printed(&["state", file.path()]);
    assert!(state.contains("\n  seat 1 (pid 4000 tid 4002 \"\\\\né\")\n"), "{state}");
    let state = printed(&["state", file.path(), "--at", "6"]);
    assert!(state.contains("\n  seat 1, waits in the call at 4, has something to read\n"), "{state}");
}

#[test]
fn a_state_is_asked_by_time() {
    let file = Recorded::registered("state");
    assert!(printed(&["state", file.path(), "--at", "+1.5"]).starts_with("after 3 steps\n"));
    assert!(printed(&["state", file.path(), "--at", "11:03:10"]).starts_with("after 4 steps\n"));
    assert!(printed(&["leaks", file.path(), "--at", "+3.001"]).starts_with("after 8 steps\n"));
    let difference = printed(&["state", file.path(), "--diff", "+0.0001", "+0.0005"]);
    assert!(difference.starts_with("- manager none\n+ manager object 1.0\n"), "{difference}");
    let told = printed(&["state", file.path(), "--format", "json"]);
    let process: Value = serde_json::from_str(told.lines().nth(2).expect("pid 200")).expect("JSON");
    assert_eq!(process["threads"][0]["thread"]["tid"], 215);
}

#[test]
fn statistics_are_told_in_time() {
    let file = Recorded::registered("stats");
    let lines = printed(&["stats", file.path()]);
    let period = "9 entries, from 2026-11-28 11:03:07.000000 to 2026-11-28 11:03:10.001200, 3.0 s\n";
    assert!(lines.starts_with(period), "{lines}");
    assert!(lines.contains("\ncalls, and how much time lies between a call and the reading of its reply, "), "{lines}");
    let row = format!("{:>10} {:>10} {:>10} {:>8} {:>8} {:>8} {:>8}  ", 1, 112, 4, 0, "1.2 ms", "1.2 ms", "1.2 ms");
    let pair = "pid 200 \"Binder:200_1 x\" -> pid 100 \"manager\" 0x3 1.0 \"manager\" of pid 100\n";
    assert!(lines.ends_with(&format!("{row}{pair}")), "{lines}");
}

#[test]
fn what_was_slow_is_told_in_time() {
    let file = Recorded::registered("slow");
    let line = "1.2 ms from 4: pid 200 \"Binder:200_1 x\" seat 1 -> pid 100 \"manager\" on 1.0 \"manager\" of pid 100 code 0x3: \
                its reply was read at 8, unread 13.1 us of that\n";
    assert_eq!(printed(&["slow", file.path()]), line);
    assert!(printed(&["slow", file.path(), "--until", "11:03:10.0001"]).starts_with("50.0 us from 4: "), "still open");
}

#[test]
fn traces_have_times_threads_and_names() {
    let file = Recorded::registered("trace");
    let trace: Value = serde_json::from_str(&printed(&["export", file.path(), "--to", "perfetto"])).expect("JSON");
    let events = trace["traceEvents"].as_array().expect("events");
    let named: Vec<_> =
        events.iter().filter(|it| it["ph"] == "M").map(|it| (&it["tid"], &it["args"]["name"])).collect();
    let expected = [(100, "manager"), (100, "manager"), (215, "Binder:200_1 x"), (215, "Binder:200_1 x")];
    assert_eq!(
        named,
        expected.map(|it| (Value::from(it.0), Value::from(it.1))).iter().map(|it| (&it.0, &it.1)).collect::<Vec<_>>()
    );
    let nanoseconds = |it: &Value| (it["ts"].as_f64().expect("a time") * 1000.0).round() as u64;
    let slices: Vec<_> = events.iter().filter(|it| it["ph"] == "B" || it["ph"] == "E").map(nanoseconds).collect();
    // Where one entry has several events, they follow one another by a nanosecond each.
    let (begun, taken, replied, read) = (CLOCKS[4], CLOCKS[5], CLOCKS[7] + 1, CLOCKS[8] + 1);
    assert_eq!(slices, [begun, taken, replied, read]);
}

#[test]
fn packets_are_stamped_with_the_real_time() {
    let file = Recorded::registered("packets");
    let done = run(&["export", file.path(), "--to", "pcapng"]);
    let number = |at: usize| u32::from_le_bytes(done.stdout[at..at + 4].try_into().expect("four bytes"));
    let (mut at, mut stamps) = (0, Vec::new());
    while at < done.stdout.len() {
        if number(at) == 6 {
            stamps.push(u64::from(number(at + 12)) << 32 | u64::from(number(at + 16)));
        }
        at += number(at + 4) as usize;
    }
    assert_eq!(stamps, CLOCKS.map(|it| EPOCH - STARTED + it));
}

#[test]
#[ignore = "needs tshark"]
fn tshark_reads_the_stamps() {
    let file = Recorded::registered("tshark");
    let packets = kept("stamps.pcapng", &run(&["export", file.path(), "--to", "pcapng"]).stdout);
    let words = ["-n", "-r", packets.path(), "-T", "fields", "-e", "frame.time_epoch"];
    let done = Command::new("tshark").args(words).output().expect("tshark");
    let told = String::from_utf8_lossy(&done.stdout).into_owned();
    assert_eq!(told.lines().nth(5), Some("1795863790.000013100"), "{told}");
    assert_eq!(told.lines().count(), 9);
}

#[test]
fn lanes_have_names_and_marks_have_times() {
    let file = Recorded::registered("page");
    let page = printed(&["diagram", file.path()]);
    assert!(page.contains("{\"pid\":200,\"seat\":1,\"name\":\"Binder:200_1 x 215\","), "{page}");
    assert!(page.contains("0x3 112 bytes, at 11:03:10.000000, 1.2 ms\""), "{page}");
    assert!(page.contains("\"open pid 200, at 11:03:08.500000\""), "{page}");
}

#[test]
fn what_ends_earlier_than_the_journal_is_said_once() {
    let cut = Recorded::new("short", &Journal::registered(), &CLOCKS[..6], WHO);
    let words = ["show", cut.path(), "--bytes", "0"];
    let told = format!("hullpippin: {}: it ends here; entries from place 6 on have no time\n", cut.times.path());
    assert_eq!(said(&words), told);
    let lines = String::from_utf8(run(&words).stdout).expect("text");
    assert!(lines.contains("\n5 11:03:10.000013 seat 0 ") && lines.contains("\n6 seat 0 pid 100 (tid 100 "), "{lines}");
    assert_eq!(said(&["show", cut.path(), "--to", "6"]), "", "what isn't asked for isn't missed");
    // Half a time is none, and an entry without a time is in no period.
    std::fs::write(&cut.times.0, &times(&CLOCKS)[..16 + 6 * 8 + 7]).expect("the times");
    assert_eq!(said(&words), told);
    let since = String::from_utf8(run(&["show", cut.path(), "--since", "+3", "--bytes", "0"]).stdout).expect("text");
    assert!(since.contains("4 11:03:10") && since.contains("\n5 11:03:10") && !since.contains("\n6 "), "{since}");
    assert!(run(&["slow", cut.path()]).stdout.is_empty(), "how long it took isn't known");
}

#[test]
fn what_makes_no_sense_beside_a_journal_is_said_and_not_used() {
    let file = Journal::registered().file("bad");
    let plain = printed(&["show", file.path()]);
    for (suffix, bytes, words) in [
        ("times", &b"HPTIMES2........"[..], "it doesn't begin as times do"),
        ("times", b"HPTIMES1....", "it doesn't begin as times do"),
        ("who", b"HPWHO 2 binder\n", "it doesn't begin as names do"),
        ("who", b"", "it doesn't begin as names do"),
    ] {
        let kept = beside(&file, suffix, bytes);
        let done = run(&["show", file.path()]);
        let told = format!("hullpippin: {}: {words}; so it isn't used\n", kept.path());
        assert_eq!(String::from_utf8_lossy(&done.stderr), told);
        assert_eq!((done.status.code(), String::from_utf8_lossy(&done.stdout).into_owned()), (Some(0), plain.clone()));
    }
}

#[test]
fn names_are_used_up_to_a_line_that_makes_no_sense() {
    let file = Journal::registered().file("lines-bad");
    for (lines, words) in [
        ("0 0 100 100 a\n4 x\n8 1 200 215 b\n", "line 3 makes no sense: \"4 x\""),
        ("4 0 100 100 a\n3 1 200 215 b\n", "line 3 makes no sense: \"3 1 200 215 b\""),
        (&format!("0 0 100 100 a\n4 1 200 215 {}\n", "b".repeat(256)), "line 3 is longer than any can be"),
    ] {
        let who = beside(&file, "who", format!("HPWHO 1 binder\n{lines}").as_bytes());
        let told = format!("hullpippin: {}: {words}; who sits where isn't known from there on\n", who.path());
        assert_eq!(said(&["show", "--own", file.path()]), told);
    }
}

/// As after a crash, which the journal need not have reached.
#[test]
fn a_line_that_broke_off_is_left_out() {
    let file = Recorded::new("broken", &Journal::registered(), &CLOCKS, "HPWHO 1 binder\n0 0 100 0 a\n4 1 200 2");
    let words = ["show", file.path(), "--bytes", "0"];
    assert_eq!(said(&words), format!("hullpippin: {}: line 3 broke off, and is left out\n", file.who.path()));
    let lines = String::from_utf8(run(&words).stdout).expect("text");
    assert!(
        lines.contains("seat 0 pid 100 (\"a\") read") && lines.contains("seat 1 pid 200 BC_TRANSACTION"),
        "{lines}"
    );
}

#[test]
fn who_chooses_by_what_is_not_there_is_told() {
    let file = Journal::registered().file("none");
    let times = format!("entries have no times to choose by: there is no {}.times to be used\n", file.path());
    let names = format!("threads have no names to choose by: there is no {}.who to be used\n", file.path());
    for (words, told) in [
        (&["show", "--since", "+1"][..], &times),
        (&["stats", "--until", "12:00"], &times),
        (&["state", "--at", "12:00"], &times),
        (&["show", "--tid", "7"], &names),
        (&["show", "--comm", "x"], &names),
    ] {
        assert_eq!(fault(&[words, &[file.path()]].concat()), format!("hullpippin: {told}"), "{words:?}");
    }
    let done = run(&["show", file.path(), "--since", "yesterday"]);
    assert_eq!(done.status.code(), Some(2));
    assert!(String::from_utf8_lossy(&done.stderr).contains("a time is 12:03 or 12:03:07.5 of the day"));
}

#[test]
fn an_index_leads_to_a_time() {
    let mut journal = Journal::base();
    let count = 40_000;
    for _ in journal.count..count {
        journal.command(0, &message(BC_ENTER_LOOPER, &[]), ACCEPTED);
    }
    let clocks: Vec<u64> = (0..u64::from(count)).map(|it| STARTED + 1_000_000 * it).collect();
    let file = Recorded::new("indexed", &journal, &clocks, WHO);
    let words = ["show", file.path(), "--since", "+39.9985"];
    let before = printed(&words);
    assert!(
        before.starts_with("39999 11:03:46.999000 seat 0 pid 100 (tid 100 \"manager\") BC_ENTER_LOOPER"),
        "{before}"
    );
    printed(&["index", file.path()]);
    let index = Kept(format!("{}.index", file.path()).into());
    assert_eq!(printed(&words), before);
    drop(index);
}

#[test]
fn what_grows_beside_a_journal_is_followed() {
    let (mut short, whole) = (Journal::base(), Journal::registered());
    let file = Recorded::new("grows", short.says(u32::MAX), &CLOCKS[..4], &WHO[..WHO.len() - 5]);
    let mut child = program();
    child.args(["show", "--follow", "--bytes", "0", file.path()]).stdout(Stdio::piped());
    let mut child = child.spawn().expect("the program");
    let mut lines = BufReader::new(child.stdout.take().expect("a pipe")).lines().map(|it| it.expect("a line"));
    assert!(lines.by_ref().take(4).last().expect("four lines").starts_with("3 11:03:08.500000 seat 1 pid 200 open"));
    // As a recorder does, what lies beside comes first.
    std::fs::write(&file.who.0, WHO).expect("the names");
    std::fs::write(&file.times.0, times(&CLOCKS)).expect("the times");
    std::fs::write(&file.journal.0, &whole.bytes).expect("the journal");
    let line = lines.next().expect("the next line");
    assert!(line.starts_with("4 11:03:10.000000 seat 1 pid 200 (tid 215 \"Binder:200_1 x\") BC_TRANSACTION"), "{line}");
    assert!(lines.last().expect("the last line").ends_with("1.2 ms ago)"));
    assert!(child.wait().expect("its end").success());
}

/// The daemon's own seat is 0, on which no thread sits; by it processes begin and end.
#[test]
fn the_daemons_own_steps_are_shown_to_who_asks() {
    let who = "HPWHO 1 binder\n3 1 200 215 x\n";
    let recorded = Recorded::new("own", &Journal::registered(), &CLOCKS, who);
    let done = run(&["show", recorded.path()]);
    let lines = String::from_utf8_lossy(&done.stdout).into_owned();
    assert!(!lines.contains(" seat 0 pid ") && lines.contains("\n4 "), "{lines}");
    let said = String::from_utf8_lossy(&done.stderr).into_owned();
    assert_eq!(said, "hullpippin: 6 steps of the daemon's own are left out; --own shows them\n");
    let all = printed(&["show", recorded.path(), "--own"]);
    assert!(all.contains("0 11:03:07.000000 seat 0 pid 100 open"), "{all}");
    // A journal of a run has no such seat, and no names beside it.
    let plain = Journal::registered().file("plain");
    assert!(printed(&["show", plain.path()]).starts_with("0 seat 0 pid 100 open"));
}

/// The same lines as `trace` tells, of a recording.
#[test]
fn a_recording_is_told_by_its_calls() {
    let recorded = Recorded::registered("calls");
    let line =
        "11:03:10.000000 Binder:200_1 x(200/215) -> manager(100/100) manager#3 112 B = 4 B <1.2 ms, 13.1 us unread>\n";
    assert_eq!(printed(&["calls", recorded.path()]), line);
    let of_service = ["--interface", "manager"];
    for words in
        [["--interface", "IServiceManager"], of_service, ["--comm", "manager"], ["--code", "3"], ["--pid", "100"]]
    {
        assert_eq!(printed(&[&["calls", recorded.path()][..], &words].concat()), line, "{words:?}");
    }
    for words in
        [&["--interface", "IServiceManage"][..], &["--comm", "other"], &["--code", "4"], &["--pid", "7"], &["--failed"]]
    {
        let said = fault(&[&["calls", recorded.path()][..], words].concat());
        assert!(said.ends_with("no call is as chosen\n"), "{words:?}: {said}");
    }
    let said = fault(&["calls", recorded.path(), "--to", "2"]);
    assert_eq!(said, format!("hullpippin: {}: no call is as chosen\n", recorded.path()));
    let bare = Journal::registered().file("bare-calls");
    assert_eq!(
        printed(&["calls", bare.path()]),
        "4 pid 200 seat 1 -> pid 100 seat 0 manager#3 112 B = 4 B <4 entries, 1 entries unread>\n"
    );
    let one_way = Journal::one_way().file("one-way-calls");
    assert_eq!(
        printed(&["calls", one_way.path()]),
        "4 pid 200 seat 1 -> pid 100 seat 0 manager#7 one-way 2 B <2 entries unread>\n"
    );
}

/// android.os.IServiceManager as far as the registration needs it: addService is its third.
const SERVICE_MANAGER: &str = "package android.os;\ninterface IServiceManager {\n    IBinder getService(String name);\n    \
    IBinder checkService(String name);\n    void addService(String name, IBinder service, boolean isolated, int priority);\n}\n";

#[test]
fn methods_are_called_by_the_names_of_the_files() {
    let folder =
        PathBuf::from(env!("CARGO_TARGET_TMPDIR")).join(format!("{}-aidl-files/android/os", std::process::id()));
    std::fs::create_dir_all(&folder).expect("a folder");
    std::fs::write(folder.join("IServiceManager.aidl"), SERVICE_MANAGER).expect("a file");
    std::fs::write(folder.join("Bad.aidl"), "interface {").expect("a file");
    let top = folder.parent().and_then(|it| it.parent()).expect("the folder").display().to_string();
    let recorded = Recorded::registered("aidl");
    let done = run(&["calls", recorded.path(), "--aidl", &top]);
    let line = "11:03:10.000000 Binder:200_1 x(200/215) -> manager(100/100) manager.addService(\"hello\", binder 0x1000) 112 B = 4 B";
    let (lines, said) = (String::from_utf8_lossy(&done.stdout), String::from_utf8_lossy(&done.stderr));
    assert!(lines.starts_with(line), "{lines}");
    assert!(said.contains("Bad.aidl: line 1: a name is wanted; so it isn't used"), "{said}");
    std::fs::remove_file(folder.join("Bad.aidl")).expect("it goes");
    let shown = printed(&["show", recorded.path(), "--aidl", &top]);
    assert!(
        shown.contains("interface android.os.IServiceManager, method addService(\"hello\", binder 0x1000)\n"),
        "{shown}"
    );
    assert!(
        shown.contains("interface android.os.IServiceManager, method addService(\"hello\", handle 1)\n"),
        "{shown}"
    );
    for words in [&["stats"][..], &["slow"], &["diagram"], &["export", "--format", "perfetto"]] {
        let told = printed(&[&[words[0], recorded.path(), "--aidl", &top], &words[1..]].concat());
        assert!(told.contains("0x3 addService"), "{told}");
    }
    std::fs::remove_dir_all(&top).expect("it goes");
    assert!(fault(&["calls", recorded.path(), "--aidl", &top]).contains("No such file"));
}
