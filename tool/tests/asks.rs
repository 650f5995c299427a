// SPDX-License-Identifier: Apache-2.0 OR MIT
//! What is asked of a journal: why, who has what, what leaks. The expected lines were written from docs/RULES.md.
mod common;
use common::*;

#[test]
fn the_state_after_a_registration() {
    let file = Journal::registered().file("state");
    let lines = "\
after 9 steps
manager object 1.0
pid 100 euid 1000 window 4096 opened at 0
  seat 0, in the loop, has something to read
  seat 0 unread since 7: BR_TRANSACTION_COMPLETE
  object 1.0 \"manager\" ptr 0x0 cookie 0x0, told weak, told strong
  handle 1 object 4.0 \"hello\" of pid 200, strong, asked strongly 1, carried at 4
  buffer 0x10000 made at 4 size 120 from pid 200 code 0x3, for object 1.0, carries 4.0
pid 200 euid 2000 window 4096 opened at 3
  seat 1
  object 4.0 \"hello\" ptr 0x1000 cookie 0x2000, told weak, told strong, named by pid 100
  buffer 0x10000 made at 7 size 8 from pid 100 code 0x0
";
    assert_eq!(printed(&["state", file.path()]), lines);
    assert!(printed(&["state", file.path(), "--at", "0"]).starts_with("after 0 steps\n"));
}

#[test]
fn the_difference_of_two_places() {
    let file = Journal::registered().file("difference");
    let lines = "\
- pid 100 seat 0, serves the call at 4, in the loop
+ pid 100 seat 0, in the loop, has something to read
+ pid 100 seat 0 unread since 7: BR_TRANSACTION_COMPLETE
+ pid 200 buffer 0x10000 made at 7 size 8 from pid 100 code 0x0, unread
- pid 200 seat 1, waits in the call at 4, has something to read
+ pid 200 seat 1, has something to read
+ pid 200 seat 1 unread since 7: BR_REPLY, the reply at 7
";
    assert_eq!(printed(&["state", file.path(), "--diff", "7", "8"]), lines);
    assert_eq!(printed(&["state", file.path(), "--diff", "8", "8"]), "");
}

#[test]
fn all_that_holds_an_object() {
    let file = Journal::registered().file("holders");
    let lines = "\
object 4.0 \"hello\" of pid 200, ptr 0x1000 cookie 0x2000
references: 3 strong, 1 weak
  strong: pid 200 was told of it, and hasn't acknowledged that
  weak: pid 200 was told of it, and hasn't acknowledged that
  pid 100 names it by handle 1, since 4
    strong: it asked for 1
  strong: buffer 0x10000 of pid 100 carries it, made at 4 by pid 200
";
    assert_eq!(printed(&["holders", file.path(), "4.0"]), lines);
}

/// A call of a handle that there isn't, and what is read of that.
fn refused_call() -> Journal {
    let mut journal = Journal::registered();
    let free = message(BC_FREE_BUFFER, &65536u64.to_le_bytes());
    journal.command(0, &message(BC_RELEASE, &1u32.to_le_bytes()), ACCEPTED);
    journal.command(0, &free, ACCEPTED);
    let record = Record { target: 1, code: 9, ..Record::default() };
    journal.send(0, &record.bytes(BC_TRANSACTION), &[], &[], &stopped(1));
    let returns = [BR_NOOP, BR_TRANSACTION_COMPLETE, BR_FAILED_REPLY].map(|it| message(it, &[]));
    journal.read(0, &got(&returns, &[], &[]));
    journal.command(0, &free, &noted(5));
    journal.read(0, &refused(12));
    journal
}

#[test]
fn a_refused_call_is_explained_by_what_became_of_the_handle() {
    let file = refused_call().file("refused");
    let told = "\
11 seat 0 pid 100 BC_TRANSACTION handle 1 cookie 0x0 code 0x9 flags 0x0 data_size 0 offsets_size 0: stopped X1 NotStronglyNamed: the handle is not strongly named
    looked at, up to the first that holds: F4 no, X1 yes
    rules: Calls and replies, Refusals
    pid 100 had handle 1 for object 4.0 from 4 until it let go of it at 10
    its handles are: none
    X1 holds: transaction, handle not 0: the writer's process has no strong name with that handle
    it leaves: a Refusal on the writer's own list, which reads as BR_FAILED_REPLY
";
    assert_eq!(printed(&["explain", file.path(), "11"]), format!("{told}{NOT_JUDGED}"));
    let read = printed(&["explain", file.path(), "12"]);
    assert!(read.starts_with("12 seat 0 pid 100 read limit 256: got 12\n"), "{read}");
    let order = "    looked at, up to the first that holds: F4 no, F11 no, F12 no\n    rules: Work items and reading\n";
    assert!(
        read.ends_with(&format!("    BR_FAILED_REPLY (for 11)\n{order}{NOT_JUDGED}it comes from\n{told}")),
        "{read}"
    );
    let freed = printed(&["explain", file.path(), "13"]);
    assert!(freed.contains("    the latest buffer with that pointer was freed at 10\n"), "{freed}");
    let again = printed(&["explain", file.path(), "14"]);
    assert!(
        again.contains("    nothing stands on the list of seat 0\n    nothing stands on the list of pid 100\n"),
        "{again}"
    );
}

#[test]
fn a_call_with_an_unread_answer_is_explained() {
    let mut journal = Journal::registered();
    let mut cut = Journal::base();
    // As registered, up to the reply, which isn't read.
    let number = |at: usize| u32::from_le_bytes(journal.bytes[at..at + 4].try_into().expect("four")) as usize;
    let end = (0..8).fold(16, |at, _| {
        let answer = at + 8 + number(at + 4);
        answer + 4 + number(answer)
    });
    journal.bytes.truncate(end);
    cut.bytes = journal.bytes;
    cut.count = 8;
    cut.send(1, &Record::default().bytes(BC_TRANSACTION), &[], &[], &stopped(6));
    let file = cut.file("unread");
    assert!(printed(&["explain", file.path(), "8"]).contains("    unread on its list: the reply at 7\n"));
}

#[test]
fn names_are_explained_by_the_rules() {
    let told = "\
X6 Unread: the thread has a call or a reply to read
when: two-way: a Call, Reply or Verdict stands on the thread's own list
leaves: a Refusal on the writer's own list, which reads as BR_FAILED_REPLY
";
    assert_eq!(printed(&["explain", "X6"]), told);
    assert_eq!(printed(&["explain", "unread"]), told);
    let value = r#"{"name":"X6","word":"Unread","text":"the thread has a call or a reply to read","when":"two-way: a Call, Reply or Verdict stands on the thread's own list","leaves":"a Refusal on the writer's own list, which reads as BR_FAILED_REPLY"}"#;
    assert_eq!(printed(&["explain", "X6", "--format", "json"]), format!("{value}\n"));
    let value = printed(&["explain", "BR_DEAD_REPLY", "--format", "json"]);
    assert!(
        value.starts_with("{\"name\":\"BR_DEAD_REPLY\",") && value.ends_with("\"reasons\":[\"X2\",\"X4\"]}\n"),
        "{value}"
    );
    assert!(printed(&["explain", "BR_FAILED_REPLY"]).contains("  X9 BadObject: an offset or an object is bad\n"));
    assert!(fault(&["explain", "X17"])
        .starts_with("hullpippin: nothing is called X17, and there is no such file: there are F1"));
    let judged = fault(&["explain", Journal::base().file("names").path()]);
    assert!(
        judged.starts_with(
            "hullpippin: no library that judges, which tools/install brings or HULLPIPPIN_LIBRARY names: /no/such/"
        ),
        "{judged}"
    );
}

const NOTHING: &str = "nothing is held: each buffer that was read is freed, and nothing grows\n";

#[test]
fn what_leaks_is_told_oldest_first() {
    let file = Journal::one_way().file("leaks");
    let lines = "\
after 7 steps
pid 100: 1 buffers were read and not freed; 8 of 4096 bytes of its window are taken
  buffer 0x10000 8 bytes, read at 6, 1 entries ago: the call at 4 on 1.0 \"manager\" of pid 100 from pid 200 code 0x7
";
    assert_eq!(printed(&["leaks", file.path()]), lines);
    assert_eq!(printed(&["leaks", file.path(), "--at", "6"]), format!("after 6 steps\n{NOTHING}"));
}

#[test]
fn references_that_grow_are_told() {
    let mut journal = Journal::registered();
    for _ in 0..31 {
        journal.command(0, &message(BC_ACQUIRE, &1u32.to_le_bytes()), ACCEPTED);
    }
    let file = journal.file("growth");
    let lines = printed(&["leaks", file.path()]);
    let asked = "pid 100 asked for handle 1, 4.0 \"hello\" of pid 200, more than once: 32 strongly, 0 weakly\n";
    assert!(lines.contains(asked), "{lines}");
    // Eight looks at 40 entries: the first acquires of handle 1 are the entries 6, and 9 on.
    let grows = "pid 100: references asked for grow, from place 5 to 40: 0, 2, 7, 12, 17, 22, 27, 32\n";
    assert!(lines.contains(grows), "{lines}");
}

#[test]
fn counts_and_latencies_are_told() {
    let file = refused_call().file("stats");
    let lines = printed(&["stats", file.path()]);
    assert!(lines.starts_with("15 entries\n"), "{lines}");
    assert!(lines.contains("         2  BC_TRANSACTION\n"), "{lines}");
    assert!(lines.contains("         1  X1 NotStronglyNamed: the handle is not strongly named\n"), "{lines}");
    let pair = "         1        112          4        0        4        4        4  pid 200 -> pid 100 0x3 1.0 \"manager\" of pid 100\n";
    assert!(lines.contains(pair), "{lines}");
}

#[test]
fn the_slowest_call_is_told_first() {
    let mut journal = Journal::registered();
    let one_way = Record { code: 5, flags: 1, ..Record::default() };
    journal.send(1, &one_way.bytes(BC_TRANSACTION), &[], &[], ACCEPTED);
    for _ in 0..4 {
        journal.command(0, &message(BC_ENTER_LOOPER, &[]), ACCEPTED);
    }
    let file = journal.file("slow");
    let lines = "\
5 entries from 9: pid 200 seat 1 -> pid 100 on 1.0 \"manager\" of pid 100 code 0x5 one-way: still open, never read
4 entries from 4: pid 200 seat 1 -> pid 100 on 1.0 \"manager\" of pid 100 code 0x3: its reply was read at 8, unread 1 of them
";
    assert_eq!(printed(&["slow", file.path()]), lines);
    assert_eq!(printed(&["slow", file.path(), "--most", "1"]).lines().count(), 1);
}
