// SPDX-License-Identifier: Apache-2.0 OR MIT
//! What a page draws; and that its script goes through, where there is something to run it.
mod common;
use common::*;
use serde_json::{json, Value};
use std::process::Command;

fn page(path: &str) -> String {
    printed(&["diagram", path])
}

#[test]
fn a_call_is_two_arrows_and_two_bars() {
    let told = page_data(&page(Journal::registered().file("page").path()));
    assert_eq!(
        told["lanes"],
        json!([{"pid": 100, "seat": 0, "from": 0, "to": null}, {"pid": 200, "seat": 1, "from": 3, "to": null}])
    );
    let text = "1.0 \"manager\" of pid 100 0x3 112 bytes";
    let marks = json!([
        {"dot": {"kind": "life", "lane": 0, "at": 0, "text": "open pid 100"}},
        {"dot": {"kind": "life", "lane": 0, "at": 1, "text": "manager"}},
        {"dot": {"kind": "life", "lane": 1, "at": 3, "text": "open pid 200"}},
        {"arrow": {"kind": "call", "from": [1, 4], "to": [0, 5], "text": text}},
        {"bar": {"kind": "waits", "lane": 1, "from": 4, "to": 8, "text": text}},
        {"bar": {"kind": "serves", "lane": 0, "from": 5, "to": 7, "text": text}},
        {"arrow": {"kind": "reply", "from": [0, 7], "to": [1, 8], "text": text}},
    ]);
    assert_eq!(told["marks"], marks);
    assert_eq!((&told["from"], &told["to"]), (&json!(0), &json!(9)));
}

#[test]
fn a_thread_that_ended_keeps_its_lane() {
    let mut journal = Journal::one_way();
    journal.entry(1, &[5], EXITED);
    let opened = [&[1][..], &200u32.to_le_bytes()].concat();
    journal.entry(1, &opened, OPENED);
    journal.command(0, &message(BC_FREE_BUFFER, &65536u64.to_le_bytes()), ACCEPTED);
    let told = page_data(&page(journal.file("lanes").path()));
    let lanes: Vec<_> = told["lanes"].as_array().expect("lanes").iter().map(|it| (&it["from"], &it["to"])).collect();
    assert_eq!(lanes, [(&json!(0), &Value::Null), (&json!(3), &json!(7)), (&json!(8), &Value::Null)]);
    // Its buffer was freed after another thread had come onto the seat, and still the call is the first one's.
    let arrow = told["marks"].as_array().expect("marks").iter().find(|it| it.get("arrow").is_some()).expect("the call");
    assert_eq!((&arrow["arrow"]["from"], &arrow["arrow"]["to"]), (&json!([1, 4]), &json!([0, 6])));
}

/// The manager calls the service, which ends: it reads that there will be no reply, and of the death that it has asked to be told of.
#[test]
fn deaths_and_calls_without_a_reply_have_marks() {
    let mut journal = Journal::registered();
    let cookie = 0x77u64.to_le_bytes();
    let asked = [&1u32.to_le_bytes()[..], &cookie].concat();
    journal.command(0, &message(0x400c_630e, &asked), ACCEPTED);
    let call = Record { target: 1, code: 9, ..Record::default() };
    journal.send(0, &call.bytes(BC_TRANSACTION), &[], &[], ACCEPTED);
    journal.entry(1, &[6], EXITED);
    // Its reply to the registration is complete too.
    let (complete, none) = (message(BR_TRANSACTION_COMPLETE, &[]), message(0x7205, &[]));
    journal.read(0, &got(&[message(BR_NOOP, &[]), complete.clone(), complete, none], &[], &[]));
    journal.read(0, &got(&[message(BR_NOOP, &[]), message(0x8008_720f, &cookie)], &[], &[]));
    let told = page_data(&page(journal.file("deaths").path()));
    let of = |kind: &str| -> Vec<Value> {
        let dots = told["marks"].as_array().expect("marks").iter().filter_map(|it| it.get("dot"));
        dots.filter(|it| it["kind"] == kind).map(|it| json!([it["at"], it["lane"], it["text"]])).collect()
    };
    assert_eq!(of("noreply"), [json!([12, 0, "BR_DEAD_REPLY: no reply to the call at 10"])]);
    assert_eq!(of("death"), [json!([13, 0, "BR_DEAD_BINDER"])]);
}

/// Each kind of mark has its own line in the page's legend, by the colour that it is drawn with.
#[test]
fn the_page_has_a_legend() {
    let page = page(Journal::one_way().file("legend").path());
    let legend = page.split("<div id=\"legend\">").nth(1).and_then(|it| it.split("</div>").next()).expect("a legend");
    for word in
        ["a call", "one-way", "a reply", "unread", "serves", "waits", "refused", "BR_DEAD_REPLY", "BR_DEAD_BINDER"]
    {
        assert!(legend.contains(word), "{word}");
    }
}

#[test]
fn what_is_noted_is_a_dot() {
    let mut journal = Journal::base();
    journal.command(1, &message(BC_FREE_BUFFER, &9u64.to_le_bytes()), &noted(5)).read(1, &refused(12));
    let told = page_data(&page(journal.file("noted").path()));
    let dots: Vec<_> =
        told["marks"].as_array().expect("marks").iter().filter(|it| it["dot"]["kind"] == "refused").collect();
    let text = "N5 NoSuchBuffer: no such buffer";
    assert_eq!(dots, [&json!({"dot": {"kind": "refused", "lane": 1, "at": 4, "text": text}})]);
}

/// A reply that was refused goes to nobody: the call has no second arrow, and what served it ends there.
#[test]
fn a_refused_reply_is_no_arrow() {
    let mut journal = Journal::base();
    let sent = Record { code: 7, ..Record::default() };
    journal.send(1, &sent.bytes(BC_TRANSACTION), &[], &[], ACCEPTED);
    let read = Record { pid: 200, euid: 2000, buffer: 65536, ..sent };
    journal.read(0, &got(&[message(BR_NOOP, &[]), read.bytes(BR_TRANSACTION)], &[], &[]));
    journal.send(0, &Record { data: 4096, ..Record::default() }.bytes(BC_REPLY), &[0; 4096], &[], &stopped(13));
    journal.read(1, &got(&[BR_NOOP, BR_TRANSACTION_COMPLETE, BR_FAILED_REPLY].map(|it| message(it, &[])), &[], &[]));
    let told = page_data(&page(journal.file("refused-reply").path()));
    let marks = told["marks"].as_array().expect("marks");
    let arrows: Vec<_> = marks.iter().filter_map(|it| it.get("arrow")).map(|it| (&it["kind"], &it["to"])).collect();
    assert_eq!(arrows, [(&json!("call"), &json!([0, 5]))]);
    let serves = marks.iter().filter_map(|it| it.get("bar")).find(|it| it["kind"] == "serves").expect("a server");
    assert_eq!((&serves["from"], &serves["to"]), (&json!(5), &json!(6)));
}

#[test]
fn what_nobody_has_read_has_no_end() {
    let mut journal = Journal::base();
    journal.send(1, &Record::default().bytes(BC_TRANSACTION), &[], &[], ACCEPTED);
    let told = page_data(&page(journal.file("unread").path()));
    let arrow = told["marks"].as_array().expect("marks").iter().find(|it| it.get("arrow").is_some()).expect("the call");
    assert_eq!(arrow["arrow"]["to"], Value::Null);
}

#[test]
fn a_sequence_has_what_threads_are_called() {
    let recorded = Recorded::registered("sequence");
    let told = printed(&["diagram", recorded.path(), "--format", "text"]);
    let wanted = "\
| thread   : waits   # serves   --> call   - > one-way   ==> reply   --? unread
   pid    100         200     $
  seat     0           1      $
  name  manager   Binder:200_ $
     0     +                       opens pid 100
     1     M                       becomes the manager
     3     |           +           opens pid 200
     4     |           o           call, handle 0, code 0x3
     5     #<----------:           gets call 4
     7     o           |           reply to 4
     8     |==========>|           gets reply 7 to 4
";
    assert_eq!(told, wanted.replace('$', ""));
    let part = printed(&["diagram", recorded.path(), "--format", "text", "--from", "5", "--to", "8"]);
    assert!(part.contains("     5     #<----------:           gets call 4\n"), "{part}");
    assert_eq!(part.lines().count(), 6, "{part}");
    let mermaid = printed(&["diagram", recorded.path(), "--format", "mermaid", "--from", "7"]);
    assert!(
        mermaid.contains("    participant s0 as seat 0 manager\n") && mermaid.contains("    activate s0\n"),
        "{mermaid}"
    );
    assert!(fault(&["diagram", recorded.path(), "--format", "svg", "--to", "99"]).contains("there is no place 99"));
}

/// Later headings tell whose the lanes are by then, where another process has come to a seat.
#[test]
fn later_headings_are_of_who_sits_there() {
    let mut journal = Journal::base();
    let who = "HPWHO 1 binder\n0 0 100 100 manager\n3 1 200 200 first\n24 1 201 201 later\n";
    // (rows 0 to 2 are of the base: a process, the manager, a process; then each exit and each open has one)
    for pid in std::iter::once(200).chain(std::iter::repeat(201).take(20)) {
        journal.entry(1, &[6], &[2]).open(1, pid, 2000);
    }
    let clocks: Vec<u64> = (0..journal.count).map(|it| STARTED + u64::from(it)).collect();
    let recorded = Recorded::new("headings", &journal, &clocks, who);
    let told = printed(&["diagram", recorded.path(), "--format", "text"]);
    let headings = |word: &str| -> Vec<String> {
        told.lines()
            .filter(|it| it.trim_start().starts_with(word))
            .map(|it| it.split_whitespace().skip(1).collect::<Vec<_>>().join(" "))
            .collect()
    };
    assert_eq!(
        (headings("pid "), headings("name ")),
        (vec!["100 200".into(), "100 201".into()], vec!["manager first".into(), "manager later".into()]),
        "{told}"
    );
}

/// What a client calls itself does nothing in a diagram.
#[test]
fn a_name_is_no_word_of_a_form() {
    let who = "HPWHO 1 binder\n0 0 100 100 <b>;end\n3 1 200 215 $\n".replace('$', "x");
    let recorded = Recorded::new("odd-name", &Journal::registered(), &CLOCKS, &who);
    for form in ["text", "mermaid", "svg"] {
        let told = printed(&["diagram", recorded.path(), "--format", form]);
        assert!(told.contains("_b__end") && !told.contains("<b>"), "{told}");
    }
}

#[test]
#[ignore = "needs node"]
fn the_script_draws_and_finds() {
    let page = kept("page.html", page(Journal::registered().file("run").path()).as_bytes());
    let script = concat!(env!("CARGO_MANIFEST_DIR"), "/tests/browser.js");
    let done = Command::new("node").args([script, page.path()]).output().expect("node");
    assert_eq!(String::from_utf8_lossy(&done.stderr), "");
    // Seven marks are there, of which five name the manager: two arrows, two bars, and the dot at 1, which is the first.
    assert_eq!(String::from_utf8_lossy(&done.stdout), "1 of 5; place 1; true; 0 off the page\n");
}
