// SPDX-License-Identifier: Apache-2.0 OR MIT
//! Exports, read back by readers of our own: traces have to nest, packets have to be whole; and what tshark makes of packets.
mod common;
use common::*;
use serde_json::Value;
use std::collections::HashMap;
use std::process::Command;

fn events(path: &str) -> Vec<Value> {
    let trace: Value = serde_json::from_str(&printed(&["export", path, "--to", "perfetto"])).expect("JSON");
    trace["traceEvents"].as_array().expect("events").clone()
}

fn track(event: &Value) -> (u64, u64) {
    (event["pid"].as_u64().expect("a pid"), event["tid"].as_u64().expect("a tid"))
}

/// Sees that on each track time never goes back and slices nest, that each flow begins before it ends, both within slices.
fn check(events: &[Value]) -> usize {
    let mut tracks: HashMap<(u64, u64), (f64, Vec<String>)> = HashMap::new();
    let mut flows = HashMap::new();
    let mut slices = 0;
    for event in events {
        let (last, open) = tracks.entry(track(event)).or_insert((0.0, Vec::new()));
        let ts = event["ts"].as_f64().expect("a time");
        assert!(ts >= *last, "{event} comes after {last}");
        *last = ts;
        match event["ph"].as_str().expect("a phase") {
            "B" => {
                slices += 1;
                open.push(event["name"].as_str().expect("a name").into());
            }
            "E" => assert!(open.pop().is_some(), "{event} ends nothing"),
            "s" => {
                assert!(!open.is_empty(), "{event} begins in no slice");
                assert!(flows.insert(event["id"].as_u64(), ts).is_none(), "{event} begins twice");
            }
            "f" => {
                assert!(!open.is_empty(), "{event} ends in no slice");
                let begun = flows.get(&event["id"].as_u64());
                assert!(begun.map_or(false, |it| *it < ts), "{event} never began");
            }
            "i" => assert_eq!(event["s"], "t"),
            other => assert_eq!(other, "M"),
        }
    }
    assert!(tracks.values().all(|it| it.1.is_empty()), "a slice is left open");
    slices
}

#[test]
fn a_trace_has_slices_flows_and_instants() {
    let mut journal = Journal::registered();
    let free = message(BC_FREE_BUFFER, &65536u64.to_le_bytes());
    journal.command(0, &free, ACCEPTED).command(0, &message(BC_RELEASE, &1u32.to_le_bytes()), ACCEPTED);
    let refused = Record { target: 1, ..Record::default() };
    journal.send(0, &refused.bytes(BC_TRANSACTION), &[], &[], &stopped(1));
    let file = journal.file("trace");
    let events = events(file.path());
    // The call is waited for from 4 to 8 by pid 200, and served from 5 to 7 by pid 100.
    assert_eq!(check(&events), 2);
    let told: Vec<_> = events.iter().filter(|it| it["ph"] != "M").collect();
    let seen = |it: &&Value| {
        (it["ph"].as_str().unwrap().to_string(), it["pid"].as_u64().unwrap(), it["ts"].as_f64().unwrap() as u64)
    };
    let expected = [
        ("B", 200, 4),
        ("s", 200, 4),
        ("B", 100, 5),
        ("f", 100, 5),
        ("s", 100, 7),
        ("E", 100, 7),
        ("f", 200, 8),
        ("E", 200, 8),
        ("i", 100, 11),
    ];
    assert_eq!(told.iter().map(seen).collect::<Vec<_>>(), expected.map(|it| (it.0.to_string(), it.1, it.2)));
    assert_eq!(told[0]["name"], "manager 0x3");
    assert_eq!(told[8]["name"], "X1 NotStronglyNamed");
}

#[test]
fn traces_of_whole_runs_nest() {
    let root = concat!(env!("CARGO_MANIFEST_DIR"), "/../");
    for name in ["w1", "w2", "w3a", "w3b", "w4a", "w4b", "w6_8_one_after_the_other"] {
        assert!(check(&events(&format!("{root}bench/journals/{name}.journal"))) > 4, "{name}");
    }
    check(&events(&format!("{root}tools/data/two_hundred.journal")));
}

#[test]
fn threads_that_end_leave_no_slice_open() {
    let mut journal = Journal::one_way();
    journal.entry(0, &[5], EXITED);
    let file = journal.file("ends");
    // The short one of the caller, and that of the server, whose thread ended before it freed the buffer.
    assert_eq!(check(&events(file.path())), 2);
    assert_eq!(check(&events(Journal::one_way().file("open").path())), 2);
}

fn packets(path: &str) -> Vec<u8> {
    let done = run(&["export", path, "--to", "pcapng"]);
    assert!(done.status.success() && done.stderr.is_empty());
    done.stdout
}

#[test]
fn packets_are_blocks_that_say_twice_how_long_they_are() {
    let file = Journal::one_way().file("packets");
    let bytes = packets(file.path());
    let number = |at: usize| u32::from_le_bytes(bytes[at..at + 4].try_into().expect("four bytes"));
    let (mut at, mut kinds) = (0, Vec::new());
    while at < bytes.len() {
        let size = number(at + 4) as usize;
        assert_eq!((size % 4, number(at + size - 4) as usize), (0, size));
        kinds.push(number(at));
        at += size;
    }
    assert_eq!(kinds, [&[0x0a0d_0d0a, 1][..], &[6; 7]].concat());
    // The call: its seat and pid, the command, the two bytes of its data.
    let sent = [&1u32.to_le_bytes()[..], &200u32.to_le_bytes(), &BC_TRANSACTION.to_le_bytes()].concat();
    let found = bytes.windows(sent.len()).position(|it| it == sent).expect("the call");
    assert_eq!(&bytes[found + 8 + 68..found + 8 + 70], b"hi");
    assert_eq!(number(found - 8), 8 + 68 + 2);
}

#[test]
#[ignore = "needs tshark"]
fn tshark_opens_the_packets() {
    let file = Journal::one_way().file("tshark");
    let kept = kept("tshark.pcapng", &packets(file.path()));
    let fields =
        ["-T", "fields", "-e", "frame.number", "-e", "frame.len", "-e", "frame.interface_name", "-e", "frame.comment"];
    let done = Command::new("tshark").args(["-n", "-r", kept.path()]).args(fields).output().expect("tshark");
    let told = String::from_utf8_lossy(&done.stdout).into_owned();
    let lines: Vec<Vec<&str>> = told.lines().map(|it| it.split('\t').collect()).collect();
    assert_eq!(lines.len(), 7, "{told}{}", String::from_utf8_lossy(&done.stderr));
    assert_eq!(lines[4][..3], ["5", "78", "binder"]);
    assert!(lines[4][3].starts_with("4 seat 1 pid 200 BC_TRANSACTION handle 0 (1.0 \"manager\" of pid 100)"), "{told}");
}
