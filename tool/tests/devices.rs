// SPDX-License-Identifier: Apache-2.0 OR MIT
//! What kernels tell: samples of Linux 5.10, 6.1 and 6.12, taken in a virtual machine by tests/devices/take.py. What is expected was
//! reckoned from the samples' own lines, by hand or by the few lines here.
mod common;
use common::*;
use std::collections::{BTreeMap, HashMap};
use std::fs;
use std::path::PathBuf;
use std::sync::atomic::{AtomicUsize, Ordering::Relaxed};

const VERSIONS: [&str; 3] = ["5.10", "6.1", "6.12"];
/// All samples that are events.
const TRACES: [&str; 8] = [
    "5.10/tools.trace",
    "6.1/tools.trace",
    "6.1/list.trace",
    "6.12/tools.trace",
    "6.1/nested.trace",
    "6.1/many.trace",
    "6.1/storm.trace",
    "6.12/deaths.trace",
];
/// All samples of one moment.
const LOOKS: [&str; 19] = [
    "5.10/before.state",
    "5.10/tools.state",
    "5.10/tools.stats",
    "5.10/tools.transaction_log",
    "5.10/raw.failed_transaction_log",
    "6.1/storm.state",
    "6.1/storm.transactions",
    "6.1/storm.failed_transaction_log",
    "6.1/list.state",
    "6.1/list.transactions",
    "6.1/list.stats",
    "6.1/list.transaction_log",
    "6.1/tools.stats",
    "6.1/tools.transaction_log",
    "6.1/raw.failed_transaction_log",
    "6.12/tools.state",
    "6.12/tools.stats",
    "6.12/tools.transaction_log",
    "6.12/raw.failed_transaction_log",
];

fn sample(name: &str) -> String {
    PathBuf::from(env!("CARGO_MANIFEST_DIR")).join("tests/devices").join(name).display().to_string()
}

fn text(name: &str) -> String {
    fs::read_to_string(sample(name)).expect(name)
}

/// What it prints of a sample; it has to end well, and it says what is left out.
fn told(words: &[&str]) -> String {
    let done = run(words);
    let said = String::from_utf8_lossy(&done.stderr).into_owned();
    assert!(done.status.success(), "{words:?}: {said}");
    String::from_utf8(done.stdout).expect("text")
}

/// The number behind a word, in the lines of events.
fn of(line: &str, name: &str) -> Option<u64> {
    let value = line.split([' ', '\t']).find_map(|it| it.strip_prefix(name)?.strip_prefix('='))?;
    value.strip_prefix("0x").map_or_else(|| value.parse().ok(), |it| u64::from_str_radix(it, 16).ok())
}

/// A line's thread, and its time in millionths.
fn head(line: &str) -> (u64, u64) {
    let before = &line[..line.find(": binder_").expect("an event")];
    let time = before.rsplit(' ').next().expect("a time").replace('.', "");
    let thread = line[17..].split([' ', '(']).next().expect("a thread");
    (thread.parse().expect(line), time.parse().expect(line))
}

/// How long each two-way call took, in millionths, by its time in the trace: from its own line to that where its reply was received.
fn durations(trace: &str) -> BTreeMap<u64, u64> {
    let mut waits: HashMap<u64, Vec<u64>> = HashMap::new();
    let mut serves: HashMap<u64, Vec<u64>> = HashMap::new();
    let (mut made, mut replies, mut took) = (HashMap::new(), HashMap::new(), BTreeMap::new());
    for line in trace.lines().filter(|it| it.contains(": binder_transaction")) {
        let (thread, time) = head(line);
        let number = of(line, "transaction").expect("a number");
        if line.contains(": binder_transaction_received:") {
            if let Some(call) = replies.remove(&number) {
                took.insert(made[&call], time - made[&call]);
                waits.entry(thread).or_default().pop();
            } else if made.contains_key(&number) {
                serves.entry(thread).or_default().push(number);
            }
        } else if line.contains(": binder_transaction:") && of(line, "reply") == Some(1) {
            let call = serves.entry(thread).or_default().pop();
            replies.extend(call.map(|call| (number, call)));
        } else if line.contains(": binder_transaction:") && of(line, "flags").map_or(false, |it| it & 1 == 0) {
            made.insert(number, time);
            waits.entry(thread).or_default().push(number);
        }
    }
    took
}

/// How long that is, as the tool tells it.
fn words(millionths: u64) -> String {
    match millionths {
        0..=999 => format!("{:.1} us", millionths as f64),
        1_000..=999_999 => format!("{:.1} ms", millionths as f64 / 1e3),
        _ => format!("{:.1} s", millionths as f64 / 1e6),
    }
}

/// The first lines of 6.1's: a ping of the manager by binder-list, and its list of services, whose transaction lines were read by hand.
#[test]
fn calls_are_told_as_the_trace_has_them() {
    let trace = text("6.1/tools.trace");
    let lines = told(&["calls", &sample("6.1/tools.trace")]);
    for (time, took) in durations(&trace) {
        let begin = format!("{}.{:06} ", time / 1_000_000, time % 1_000_000);
        let line = lines.lines().find(|it| it.starts_with(&begin)).unwrap_or_else(|| panic!("{begin}: {lines}"));
        assert!(line.contains(&format!("<{}", words(took))), "{took}: {line}");
    }
    let by_hand = "14.687617 storm(153/157) -> storm(159/160) node 77#4 32 B = 0 B <2.2 ms, 191.0 us unread> [node 103 as handle 3]";
    let storm = told(&["calls", &sample("6.1/storm.trace")]);
    assert!(storm.lines().any(|it| it == by_hand), "{storm}");
}

#[test]
fn each_trace_gives_each_view() {
    for name in TRACES {
        let (path, trace) = (sample(name), text(name));
        let took = durations(&trace);
        assert!(took.len() > 4, "{name}");
        let lines = told(&["calls", &path]);
        let done = lines
            .lines()
            .filter(|it| it.contains(" B = ") && !it.contains("no reply") && !it.contains("= open"))
            .count();
        assert_eq!(done, took.len(), "{name}: {lines}");
        let longest = words(*took.values().max().expect("a call"));
        let open = |it: &&str| !it.contains("still open") && !it.contains("its failure") && !it.contains("one-way");
        let slow = told(&["slow", &path, "--most", "1000"]);
        let first = slow.lines().find(open).expect("a call");
        assert!(first.starts_with(&format!("{longest} from ")), "{name}: {longest}: {first}");
        let page = page_data(&told(&["diagram", &path]));
        let arrows = page["marks"].as_array().expect("marks").iter().filter_map(|it| it.get("arrow"));
        assert_eq!(arrows.filter(|it| it["kind"] == "reply" && !it["to"].is_null()).count(), took.len(), "{name}");
        for format in ["svg", "mermaid", "text"] {
            assert!(told(&["diagram", &path, "--format", format]).lines().count() > took.len(), "{name} {format}");
        }
        let exported: serde_json::Value =
            serde_json::from_str(&told(&["export", &path, "--format", "perfetto"])).expect(name);
        let events = exported["traceEvents"].as_array().expect("events");
        let replies = events.iter().filter(|it| it["ph"] == "f" && it["name"] == "reply").count();
        assert_eq!(replies, took.len(), "{name}");
    }
}

/// Slices of a track nest, and each ends; what is on one track goes forward in time.
#[test]
fn exported_slices_nest() {
    for name in TRACES {
        let exported = told(&["export", &sample(name), "--format", "perfetto"]);
        let exported: serde_json::Value = serde_json::from_str(&exported).expect(name);
        let mut open: HashMap<(u64, u64), (i64, f64)> = HashMap::new();
        for event in exported["traceEvents"].as_array().expect("events") {
            let track = (event["pid"].as_u64().expect("a pid"), event["tid"].as_u64().expect("a tid"));
            let (depth, latest) = open.entry(track).or_insert((0, 0.0));
            match event["ph"].as_str() {
                Some("B") => *depth += 1,
                Some("E") => *depth -= 1,
                _ => continue,
            }
            let time = event["ts"].as_f64().expect("a time");
            assert!(*depth >= 0 && time >= *latest, "{name}: {event}");
            *latest = time;
        }
        assert!(open.values().all(|it| it.0 == 0), "{name}");
    }
}

#[test]
fn commands_and_returns_are_counted_as_they_stand() {
    for name in TRACES.iter().filter(|it| **it != "6.1/storm.trace") {
        let mut counts: BTreeMap<String, usize> = BTreeMap::new();
        let trace = text(name);
        for line in trace.lines().filter(|it| it.contains(": binder_command: ") || it.contains(": binder_return: ")) {
            let verb = line.rsplit(' ').next().expect("a name");
            *counts.entry(verb.into()).or_default() += 1;
        }
        let stats = told(&["stats", &sample(name)]);
        for (verb, count) in counts {
            assert!(stats.contains(&format!("\n{count:>10}  {verb}\n")), "{name}: {count} {verb}: {stats}");
        }
    }
}

/// The raw test `deaths` calls where nobody is any more, and is told so.
#[test]
fn calls_without_a_reply_are_chosen() {
    let path = sample("6.12/deaths.trace");
    let failed = told(&["calls", &path, "--failed"]);
    let returns = text("6.12/deaths.trace").lines().filter(|it| it.contains("BR_DEAD_REPLY")).count();
    assert_eq!(failed.lines().count(), returns, "{failed}");
    assert!(failed.lines().all(|it| it.contains("no reply") || it.ends_with("-> nobody = BR_DEAD_REPLY")), "{failed}");
    let dead = text("6.12/deaths.trace").lines().filter(|it| it.contains("BR_DEAD_BINDER")).count();
    let page = page_data(&told(&["diagram", &path]));
    let dots = page["marks"].as_array().expect("marks").iter().filter_map(|it| it.get("dot"));
    assert_eq!(dots.filter(|it| it["kind"] == "death").count(), dead);
}

#[test]
fn what_a_trace_does_not_tell_is_said_once() {
    let done = run(&["calls", &sample("6.1/storm.trace")]);
    let said = String::from_utf8_lossy(&done.stderr).into_owned();
    assert_eq!(said.lines().count(), 1, "{said}");
    assert!(said.contains("left out") && said.contains("parcels") && said.contains("binder_command"), "{said}");
    let other = String::from_utf8_lossy(&run(&["calls", &sample("6.1/tools.trace")]).stderr).into_owned();
    assert!(!other.contains("binder_command"), "{other}");
}

#[test]
fn a_range_of_lines_or_seconds_is_told() {
    let path = sample("6.1/tools.trace");
    let all = told(&["calls", &path]);
    let half = told(&["calls", &path, "--from", "200"]);
    assert!(half.lines().count() < all.lines().count() && all.ends_with(&half), "{half}");
    let since = told(&["calls", &path, "--since", "+10"]);
    assert!(since.lines().count() < all.lines().count(), "{since}");
    assert!(fault(&["calls", &path, "--since", "12:00"]).contains("times are +1.5"));
    for words in [
        &["calls"][..],
        &["stats"],
        &["slow"],
        &["diagram"],
        &["diagram", "--format", "text"],
        &["export", "--format", "perfetto"],
    ] {
        let done = run(&[words, &[&path, "--since", "+100000"]].concat());
        let said = String::from_utf8_lossy(&done.stderr).into_owned();
        assert!(said.ends_with(&format!("hullpippin: {path}: no event is as chosen\n")), "{words:?}: {said}");
        assert_eq!((done.status.code(), done.stdout.len()), (Some(1), 0), "{words:?}");
    }
}

/// Every `node` line of a state is held by those whose `ref` lines name it.
#[test]
fn holders_are_those_who_have_a_handle() {
    for name in ["6.1/storm.state", "6.1/list.state", "5.10/tools.state", "6.12/tools.state"] {
        let state = text(name);
        let nodes = state.lines().filter_map(|it| it.strip_prefix("  node ")?.split_once(": u").map(|it| it.0));
        for node in nodes {
            let holders = told(&["holders", &sample(name), node]);
            let mut process = "";
            let mut wanted = Vec::new();
            for line in state.lines() {
                process = line.strip_prefix("proc ").unwrap_or(process);
                let words: Vec<&str> = line.split_whitespace().collect();
                if let ["ref", _, "desc", handle, "node", of, "s", strong, "w", weak, ..] = words[..] {
                    if of == node {
                        wanted
                            .push(format!("  pid {process} names it by handle {handle}: {strong} strong, {weak} weak"));
                    }
                }
            }
            let found: Vec<&str> = holders.lines().filter(|it| it.starts_with("  pid ")).collect();
            assert_eq!(found.len(), wanted.len(), "{name} {node}: {holders}");
            found.iter().zip(&wanted).for_each(|(found, wanted)| assert!(found.starts_with(&wanted[..]), "{found}"));
        }
    }
    assert!(fault(&["holders", &sample("6.1/storm.state"), "7"]).contains("there is no node 7"));
    assert!(fault(&["holders", &sample("6.1/storm.transactions"), "18"]).contains("has no nodes and handles"));
}

/// `hello` never frees the reply to its addService.
#[test]
fn the_leak_of_hello_is_found() {
    for version in VERSIONS {
        let (first, second) = (sample(&format!("{version}/tools.state")), sample(&format!("{version}/after.state")));
        let one = told(&["leaks", &first]);
        assert!(
            one.contains("1 buffers were read and not freed\n  buffer of transaction ") && one.contains(", 4 B"),
            "{one}"
        );
        let both = told(&["leaks", &first, &first]);
        assert!(both.contains("in both looks"), "{both}");
        // By then hello has ended.
        let gone = told(&["leaks", &first, &second]);
        assert_eq!(gone, "nothing is held: no buffer was read and not freed, and nothing has grown\n");
        let difference = told(&["state", &first, "--diff", &second]);
        assert!(difference.lines().all(|it| it.starts_with("- pid ")) && difference.contains("buffer of transaction"));
    }
}

/// Each `proc` of a state, and each of its threads, nodes, handles and buffers, has its line.
#[test]
fn a_state_is_told_whole() {
    for name in LOOKS.iter().filter(|it| it.ends_with(".state") || it.ends_with(".transactions")) {
        let (state, told) = (text(name), told(&["state", &sample(name)]));
        for (theirs, ours) in [
            ("proc ", "pid "),
            ("  thread ", "  thread "),
            ("  node ", "  node "),
            ("  ref ", "  handle "),
            ("  buffer ", "  buffer "),
        ] {
            let count = state.lines().filter(|it| it.starts_with(theirs)).count();
            let is_own = |it: &&str| it.starts_with(ours) && !it.contains("unread:") && !it.contains("outgoing");
            assert_eq!(told.lines().filter(is_own).count(), count, "{name} {theirs}: {told}");
        }
        let pending = state.lines().filter(|it| it.contains("pending transaction")).count();
        assert_eq!(told.lines().filter(|it| it.contains(" pending ")).count(), pending, "{name}: {told}");
    }
}

#[test]
fn refusals_are_explained_by_their_lines() {
    for (version, release) in [("6.1", "6.1.192"), ("6.12", "6.12.117"), ("5.10", "5.10.223")] {
        let path = sample(&format!("{version}/raw.failed_transaction_log"));
        let told = told(&["explain", &path, "--kernel", release]);
        let line = if version == "5.10" { "if (!target_node)" } else { "cannot find target node" };
        assert!(told.contains(&format!("\"{line}\" in Linux {release}")), "{told}");
        assert_eq!(
            told.matches("BR_DEAD_REPLY: EINVAL").count(),
            text(&format!("{version}/raw.failed_transaction_log")).lines().count()
        );
    }
    let unknown = told(&["explain", &sample("6.1/raw.failed_transaction_log"), "--kernel", "6.1.1"]);
    assert!(unknown.contains("of Linux 6.1.1 no such line is known"), "{unknown}");
    assert_eq!(
        told(&["explain", &sample("6.1/tools.transaction_log")]).lines().count(),
        text("6.1/tools.transaction_log").lines().filter(|it| !it.contains("ret 0/0")).count().max(1)
    );
}

/// hello's node and the manager's, as tools.state has them, with their owners.
fn nodes(version: &str) -> ((u64, u32), u64) {
    match version {
        "5.10" => ((896, 174), 894),
        "6.1" => ((896, 189), 894),
        _ => ((908, 233), 906),
    }
}

/// A bug report with these parts, under headings as dumpstate writes them.
fn report(version: &str) -> String {
    let parts = [
        ("FAILED TRANSACTION LOG", "raw.failed_transaction_log"),
        ("TRANSACTION LOG", "tools.transaction_log"),
        ("STATS", "tools.stats"),
        ("STATE", "tools.state"),
    ];
    let mut all = "========\n== dumpstate: 2026-11-29 05:20:07\n========\n\nBuild: x\n------ UPTIME (uptime) ------\n"
        .to_string();
    for (title, file) in parts {
        let text = text(&format!("{version}/{file}"));
        let end = format!("------ 0.012s was the duration of 'BINDER {title}' ------");
        all +=
            &format!("------ BINDER {title} (/dev/binderfs/binder_logs/x: 2026-11-29 05:20:07) ------\n{text}{end}\n");
    }
    all + "------ SMAPS OF ALL PROCESSES ------\nother\n"
}

fn zipped(name: &str, files: &[(&str, &[u8])]) -> Kept {
    let mut bytes = std::io::Cursor::new(Vec::new());
    let mut archive = zip::ZipWriter::new(&mut bytes);
    for (name, text) in files {
        archive.start_file(*name, zip::write::FileOptions::default()).expect("a file");
        std::io::Write::write_all(&mut archive, text).expect("its bytes");
    }
    archive.finish().expect("a zip file");
    drop(archive);
    kept(name, bytes.get_ref())
}

#[test]
fn a_bug_report_tells_what_its_parts_do() {
    for version in VERSIONS {
        let report = report(version);
        let plain = kept("bugreport.txt", report.as_bytes());
        let main = "bugreport-x-2026.txt";
        let zip = zipped(
            "bugreport.zip",
            &[("version.txt", b"2.0"), ("main_entry.txt", main.as_bytes()), (main, report.as_bytes())],
        );
        let of = |file: &str| sample(&format!("{version}/{file}"));
        for path in [plain.path(), zip.path()] {
            // Its log tells which node handle 0 leads to.
            let (_, manager) = nodes(version);
            let unnamed = told(&["state", path]).replace(&format!("{manager} \"manager\""), &manager.to_string());
            assert_eq!(unnamed, told(&["state", &of("tools.state")]));
            assert_eq!(told(&["stats", path]), told(&["stats", &of("tools.stats")]));
            assert_eq!(told(&["leaks", path]), told(&["leaks", &of("tools.state")]));
            assert_eq!(told(&["explain", path]), told(&["explain", &of("raw.failed_transaction_log")]));
            let calls = told(&["calls", path]);
            let unnamed = |it: &str| it.replace(" \"manager\"", "");
            assert!(unnamed(&calls).ends_with(&unnamed(&told(&["calls", &of("tools.transaction_log")]))), "{calls}");
            let to_manager = calls.matches(&format!(" node {manager} \"manager\" by handle 0")).count();
            let of_log = text(&format!("{version}/tools.transaction_log"));
            assert_eq!(to_manager, of_log.matches(&format!(" node {manager} handle 0")).count());
        }
    }
}

/// What `service list` and `dumpsys --pid` print where there are these services.
const LIST: &str =
    "Found 3 services:\n0\thello: [com.example.IHello]\n1\tmanager: [android.os.IServiceManager]\n2\tother: []\n";

fn pids(pid: u32) -> String {
    let line = "-".repeat(79);
    format!(
        "Currently running services:\n  hello\n  other\n{line}\nDUMP OF SERVICE hello:\n{pid}\n--------- 0.001s was the duration of \
         dumpsys hello, ending at: 2026-11-29 05:20:07\n{line}\nDUMP OF SERVICE other:\nError: Permission denied\n"
    )
}

/// A bug report tells which node the manager holds of hello's process, and dumpsys that hello is all that this process has.
#[test]
fn services_are_called_by_the_names_that_the_user_gives() {
    let list = kept("called-services.txt", LIST.as_bytes());
    for version in VERSIONS {
        let ((hello, pid), manager) = nodes(version);
        let report = kept(&format!("{version}-called-bugreport.txt"), report(version).as_bytes());
        let pids = kept(&format!("{version}-called-pids.txt"), pids(pid).as_bytes());
        let given = ["--names", pids.path(), "--names", list.path()];
        let of = |words: &[&str]| told(&[words, &given].concat());
        let state = of(&["state", report.path()]);
        for wanted in [
            format!("  node {hello} \"hello\" ptr "),
            format!("  handle 1 node {hello} \"hello\", 1 strong"),
            format!("  node {manager} \"manager\" ptr "),
        ] {
            assert!(state.contains(&wanted), "{wanted}: {state}");
        }
        let holders = of(&["holders", report.path(), &hello.to_string()]);
        assert!(holders.starts_with(&format!("node {hello} \"hello\" of pid {pid}, ")), "{holders}");
        let log = of(&["calls", report.path()]);
        assert!(log.contains(&format!(" node {hello} \"hello\" by handle 1, ")), "{log}");
        let (trace, from) = (sample(&format!("{version}/tools.trace")), ["--names", report.path()]);
        let calls = of(&[&["calls", &trace], &from[..]].concat());
        let count = |word: &str| calls.lines().filter(|it| it.contains(word)).count();
        let called = |node: u64| text(&format!("{version}/tools.trace")).matches(&format!("dest_node={node} ")).count();
        assert_eq!((count(") hello _PNG "), count(") manager")), (called(hello), called(manager)), "{calls}");
        let chosen = of(&[&["calls", &trace, "--interface", "IHello"], &from[..]].concat());
        assert_eq!(chosen.lines().count(), called(hello), "{chosen}");
        let top = of(&[&["top", "--file", &trace], &from[..]].concat());
        assert!(top.contains("hello _PNG\n") && top.contains("manager#4\n"), "{top}");
        for words in [&["stats", &trace][..], &["slow", &trace]] {
            let told = of(&[words, &from].concat());
            assert!(told.contains(&format!("node {manager} \"manager\"")), "{told}");
        }
    }
}

/// What can't be tied is said, and so is what names nothing.
#[test]
fn names_that_are_no_nodes_are_told() {
    let (hello, other) = (kept("hello-pids.txt", pids(189).as_bytes()), kept("other-pids.txt", pids(7).as_bytes()));
    let said = |words: &[&str]| String::from_utf8_lossy(&run(words).stderr).into_owned();
    let report = kept("untied-bugreport.txt", report("6.1").as_bytes());
    let of_hello = said(&["state", report.path(), "--names", hello.path()]);
    assert!(
        of_hello
            .contains("of 2 services' names 1 are tied to no node, since nothing tells which node is meant: other\n"),
        "{of_hello}"
    );
    let of_other = said(&["state", report.path(), "--names", other.path()]);
    assert!(of_other.contains("of 2 services' names 2 are tied to no node"), "{of_other}");
    // A trace alone doesn't tell whom the manager holds.
    let trace = sample("6.1/tools.trace");
    let alone = said(&["calls", &trace, "--names", hello.path()]);
    assert!(alone.contains("of 2 services' names 2 are tied to no node"), "{alone}");
    let nothing = kept("nothing.txt", b"hello\n");
    assert!(fault(&["calls", &trace, "--names", nothing.path()]).contains("it names no services"));
    let journal = Journal::registered().file("names");
    assert!(fault(&["calls", &trace, "--names", journal.path()]).contains("a journal names its own objects"));
    assert!(fault(&["calls", &trace, "--names", &trace]).contains("it names no services"));
}

/// Another boot has other nodes by the same numbers.
#[test]
fn names_of_another_boot_are_not_taken() {
    let (of_6, of_5) = (kept("other-bugreport.txt", report("6.1").as_bytes()), sample("5.10/tools.trace"));
    let pids = kept("other-boot-pids.txt", pids(189).as_bytes());
    let plain = told(&["calls", &of_5]);
    assert_eq!(told(&["calls", &of_5, "--names", of_6.path(), "--names", pids.path()]), plain);
    let state = sample("5.10/tools.state");
    let plain = told(&["state", &state]);
    assert_eq!(told(&["state", &state, "--names", of_6.path(), "--names", pids.path()]), plain);
}

/// A recording, as docs/FORMATS.md lays it out, of a thread that registers an object with this ptr as hello.
fn recording(pid: u32, ptr: u64) -> Kept {
    let mut data = [&[0; 4][..], &common::text("android.os.IServiceManager"), &common::text("hello")].concat();
    let offsets = (data.len() as u64).to_le_bytes();
    data.extend(object(BINDER, ptr, 0));
    let record = Record { code: 3, data: data.len() as u64, offsets: 8, ..Record::default() };
    // A reply with a parcel of its own stands before it.
    let reply = Record { data: 4, ..Record::default() }.bytes(BC_REPLY);
    let written = [reply, record.bytes(BC_TRANSACTION)].concat();
    let padded = |bytes: &[u8]| [bytes, &vec![0; (8 - bytes.len() % 8) % 8]].concat();
    let sent = [padded(&[7; 4]), padded(&data), offsets.to_vec()].concat();
    let mut body = [pid, 1, 0, 0].iter().flat_map(|it| it.to_le_bytes()).collect::<Vec<u8>>();
    let size = written.len() as u64;
    body.extend([size, 0, size, 0, 0, 0].iter().flat_map(|it| it.to_le_bytes()));
    body.extend([written.len() as u32, sent.len() as u32, 0, 0, 0, 0].iter().flat_map(|it| it.to_le_bytes()));
    body.extend([padded(&written), padded(&sent)].concat());
    let mut call = [24 + body.len() as u32, 4].iter().flat_map(|it| it.to_le_bytes()).collect::<Vec<u8>>();
    call.extend([1u64, 2].iter().flat_map(|it| it.to_le_bytes()));
    call.extend(body);
    let mut file = [&b"HPREC001"[..], &(64 + call.len() as u64).to_le_bytes()].concat();
    file.extend([pid, pid, 0, 0].iter().flat_map(|it| it.to_le_bytes()));
    file.resize(64, 0);
    file.extend(call);
    kept(&format!("{ptr:x}-hello.recording"), &file)
}

/// addService hands over the ptr by which the trace has the node.
#[test]
fn a_recording_of_add_service_names_its_node() {
    for (version, ptr) in [("5.10", 0x7ffe_831c_d9e0), ("6.1", 0x7fff_b673_bf30), ("6.12", 0x7ffc_d3c7_9500)] {
        let ((hello, pid), _) = nodes(version);
        let recording = recording(pid, ptr);
        let calls = told(&["calls", &sample(&format!("{version}/tools.trace")), "--names", recording.path()]);
        assert_eq!(calls.matches(") hello _PNG ").count(), 1, "{calls}");
        let state = told(&["state", &sample(&format!("{version}/tools.state")), "--names", recording.path()]);
        assert!(state.contains(&format!("  node {hello} \"hello\" ptr {ptr:#x} ")), "{state}");
    }
    let cut = fs::read(recording(189, 0x1000).path()).expect("it");
    let cut = kept("cut.recording", &cut[..cut.len() - 8]);
    assert!(fault(&["calls", &sample("6.1/tools.trace"), "--names", cut.path()]).contains("more than there is"));
}

/// With .aidl files a service that has an interface has methods too.
#[test]
fn methods_of_a_kernels_trace_have_names() {
    let folder = PathBuf::from(env!("CARGO_TARGET_TMPDIR")).join(format!("{}-kernels-aidl", std::process::id()));
    fs::create_dir_all(&folder).expect("a folder");
    let file = "package android.os;\ninterface IServiceManager {\n  IBinder getService(String name);\n  IBinder checkService(String name);\n  \
        void addService(String name, IBinder service, boolean isolated, int priority);\n  String[] listServices(int priority);\n}\n";
    fs::write(folder.join("IServiceManager.aidl"), file).expect("a file");
    let (list, report) =
        (kept("aidl-services.txt", LIST.as_bytes()), kept("aidl-bugreport.txt", report("6.1").as_bytes()));
    let given = ["--names", list.path(), "--names", report.path(), "--aidl", &folder.display().to_string()];
    let trace = sample("6.1/tools.trace");
    let calls = told(&[&["calls", &trace], &given[..]].concat());
    // The codes were read in the trace by hand.
    let counts =
        ["addService", "listServices", "checkService"].map(|it| calls.matches(&format!(") manager.{it} ")).count());
    assert_eq!(counts, [1, 2, 1], "{calls}");
    let top = told(&[&["top", "--file", &trace], &given[..]].concat());
    assert!(top.contains("manager.listServices\n"), "{top}");
    fs::remove_dir_all(&folder).expect("it goes");
}

#[test]
fn a_zip_file_without_a_report_is_told() {
    let none = zipped("none.zip", &[("a.txt", b"x")]);
    assert!(fault(&["state", none.path()]).contains("there is no bug report in it"));
    let empty = zipped("empty.zip", &[("bugreport-1.txt", b"== dumpstate: x\n")]);
    assert!(fault(&["state", empty.path()]).contains("none of Binder's parts"));
    let broken = kept("broken.zip", b"PK\x03\x04 and nothing behind it");
    assert!(fault(&["state", broken.path()]).contains("it can't be unzipped"));
}

/// A page as systrace writes it: the trace stands as text in a script.
#[test]
fn a_page_of_systrace_is_read() {
    let trace = text("6.1/tools.trace");
    let page = format!("<!DOCTYPE html>\n<html>\n<head><script>var x = 1;\n</script></head>\n<body>\n  <script class=\"trace-data\" type=\"application/text\">\n{trace}  </script>\n</body>\n</html>\n");
    let page = kept("systrace.html", page.as_bytes());
    assert_eq!(told(&["calls", page.path()]), told(&["calls", &sample("6.1/tools.trace")]));
    let empty = kept("empty.html", b"<html>\n</html>\n");
    assert!(fault(&["calls", empty.path()]).contains("there is no event of Binder's in it"));
}

#[test]
fn standard_input_is_told_by_its_content_too() {
    let trace = text("6.1/tools.trace");
    let done = fed(&["calls", "-"], trace.as_bytes());
    let lines = String::from_utf8_lossy(&done.stdout).into_owned();
    assert_eq!(lines.lines().count(), told(&["calls", &sample("6.1/tools.trace")]).lines().count());
    let done = fed(&["state", "-"], text("6.1/storm.state").as_bytes());
    assert_eq!(String::from_utf8_lossy(&done.stdout), told(&["state", &sample("6.1/storm.state")]));
}

/// A command that doesn't read a form says which do.
#[test]
fn a_form_that_a_command_does_not_read_is_named() {
    let (trace, state) = (sample("6.1/tools.trace"), sample("6.1/storm.state"));
    let cases: [(&[&str], &str); 5] = [
        (&["show", &trace], "this is ftrace's text, which `calls`"),
        (&["state", &trace], "this is ftrace's text"),
        (&["show", &state], "this is a state file of the driver's, which `state`"),
        (&["slow", &state], "this is a state file of the driver's"),
        (&["export", &trace, "--format", "pcapng"], "no packets"),
    ];
    for (words, wanted) in cases {
        let said = fault(words);
        assert!(said.contains(wanted), "{words:?}: {said}");
    }
}

/// All samples cut at many places, and with bytes changed at many: each ends well or with a named error, soon, and never in a panic.
#[test]
fn hostile_samples_end_with_a_named_error() {
    for name in TRACES.iter().chain(&LOOKS) {
        let whole = fs::read(sample(name)).expect(name);
        let words: &[&str] = match name.rsplit('.').next() {
            Some("trace") => &["calls", "stats"],
            Some("state" | "transactions") => &["state", "leaks"],
            Some("stats") => &["stats"],
            _ => &["calls", "explain"],
        };
        let mut random = 0x2545_f491_4f6c_dd1du64;
        let mut next = |most: usize| {
            random ^= random << 13;
            random ^= random >> 7;
            random ^= random << 17;
            (random % most.max(1) as u64) as usize
        };
        for round in 0..8 {
            let mut bytes = whole.clone();
            match round {
                0..=2 => bytes.truncate(next(whole.len())),
                _ => (0..1 << round).for_each(|_| {
                    let at = next(whole.len());
                    bytes[at] = b"\n 0:-=x9[(\xff\0"[next(12)];
                }),
            }
            let file = kept("hostile", &bytes);
            for word in words {
                let done = run(&[word, file.path()]);
                let said = String::from_utf8_lossy(&done.stderr).into_owned();
                assert!(matches!(done.status.code(), Some(0 | 1)), "{name} {round}: {said}");
                assert!(done.status.code() == Some(0) || said.contains("hullpippin: "), "{name} {round}: {said}");
                assert!(!said.contains("panicked"), "{name} {round}: {said}");
            }
        }
    }
}

#[test]
fn a_bad_line_is_named_and_what_stands_before_it_is_told() {
    let good = text("6.1/tools.trace");
    let bad = good.replacen("binder_transaction: transaction=", "binder_transaction: transactio=", 3).replacen(
        "transactio=",
        "transaction=",
        2,
    );
    let file = kept("bad.trace", bad.as_bytes());
    let done = run(&["calls", file.path()]);
    let said = String::from_utf8_lossy(&done.stderr).into_owned();
    let number = 1 + bad.lines().position(|it| it.contains("transactio=")).expect("it");
    assert_eq!(done.status.code(), Some(1));
    assert!(said.contains(&format!("line {number}: binder_transaction has no transaction")), "{said}");
}

/// A sample that is compressed, as a file of its own.
fn unpacked(name: &str) -> Kept {
    let packed = std::process::Command::new("gzip").args(["-dc", &sample(name)]).output().expect("gzip");
    assert!(packed.status.success(), "{name}");
    static COUNT: AtomicUsize = AtomicUsize::new(0);
    kept(&format!("unpacked-{}", COUNT.fetch_add(1, Relaxed)), &packed.stdout)
}

/// What trace-cmd and perf have recorded of a ping, each in its own form, by these programs where they are there.
#[test]
#[ignore]
fn recordings_of_trace_cmd_and_perf_are_read() {
    for name in ["6.1/ping.dat.gz", "6.1/ping.data.gz"] {
        let file = unpacked(name);
        let lines = told(&["calls", file.path()]);
        // binder-ping asks whether the manager is there, gets the service, and pings it.
        assert!(lines.lines().all(|it| it.contains(" B = ")), "{lines}");
        assert_eq!(lines.lines().filter(|it| it.contains("_PNG")).count(), 2, "{lines}");
        let stats = told(&["stats", file.path()]);
        assert!(stats.contains("  BC_TRANSACTION\n") && stats.contains("  BR_REPLY\n"), "{stats}");
    }
    // Here nobody had registered the name that was asked for.
    let lines = told(&["calls", unpacked("6.1/first.data.gz").path()]);
    assert_eq!((lines.lines().count(), lines.matches(" node 2 _PNG 0 B = 0 B <").count()), (2, 1), "{lines}");
}

#[test]
fn a_recording_without_its_program_says_which_one() {
    for (mark, program, package) in
        [("\x17\x08\x44tracing6", "trace-cmd", "trace-cmd"), ("PERFILE2", "perf", "linux-perf")]
    {
        let file = kept("recording", mark.as_bytes());
        let done = program_without_path(&["calls", file.path()]);
        assert!(
            done.contains(&format!("{program}, which prints")) && done.contains(&format!("package {package}")),
            "{done}"
        );
    }
}

fn program_without_path(words: &[&str]) -> String {
    let done = program().args(words).env("PATH", "/nonexistent").output().expect("the program");
    assert_eq!(done.status.code(), Some(1));
    String::from_utf8(done.stderr).expect("text")
}

/// A thread that waits for a reply sends one that is nobody's: that is refused, and its own call goes on.
#[test]
fn a_refused_reply_is_not_the_end_of_the_call_that_is_waited_for() {
    let lines = [
        "7] binder_command: cmd=0x40406300 BC_TRANSACTION",
        "7] binder_transaction: transaction=1 dest_node=3 dest_proc=9 dest_thread=0 reply=0 flags=0x10 code=0x5",
        "7] binder_transaction_alloc_buf: transaction=1 data_size=8 offsets_size=0 extra_buffers_size=0",
        "7] binder_return: cmd=0x7206 BR_TRANSACTION_COMPLETE",
        "9] binder_transaction_received: transaction=1",
        "7] binder_command: cmd=0x40406301 BC_REPLY",
        "7] binder_return: cmd=0x7211 BR_FAILED_REPLY",
        "9] binder_command: cmd=0x40406301 BC_REPLY",
        "9] binder_transaction: transaction=2 dest_node=0 dest_proc=7 dest_thread=7 reply=1 flags=0x0 code=0x0",
        "7] binder_transaction_received: transaction=2",
    ];
    let line = |(at, it): (usize, &&str)| {
        let (thread, event) = it.split_once("] ").expect("a thread");
        format!("{:>16}-{thread}       [000] .....     1.{:06}: {event}\n", "some", 10 * at)
    };
    let trace: String = lines.iter().enumerate().map(line).collect();
    let told = told(&["calls", kept("refused.trace", trace.as_bytes()).path()]);
    let wanted = "1.000060 some(7/7) -> nobody = BR_FAILED_REPLY\n\
        1.000010 some(7/7) -> some(9/9) node 3#5 8 B = a reply <80.0 us, 30.0 us unread>\n";
    assert_eq!(told, wanted);
}

/// A line of a call without what may differ: its times, and what threads are called, which a command line tells in place of a name.
fn bare(line: &str) -> String {
    let line = line.split_once(' ').map_or("", |it| it.1);
    let (call, behind) =
        line.split_once(" <").map_or((line, ""), |(call, rest)| (call, rest.split_once('>').map_or("", |it| it.1)));
    let words = call.split(' ').map(|it| it.find('(').map_or(it, |at| &it[at..]));
    words.chain([behind]).collect::<Vec<_>>().join(" ")
}

/// What Perfetto has recorded of the calls that an instance of text has beside it, in which the clock is read at another moment.
#[test]
fn a_trace_of_perfettos_tells_the_calls_that_its_text_does() {
    for (set, has_commands) in [("whole", true), ("phone", false)] {
        let perfetto = unpacked(&format!("6.12/{set}.perfetto-trace.gz"));
        let calls = told(&["calls", perfetto.path()]);
        let beside = unpacked(&format!("6.12/{set}.beside.gz"));
        let wanted = told(&["calls", beside.path()]);
        // Those of a phone's settings don't tell which object a call hands over.
        let of = |line: &str| if has_commands { bare(line) } else { bare(line.split(" [").next().unwrap_or("")) };
        let lines = |text: &str| text.lines().map(of).collect::<Vec<_>>();
        assert_eq!(lines(&calls), lines(&wanted), "{calls}{wanted}");
        assert!(calls.contains(" _PNG ") && calls.contains(" B = "), "{calls}");
        let stats = told(&["stats", perfetto.path()]);
        assert_eq!(stats.contains("  BC_TRANSACTION\n"), has_commands, "{stats}");
        for words in [&["slow"][..], &["diagram"], &["export", "--format", "perfetto"], &["top", "--file"]] {
            assert!(!told(&[words, &[perfetto.path()]].concat()).is_empty(), "{words:?}");
        }
    }
}

/// Bytes of it changed at many places, and cut off.
#[test]
fn a_hostile_trace_of_perfettos_ends_with_a_named_error() {
    let whole = fs::read(unpacked("6.12/phone.perfetto-trace.gz").path()).expect("it");
    let cut = kept("cut.perfetto-trace", &whole[..whole.len() - 1]);
    assert!(fault(&["calls", cut.path()]).contains("breaks off; it is left out"));
    for at in (64..whole.len()).step_by(whole.len() / 64) {
        let mut bytes = whole.clone();
        bytes[at] ^= 0x55;
        let done = run(&["calls", kept("hostile.perfetto-trace", &bytes).path()]);
        let said = String::from_utf8_lossy(&done.stderr).into_owned();
        assert!(matches!(done.status.code(), Some(0 | 1)) && !said.contains("panicked"), "{at}: {said}");
        assert!(done.status.code() == Some(0) || said.contains("hullpippin: "), "{at}: {said}");
    }
}
