// SPDX-License-Identifier: Apache-2.0 OR MIT
//! Recordings of raw clients on Linux 6.1's own driver, kept small in tests/recordings: what the rules make of them, of the same with
//! something changed, and of files that are no recordings.
mod common;
use common::*;
use std::fs;
use std::sync::atomic::{AtomicU32, Ordering};

const RECORDINGS: &str = concat!(env!("CARGO_MANIFEST_DIR"), "/tests/recordings");

static NEXT: AtomicU32 = AtomicU32::new(0);

fn recording(name: &str) -> Vec<u8> {
    fs::read(format!("{RECORDINGS}/{name}.recording")).expect("a recording")
}

/// The first line of what is said of a recording, and the status.
fn verdict(bytes: &[u8], words: &[&str]) -> (String, Option<i32>) {
    // Tests run beside one another.
    let number = NEXT.fetch_add(1, Ordering::Relaxed);
    let file = kept(&format!("judged-{number}.recording"), bytes);
    // What is tested isn't built to be fast.
    let done = run(&[&["judge", file.path(), "--seconds", "600"], words].concat());
    let text = String::from_utf8(done.stdout).expect("text");
    (text.lines().next().unwrap_or("").to_string(), done.status.code())
}

/// The answers of reads: where each stands, and how long it is.
fn answers(bytes: &[u8]) -> Vec<(usize, usize)> {
    let u32_at = |at: usize| u32::from_le_bytes(bytes[at..at + 4].try_into().expect("four bytes")) as usize;
    let padded = |size: usize| (size + 7) / 8 * 8;
    let (mut file, mut found) = (0, Vec::new());
    while file < bytes.len() {
        let used = u32_at(file + 8);
        let mut at = file + 64;
        while at < file + used {
            if u32_at(at + 4) == 4 && u32_at(at + 24 + 72) > 4 {
                let begin = at + 24 + 88 + padded(u32_at(at + 24 + 64)) + padded(u32_at(at + 24 + 68));
                found.push((begin, u32_at(at + 24 + 72)));
            }
            at += u32_at(at);
        }
        file += used;
    }
    found
}

#[test]
fn kept_recordings_are_lawful() {
    let lawful = |name: &str| verdict(&recording(name), &[]);
    assert_eq!(lawful("deaths"), ("10 processes, 10 threads, 191 steps: lawful".into(), Some(0)));
    assert_eq!(lawful("waits"), ("2 processes, 3 threads, 57 steps: lawful".into(), Some(0)));
    assert_eq!(lawful("told"), ("2 processes, 4 threads, 33 steps: lawful, with notices".into(), Some(0)));
}

/// Raw clients with small counts, on Linux 7.3's driver.
#[test]
fn raw_clients_on_a_newer_driver_are_lawful() {
    for name in ["latency-5", "nested-3", "oneway-20", "parcels-100", "pool-3", "many-2-2-4", "many-3-2-4"] {
        let (told, status) = verdict(&recording(name), &[]);
        assert!(told.ends_with(" steps: lawful") && status == Some(0), "{name}: {told}");
    }
    let (told, status) = verdict(&recording("two_opens-2"), &[]);
    assert_eq!((told.as_str(), status), ("6 processes, 7 threads, 106 steps: lawful, with own_pid", Some(0)));
}

/// Three threads' calls that say the same: which read has got which is told by when each was replied to.
#[test]
fn calls_that_say_the_same_are_told_apart_by_their_replies() {
    let (told, status) = verdict(&recording("meets"), &["--tries", "200"]);
    assert_eq!((told.as_str(), status), ("2 processes, 8 threads, 41 steps: lawful", Some(0)));
}

/// The beginning of a storm that needs no difference, though the search without one misses its order, and so do those with *waiter*.
#[test]
fn an_order_is_sought_early_without_waiter() {
    let (told, status) = verdict(&recording("unwaited"), &["--tries", "60000"]);
    assert_eq!((told.as_str(), status), ("4 processes, 11 threads, 120 steps: lawful", Some(0)));
}

#[test]
fn without_the_difference_that_it_needs_one_has_no_order() {
    let (told, status) = verdict(&recording("told"), &["--ways", "cleared,order"]);
    assert!(told.contains("unlawful: no order goes beyond 22 steps, and all were tried"), "{told}");
    assert_eq!(status, Some(1));
}

/// Of each kind that no script shows the beginning of a recorded storm, up to where it comes about: with the differences that it needs,
/// and with others, which don't do.
const KINDS: [(&str, &str, &str); 4] = [
    ("numbered", "numbered,pieces", "pieces"),
    ("released", "released", "own_pid"),
    ("pieces", "pieces", "own_pid"),
    ("held", "cleared,numbered,held", "cleared,numbered"),
];

#[test]
fn kinds_that_no_script_shows_are_seen() {
    for (name, needed, others) in KINDS {
        let (told, status) = verdict(&recording(name), &["--ways", needed]);
        assert!(told.contains(": lawful") && status == Some(0), "{name}: {told}");
        // That there is none at all takes some 200,000 tries of `numbered`, too many for each run.
        let (told, status) = verdict(&recording(name), &["--ways", others, "--tries", "5000"]);
        assert!(told.contains(": un") && status == Some(1), "{name}: {told}");
    }
}

/// A bit of each code that a read has brought is turned, one after the other.
#[test]
fn what_the_driver_never_said_has_no_order() {
    let whole = recording("waits");
    let all = answers(&whole);
    assert!(all.len() > 10, "{} answers", all.len());
    for (begin, size) in all {
        let mut spoiled = whole.clone();
        spoiled[begin + size - 1] ^= 1;
        let (told, status) = verdict(&spoiled, &["--tries", "20000"]);
        assert!(told.contains(": un") && status == Some(1), "byte {}: {told}", begin + size - 1);
    }
}

#[test]
fn the_order_is_a_journal_that_is_shown() {
    let (file, order) = (kept("shown.recording", &recording("deaths")), kept("shown.order", b""));
    printed(&["judge", file.path(), "--journal", order.path()]);
    let shown = printed(&["show", order.path(), "--bytes", "0"]);
    assert!(shown.contains("BR_DEAD_BINDER") && shown.contains("BC_DEAD_BINDER_DONE"), "{shown}");
    for beside in [".times", ".who"] {
        assert!(fs::metadata(format!("{}{beside}", order.path())).is_ok(), "{beside}");
        fs::remove_file(format!("{}{beside}", order.path())).expect("it was there");
    }
}

/// binder-list, recorded alone: its manager and a service ran before.
#[test]
fn who_was_not_recorded_is_stood_in_for() {
    let whole = recording("list");
    let (file, order) = (kept("list.recording", &whole), kept("list.order", b""));
    let told = printed(&["judge", file.path(), "--journal", order.path()]);
    assert!(told.starts_with("2 processes, 2 threads, 37 steps: lawful\n"), "{told}");
    assert!(told.contains("3 calls went to processes that weren't recorded: pid 16777215 stands in"), "{told}");
    let calls = printed(&["calls", order.path()]);
    assert_eq!(calls.matches(" -> (not recorded) manager").count(), 3, "{calls}");
    assert!(printed(&["leaks", order.path()]).contains("nothing is held"));
    for beside in [".times", ".who"] {
        fs::remove_file(format!("{}{beside}", order.path())).expect("it was there");
    }
    // What the driver itself says has to follow from the rules all the same.
    let (begin, size) = *answers(&whole).first().expect("an answer");
    let mut spoiled = whole.clone();
    spoiled[begin + size - 72] ^= 1;
    assert!(verdict(&spoiled, &[]).0.contains(": un"), "a completion that is none");
}

/// The threads' files of a recording, but for those of the process that becomes the context manager.
fn without_manager(whole: &[u8]) -> Vec<u8> {
    let mut files: Vec<&[u8]> = Vec::new();
    let mut at = 0;
    while at < whole.len() {
        let used = u64::from_le_bytes(whole[at + 8..at + 16].try_into().expect("eight bytes")) as usize;
        files.push(&whole[at..at + used]);
        at += used;
    }
    let becomes = |it: &&&[u8]| it.windows(4).any(|it| it == 0x4004_6207u32.to_le_bytes());
    let manager = &files.iter().find(becomes).expect("a manager")[16..20];
    files.iter().filter(|it| &it[16..20] != manager).flat_map(|it| it.to_vec()).collect()
}

/// Clients that were recorded without who answers them: one of one-way calls; one of whose calls one isn't answered, and one that is
/// called back, whose answers no stand-in gives. That isn't called unlawful.
#[test]
fn clients_alone_are_judged_as_far_as_it_goes() {
    let alone = [
        ("oneway-20", "99 steps: lawful\n", "22 calls went to processes that weren't recorded"),
        (
            "waits",
            // Where it comes furthest, each process ends in four parts.
            "57 steps: unknown: no order was found beyond 41 steps\n",
            "4 calls went to processes that weren't recorded",
        ),
        (
            "nested-3",
            "40 steps: unknown: no order was found beyond 3 steps\n",
            "nobody who was recorded is the context manager",
        ),
    ];
    for (name, verdict, why) in alone {
        let file = kept(&format!("{name}-alone.recording"), &without_manager(&recording(name)));
        let told = String::from_utf8(run(&["judge", file.path(), "--tries", "20000"]).stdout).expect("text");
        assert!(told.contains(verdict) && told.contains(why), "{name}: {told}");
    }
}

/// Whatever a file holds, it is read or refused, and nothing of it is believed beyond its end.
#[test]
fn what_is_no_recording_is_refused() {
    let whole = recording("told");
    for size in (0..whole.len()).step_by(97) {
        let (told, status) = verdict(&whole[..size], &["--tries", "2000"]);
        assert!(status == Some(1) || told.contains("steps: "), "cut after {size}: {told}");
    }
    for at in (0..whole.len()).step_by(61) {
        let mut spoiled = whole.clone();
        spoiled[at] ^= 0xff;
        let (told, status) = verdict(&spoiled, &["--tries", "2000"]);
        assert!(matches!(status, Some(0 | 1)), "byte {at}: {told} {status:?}");
    }
    let file = kept("none.recording", b"HPREC002 and more");
    let told = format!("hullpippin: {}: byte 0: neither a thread's file nor a trace begins here\n", file.path());
    assert_eq!(fault(&["judge", file.path()]), told);
    assert!(fault(&["judge", "/no/such/recording"]).starts_with("hullpippin: /no/such/recording: No such file"));
    let folder = env!("CARGO_MANIFEST_DIR"); // (which has folders of its own)
    let told = format!("hullpippin: {folder}: no recording: no thread has left anything here\n");
    assert_eq!(fault(&["judge", folder]), told);
}

/// Where in a recording the file of each thread begins and ends, and where its last record begins.
fn last_records(bytes: &[u8]) -> Vec<(usize, usize, usize)> {
    let u32_at = |at: usize| u32::from_le_bytes(bytes[at..at + 4].try_into().expect("four bytes")) as usize;
    let (mut file, mut found) = (0, Vec::new());
    while file < bytes.len() {
        let end = file + u32_at(file + 8);
        let (mut at, mut last) = (file + 64, file + 64);
        while at < end {
            last = at;
            at += u32_at(at);
        }
        found.push((file, end, last));
        file = end;
    }
    found
}

/// A thread that is killed while it keeps what it has read: the record says already how much that is, or how long it is now, and the file
/// doesn't. It is as if the call had never come back.
#[test]
fn a_thread_may_be_killed_while_it_keeps_what_it_read() {
    let whole = recording("told");
    let put = |to: &mut [u8], at: usize, number: u32| to[at..at + 4].copy_from_slice(&number.to_le_bytes());
    let u32_at = |at: usize| u32::from_le_bytes(whole[at..at + 4].try_into().expect("four bytes"));
    let mut tried = 0;
    for (file, end, at) in last_records(&whole) {
        if u32_at(at + 4) != 4 || u32_at(at + 24 + 72) == 0 {
            continue;
        }
        tried += 1;
        let kept = at + 24 + 88 + (u32_at(at + 24 + 64) as usize + 7) / 8 * 8 + u32_at(at + 24 + 68) as usize;
        let cut = |size: usize, came_back: bool, returned: bool| {
            let mut bytes = whole[..kept].to_vec();
            put(&mut bytes, file + 8, (kept - file) as u32);
            put(&mut bytes, at, size as u32);
            if !came_back {
                bytes[at + 16..at + 24].fill(0);
            }
            if !returned {
                bytes[at + 24 + 72..at + 24 + 80].fill(0);
            }
            bytes.extend(&whole[end..]);
            verdict(&bytes, &["--tries", "20000"])
        };
        let never = cut(kept - at, false, false);
        assert!(never.0.contains(" steps: "), "{never:?}");
        assert_eq!(cut(kept - at, false, true), never, "the record says how much it had read");
        assert_eq!(cut(end - at, true, true), never, "the record has its whole length");
    }
    assert!(tried > 0, "no thread ends with a read");
}

/// libgbinder's tools with our manager and service, recorded on Linux 6.1 from the first open on.
#[test]
fn a_recording_is_shown_by_its_order() {
    let file = kept("tools.recording", &recording("tools"));
    let done = run(&["calls", file.path()]);
    let (calls, said) = (String::from_utf8(done.stdout).expect("text"), String::from_utf8(done.stderr).expect("text"));
    let verdict = "4 processes, 6 threads, 87 steps: lawful, with cleared; its order is in ";
    assert!(said.contains(verdict) && said.lines().count() == 1, "{said}");
    assert_eq!(calls.matches(" -> servicemanager(181/181) manager").count(), 6, "{calls}");
    assert_eq!(calls.matches("binder-ping(188/188) -> hello(183/183) hello _PNG").count(), 1, "{calls}");
    // It is there now, and isn't sought again.
    assert!(printed(&["leaks", file.path()]).contains("pid 183: 1 buffers were read and not freed"));
    let order = format!("{}.order", file.path());
    assert_eq!(fs::read_to_string(format!("{order}.ways")).expect("its differences"), "HPWAYS 1 cleared\n");
    // By them it is known which thread has read what was due to its process.
    let unread = |path: &str| printed(&["state", path]).matches("unread since").count();
    assert_eq!(unread(file.path()), 1);
    fs::write(format!("{order}.ways"), "HPWAYS 1 nosuch\n").expect("the file");
    let told = String::from_utf8(run(&["state", &order]).stderr).expect("text");
    assert!(told.contains("\"nosuch\" is no difference; so it isn't used"), "{told}");
    fs::remove_file(format!("{order}.ways")).expect("it was there");
    assert_eq!(unread(&order), 3);
    for beside in ["", ".times", ".who"] {
        fs::remove_file(format!("{order}{beside}")).expect("it was there");
    }
}

/// A program that waits for ever is ended from the terminal, and what it asked by then is told; the status is the program's.
#[test]
fn what_ends_a_program_does_not_end_its_recording() {
    let into = kept("interrupted", b"");
    let recorded = |name: &str, script: &str| {
        let into = format!("{}.{name}", into.path());
        let mut command = program();
        command.args(["record", "--no-trace", "--into", &into, "sh", "-c", script]);
        // Nothing is recorded here: what stands in the library's place is none, and `env` in the place of what finds a daemon.
        let done = command
            .env("HULLPIPPIN_RUN", "env")
            .env("HULLPIPPIN_RECORDER", concat!(env!("CARGO_MANIFEST_DIR"), "/Cargo.toml"));
        let done = done.output().expect("the program");
        fs::remove_dir(&into).expect("its folder");
        (String::from_utf8(done.stdout).expect("text"), done.status.code())
    };
    let (told, status) = recorded("outlived", "kill -INT $PPID; sleep 0.2; exit 7");
    assert!(told.contains("nothing was recorded") && status == Some(7), "{told} {status:?}");
    let (told, status) = recorded("ended", "kill -TERM $$");
    assert!(told.contains("nothing was recorded") && status == Some(143), "{told} {status:?}");
}

/// Of one without an order nothing is shown, and why is said.
#[test]
fn without_an_order_nothing_is_shown() {
    let file = kept("nested-alone.recording", &without_manager(&recording("nested-3")));
    let told = fault(&["show", file.path()]);
    assert!(
        told.contains("steps: unknown: no order was found beyond 3 steps; without an order nothing is shown"),
        "{told}"
    );
}
