// SPDX-License-Identifier: Apache-2.0 OR MIT
//! What goes on in a daemon: told of one that has a ring of steps and nothing else.
mod common;
use common::ring::{daemon, field, record, telling, told, Kind, Ring, Step, Who, GOT, SENT};
use common::*;
use std::fs;
use std::io::{BufRead, BufReader};
use std::os::unix::fs::PermissionsExt;
use std::process::{Command, Stdio};
use std::thread::sleep;
use std::time::{Duration, Instant};

// Pids that no process of this machine can have.
const DAEMON: Who = (0, 100, 9_000_000, 0, "hullpippind");
const MANAGER: Who = (1, 100, 9_000_100, 9_000_100, "manager");
const SERVICE: Who = (2, 200, 9_000_200, 9_000_201, "Binder:1");
const CLIENT: Who = (3, 300, 9_000_300, 9_000_300, "cl\x1bent");
const PNG: u64 = 0x5f50_4e47;
const BR_DEAD_REPLY: u64 = 0x7205;

fn step(after: u64, who: Who, kind: Kind, fields: &[(usize, u64)]) -> Step {
    Step { after, who, kind, fields: fields.to_vec(), data: Vec::new() }
}

fn call(after: u64, who: Who, kind: Kind, fields: &[(usize, u64)]) -> Step {
    step(after, who, kind, &[&[(field::COMMAND, BC_TRANSACTION.into())], fields].concat())
}

/// A service that is registered with the manager: a call of 112 bytes, which is read after 13.1 us; its reply of 4 after 1.2 ms.
fn registration(object: u64) -> Vec<Step> {
    use field::*;
    let data = [&[0xff; 12][..], &text("android.os.IServiceManager"), &text("hello")].concat();
    let to_manager =
        [(HANDLE, 0), (CODE, 3), (OTHER, 100), (OBJECT_PLACE, object), (OBJECT_INDEX, 0), (DATA_SIZE, 112)];
    let registers = call(1_000_000, SERVICE, SENT, &[&to_manager[..], &[(OFFSETS_SIZE, 8)]].concat());
    let made = object + 1;
    vec![
        Step { data, ..registers },
        step(
            1_013_100,
            MANAGER,
            GOT,
            &[(COMMAND, BR_TRANSACTION.into()), (CODE, 3), (OTHER, 200), (CALL, made), (DATA_SIZE, 112)],
        ),
        step(1_900_000, MANAGER, SENT, &[(COMMAND, BC_REPLY.into()), (OTHER, 200), (DATA_SIZE, 4)]),
        step(2_200_000, SERVICE, GOT, &[(COMMAND, BR_REPLY.into()), (DATA_SIZE, 4)]),
    ]
}

/// And what a client does with it: a one-way call, one that is refused, one that fails, one that isn't answered.
fn steps() -> Vec<Step> {
    use field::*;
    let service = [(HANDLE, 1), (OTHER, 200), (OBJECT_PLACE, 2), (OBJECT_INDEX, 0)];
    let on_service = |after, more: &[(usize, u64)]| call(after, CLIENT, SENT, &[&service[..], more].concat());
    let mut steps = vec![step(0, DAEMON, (0, 0, 0), &[]), step(1, MANAGER, (2, 1, 0), &[])];
    steps.extend(registration(1));
    steps.extend([
        on_service(3_000_000, &[(CODE, PNG), (FLAGS, 1), (DATA_SIZE, 76)]),
        step(3_031_200, SERVICE, GOT, &[(COMMAND, BR_TRANSACTION.into()), (CODE, PNG), (FLAGS, 1), (DATA_SIZE, 76)]),
        call(4_000_000, CLIENT, (3, 5, 1), &[(HANDLE, 5), (CODE, 9)]),
        step(4_000_900, CLIENT, GOT, &[(COMMAND, BR_FAILED_REPLY.into())]),
        on_service(5_000_000, &[(CODE, 7)]),
        step(5_001_000, SERVICE, GOT, &[(COMMAND, BR_TRANSACTION.into()), (CODE, 7), (OTHER, 300), (CALL, 10)]),
        step(5_002_000, DAEMON, (6, 2, 0), &[]),
        step(5_500_000, CLIENT, GOT, &[(COMMAND, BR_DEAD_REPLY)]),
        on_service(6_000_000, &[(CODE, 8)]),
    ]);
    steps
}

const LINES: [&str; 5] = [
    "11:03:07.001000 Binder:1(9000200/9000201) -> manager(9000100/9000100) android.os.IServiceManager#3 112 B = 4 B <1.2 ms, 13.1 us unread>",
    "11:03:07.003000 cl\\u{1b}ent(9000300/9000300) -> Binder:1(9000200/9000201) hello _PNG one-way 76 B <31.2 us unread>",
    "11:03:07.004000 cl\\u{1b}ent(9000300/9000300) -> nobody handle 5#9 0 B = X1 NotStronglyNamed: the handle is not strongly named",
    "11:03:07.005000 cl\\u{1b}ent(9000300/9000300) -> Binder:1(9000200/9000201) hello#7 0 B = no reply <500.0 us, 1.0 us unread>",
    "11:03:07.006000 cl\\u{1b}ent(9000300/9000300) -> Binder:1(9000200) hello#8 0 B = open",
];

fn filled(name: &str) -> Ring {
    filled_of(name, 64)
}

/// The same of so many slots.
fn filled_of(name: &str, slots: u32) -> Ring {
    let mut ring = Ring::new(name, slots);
    steps().iter().for_each(|it| ring.put(it));
    ring
}

/// As many as `busy` fills in a minute, so that whoever comes late, on a machine that does much else, still finds the first.
const ROOMY: u32 = 1 << 15;

#[test]
fn calls_are_told_a_line_each() {
    let ring = filled("calls");
    let socket = daemon("calls", &ring, 0);
    let words = ["trace", "--socket", socket.path(), "--past", "--once"];
    assert_eq!(printed(&words), LINES.join("\n") + "\n");
    let of = |pid: &str| printed(&[&words[..], &["--pid", pid]].concat());
    assert_eq!(of("9000100"), LINES[0].to_string() + "\n");
    assert_eq!(of("9000300"), LINES[1..].join("\n") + "\n");
    let none = fault(&[&words[..], &["--code", "99"]].concat());
    assert_eq!(none, "hullpippin: /dev/binder: no call is as chosen\n");
    let later = printed(&["trace", "--socket", socket.path(), "--once"]);
    assert_eq!(later, LINES[4].to_string() + "\n", "what was over before isn't told unless one wants the past");
    let done =
        program().args(["trace", "--past", "--once"]).env("HULLPIPPIN_SOCKET", socket.path()).output().expect("it");
    assert_eq!(String::from_utf8_lossy(&done.stdout), LINES.join("\n") + "\n");
    assert!(printed(&[&words[..], &["--color", "always"]].concat()).contains("\x1b["));
}

#[test]
fn calls_are_told_as_they_come() {
    let steps = steps();
    let mut ring = Ring::new("come", 64);
    steps[..3].iter().for_each(|it| ring.put(it));
    let socket = daemon("come", &ring, 0);
    let mut child = program();
    // The first call may be over before it looks for the first time.
    child.args(["trace", "--past", "--socket", socket.path()]).stdout(Stdio::piped());
    let mut child = child.spawn().expect("the program");
    let mut lines = BufReader::new(child.stdout.take().expect("a pipe")).lines().map(|it| it.expect("a line"));
    steps[3..6].iter().for_each(|it| ring.put(it));
    assert_eq!(lines.next().expect("a line"), LINES[0]);
    steps[6..8].iter().for_each(|it| ring.put(it));
    assert_eq!(lines.next().expect("a line"), LINES[1]);
    ring.end();
    assert_eq!(lines.next(), None);
    assert!(child.wait().expect("its end").success());
}

/// Steps that were written over before they were looked at are gone, and that is told.
#[test]
fn what_is_lost_is_no_call() {
    let mut ring = Ring::new("lost", 4);
    steps().iter().for_each(|it| ring.put(it));
    let socket = daemon("lost", &ring, 0);
    let lines = printed(&["trace", "--socket", socket.path(), "--past", "--once"]);
    // The last four have the end of the service's process, a reply to a call that nobody saw, and a call.
    assert_eq!(lines, "11:03:07.006000 cl\\u{1b}ent(9000300/9000300) -> pid 200 2.0#8 0 B = open\n");
}

#[test]
fn what_has_no_ring_is_told() {
    let ring = Ring::new("none", 4);
    for (error, told) in [
        (1, "the daemon shows its steps to its own user and to root, and to nobody else"),
        (2, "the daemon has no device /dev/binder"),
        (12, "the daemon has no steps to show: ENOMEM"),
    ] {
        let socket = daemon(&format!("error-{error}"), &ring, error);
        for word in ["trace", "top"] {
            let said = fault(&[word, "--once", "--socket", socket.path()]);
            assert!(said.starts_with(&format!("hullpippin: {told}")), "{said}");
        }
    }
    let said = fault(&["top", "--socket", "/no/such/socket"]);
    assert_eq!(said, "hullpippin: there is no daemon at /no/such/socket; hullpippin-run starts one\n");
    for (at, bytes, told) in [
        (0, &b"HPRING01"[..], "the daemon's ring is of another version: \"HPRING01\""),
        (12, &[1, 0, 0, 0], "the daemon's ring has 64 slots of 1 bytes behind 4096"),
        (12, &[0xff; 4], "the daemon's ring has 64 slots of 4294967295 bytes behind 4096"),
        (16, &[0, 0, 0, 0], "the daemon's ring has 0 slots of 384 bytes behind 4096"),
        // It claims steps that it has no memory for.
        (16, &[0xff; 4], "the daemon's ring: failed to fill whole buffer"),
    ] {
        let mut bad = filled(&format!("bad-{at}"));
        (0..60).for_each(|_| bad.put(&step(0, MANAGER, (2, 1, 0), &[])));
        let mut memory = fs::read(&bad.file.0).expect("the ring");
        memory[at..at + bytes.len()].copy_from_slice(bytes);
        fs::write(&bad.file.0, memory).expect("the ring");
        let socket = daemon(&format!("bad-{at}"), &bad, 0);
        assert_eq!(fault(&["trace", "--once", "--socket", socket.path()]), format!("hullpippin: {told}\n"));
    }
}

/// A count that no device can have come to leads to no step.
#[test]
fn a_count_that_cannot_be_is_no_step() {
    let ring = filled("count");
    let mut memory = fs::read(&ring.file.0).expect("the ring");
    memory[128..136].copy_from_slice(&[0xff; 8]);
    fs::write(&ring.file.0, memory).expect("the ring");
    let socket = daemon("count", &ring, 0);
    let done = run(&["trace", "--once", "--past", "--socket", socket.path()]);
    let said = String::from_utf8_lossy(&done.stderr).into_owned();
    assert_eq!((said.as_str(), done.stdout.len()), ("hullpippin: /dev/binder: the daemon knows of no call\n", 0));
    assert!(done.status.success(), "{:?}", done.status);
}

/// Where no call is open, one learns how to see those that have ended.
#[test]
fn that_no_call_is_open_is_told() {
    let mut ring = Ring::new("none-open", 64);
    steps()[..6].iter().for_each(|it| ring.put(it));
    let socket = daemon("none-open", &ring, 0);
    let words = ["trace", "--once", "--socket", socket.path()];
    let done = run(&words);
    let told = "hullpippin: /dev/binder: no call is open; --past prints those that ended before\n";
    assert_eq!((String::from_utf8_lossy(&done.stderr).as_ref(), done.stdout.len()), (told, 0));
    assert!(done.status.success(), "{:?}", done.status);
    assert_eq!(printed(&[&words[..], &["--past"]].concat()), LINES[0].to_string() + "\n");
}

/// Places behind those of 32 bits.
const LATE: u64 = 1 << 32;

/// A manager with a thread in the loop; a service of which another process of the history has a handle for an object, and in whose window
/// lie an unread call and a reply of a process that has ended.
fn state() -> Vec<Vec<Vec<u8>>> {
    use told::*;
    let manager =
        [(PROCESS, 100), (PID, 9_000_100), (EUID, 1000), (FLAGS, 1), (WINDOW, 4096), (THREADS, 1), (MAX_THREADS, 15)];
    let service = [
        [(PROCESS, 201), (PID, 9_000_200), (EUID, 2000), (FLAGS, 2), (WINDOW, 8192), (THREADS, 2), (MAX_THREADS, 15)]
            .to_vec(),
        vec![(STARTED, 1), (UNREAD, 16)],
    ];
    let thread = |more: &[(usize, u64)]| record(2, &[&[(INNERMOST, u64::MAX)], more].concat(), "Binder:1");
    let object = [(OBJECT_PLACE, LATE + 4), (OBJECT_INDEX, 2)];
    vec![
        vec![record(1, &manager, "manager"), record(1, &service.concat(), "serv\x1bice")],
        vec![],
        vec![
            thread(&[(PROCESS, 100), (PID, 9_000_100), (TID, 9_000_101), (SEAT, 1), (FLAGS, 12)]),
            thread(&[
                (PROCESS, 201),
                (TID, 9_000_201),
                (SEAT, 2),
                (SERVING, 2),
                (CALLING, 1),
                (INNERMOST, LATE + 12),
                (UNREAD, 3),
            ]),
        ],
        vec![
            record(3, &[&[(PROCESS, 100), (HANDLE, 1), (PARTY, 201)], &object[..]].concat(), ""),
            record(3, &[(PROCESS, 100), (HANDLE, 2), (OBJECT_PLACE, 5), (PARTY, 0)], ""),
            record(
                4,
                &[
                    &[
                        (PROCESS, 201),
                        (FLAGS, 64 + 16),
                        (PARTY, 100),
                        (MADE, LATE + 21),
                        (START, 16),
                        (SIZE, 88),
                        (CODE, PNG),
                    ],
                    &object[..],
                ]
                .concat(),
                "",
            ),
            record(4, &[(PROCESS, 201), (FLAGS, 32), (MADE, 9), (SIZE, 8)], ""),
            // Of a process that has come since.
            record(3, &[(PROCESS, 300), (HANDLE, 1), (OBJECT_PLACE, 4), (PARTY, 201)], ""),
        ],
        shares(),
    ]
}

/// An account of a slice with one user, of which the service and a process of another device have something; and what no kind is.
fn shares() -> Vec<Vec<u8>> {
    use told::*;
    let slice = (OBJECT_PLACE, LATE + 77);
    let user = [slice, (EUID, 2000)];
    let service = [slice, (EUID, 2000), (PID, 9_000_200)];
    let share = |whose: &[(usize, u64)], of, taken, refused| {
        record(5, &[whose, &[(CODE, of), (MADE, taken), (INNERMOST, refused)]].concat(), "")
    };
    vec![
        share(&service, 0, 9, 0),
        share(&service, 3, LATE, 40),
        share(&[slice, (EUID, 2000), (PID, 9_000_700)], 7, 2, 0),
        share(&[slice, (FLAGS, 256)], 3, LATE, 40),
        share(&[&user[..], &[(FLAGS, 128)]].concat(), 3, LATE, 40),
        share(&service, 99, 1, 1),
    ]
}

#[test]
fn what_goes_on_in_a_daemon_is_told() {
    let socket = telling("state", state(), 0);
    let words = ["state", "--daemon", "--socket", socket.path()];
    let told = "after 30 steps of /dev/binder\n\
        pid 9000100 \"manager\" euid 1000 window 4096, 1 threads, 0 of them asked for, of at most 15, in the history 100, context manager\n  \
        seat 1 (tid 9000101 \"Binder:1\"), in the loop, waits in a read\n  \
        handle 1 object 4294967300.2 of pid 9000200 \"serv\\u{1b}ice\"\n  \
        handle 2 object 5.0 of a process that has ended\n\
        pid 9000200 \"serv\\u{1b}ice\" euid 2000 window 8192, 2 threads, 1 of them asked for, of at most 15, in the history 201, \
        asks for reports of flooding, 16 or more to read\n  \
        seat 2 (tid 9000201 \"Binder:1\"), serves 2 calls, waits in 1 call, the innermost made at 4294967308, 3 to read\n  \
        buffer at 16 made at 4294967317 size 88 code 0x5f504e47 from pid 9000100 \"manager\", for object 4294967300.2, one-way, unread\n  \
        buffer at 0 made at 9 size 8 code 0x0 from a process that has ended\n\
        account 4294967373: 4294967296 pieces of calls (refused 40 times)\n\
        account 4294967373 user 2000: 4294967296 pieces of calls (refused 40 times)\n\
        account 4294967373 user 2000 pid 9000200 \"serv\\u{1b}ice\": 9 descriptors, 4294967296 pieces of calls (refused 40 times)\n\
        account 4294967373 user 2000 pid 9000700: 2 death notifications\n";
    assert_eq!(printed(&words), told);
    let values = printed(&[&words[..], &["--format", "json"]].concat());
    let values: Vec<serde_json::Value> = values.lines().map(|it| serde_json::from_str(it).expect("JSON")).collect();
    assert_eq!(values[0], serde_json::json!({"steps": 30, "device": "/dev/binder"}));
    let owner = serde_json::json!({"pid": 9_000_200, "comm": "serv\u{1b}ice"});
    assert_eq!(values[1]["handles"][0], serde_json::json!({"handle": 1, "object": "4294967300.2", "owner": owner}));
    assert_eq!(values[2]["buffers"][1]["from"], serde_json::Value::Null);
    let calls = serde_json::json!([{"of": "calls", "taken": LATE, "refused": 40}]);
    assert_eq!(values[3], serde_json::json!({"account": LATE + 77, "comm": null, "shares": calls}));
    assert_eq!((&values[5]["comm"], values[5]["shares"].as_array().map(Vec::len)), (&owner["comm"], Some(2)));
    assert_eq!((values.len(), &values[6]["pid"]), (7, &serde_json::json!(9_000_700)));
}

#[test]
fn why_nothing_is_told_of_a_daemon_is_said() {
    let socket = telling("state-error", state(), 1);
    let said = fault(&["state", "--daemon", "--socket", socket.path()]);
    assert_eq!(said, "hullpippin: the daemon shows its steps to its own user and to root, and to nobody else\n");
    let said = fault(&["state", "--daemon", "--socket", "/no/such/socket"]);
    assert_eq!(said, "hullpippin: there is no daemon at /no/such/socket; hullpippin-run starts one\n");
    for words in [&["state"][..], &["state", "x", "--daemon"], &["state", "x", "--socket", "y"]] {
        assert_eq!(run(words).status.code(), Some(2), "{words:?}");
    }
}

/// A runner that tells its pid and waits until it may go on.
fn runner(name: &str) -> (Kept, Kept, Kept) {
    let (pid, go) = (kept(&format!("{name}-pid"), b""), kept(&format!("{name}-go"), b""));
    let text =
        format!("#!/bin/sh\necho $$ > {}\nuntil [ -s {} ]; do sleep 0.02; done\nexec \"$@\"\n", pid.path(), go.path());
    let run = kept(&format!("{name}-run"), text.as_bytes());
    fs::set_permissions(&run.0, fs::Permissions::from_mode(0o755)).expect("a program");
    (run, pid, go)
}

fn number_in(file: &Kept) -> u32 {
    let until = Instant::now() + Duration::from_secs(60);
    while Instant::now() < until {
        match fs::read_to_string(&file.0).expect("a file").trim().parse() {
            Ok(number) => return number,
            Err(_) => sleep(Duration::from_millis(20)),
        }
    }
    panic!("nothing was written to {}", file.path());
}

#[test]
fn the_calls_of_a_program_are_told_and_its_status() {
    let mut ring = filled("program");
    let socket = daemon("program", &ring, 0);
    let (run, pid, go) = runner("program");
    let mut child = program();
    child.args(["trace", "--socket", socket.path(), "sh", "-c", "exit 3"]).env("HULLPIPPIN_RUN", run.path());
    let child = child.stdout(Stdio::piped()).stderr(Stdio::piped()).spawn().expect("the program");
    let pid = number_in(&pid);
    let who: Who = (5, 500, pid, pid, "own");
    let refused = |who| call(7_000_000, who, (3, 5, 1), &[(field::HANDLE, 5), (field::CODE, 9)]);
    ring.put(&refused(CLIENT));
    ring.put(&refused(who));
    fs::write(&go.0, "go").expect("a file");
    let done = child.wait_with_output().expect("its end");
    let told = format!("11:03:07.007000 own({pid}/{pid}) -> nobody handle 5#9 0 B = X1 NotStronglyNamed: the handle is not strongly named\n");
    assert_eq!(String::from_utf8_lossy(&done.stderr), told);
    assert_eq!((done.status.code(), done.stdout.len()), (Some(3), 0));
}

/// A program that makes no call, or none as chosen: one reads so, and the status is the program's.
#[test]
fn a_program_without_calls_is_told() {
    let ring = filled("quiet");
    let socket = daemon("quiet", &ring, 0);
    let run = kept("quiet-run", b"#!/bin/sh\nexec \"$@\"\n");
    fs::set_permissions(&run.0, fs::Permissions::from_mode(0o755)).expect("a program");
    for (words, why) in [(&[][..], "sh has made no call, and served none"), (&["--code", "99"], "no call is as chosen")]
    {
        let mut command = program();
        command.args(["trace", "--socket", socket.path()]).args(words).args(["sh", "-c", "exit 3"]);
        let done = command.env("HULLPIPPIN_RUN", run.path()).output().expect("the program");
        let said = String::from_utf8_lossy(&done.stderr).into_owned();
        assert_eq!((said, done.status.code()), (format!("hullpippin: /dev/binder: {why}\n"), Some(3)), "{words:?}");
    }
}

#[test]
fn a_program_that_cannot_be_run_is_told() {
    let ring = filled("no-program");
    let socket = daemon("no-program", &ring, 0);
    let mut command = program();
    command.args(["trace", "--socket", socket.path(), "true"]).env("HULLPIPPIN_RUN", "/no/such/runner");
    let done = command.output().expect("the program");
    let told = "hullpippin: /no/such/runner, which HULLPIPPIN_RUN may name: No such file or directory (os error 2)\n";
    assert_eq!((String::from_utf8_lossy(&done.stderr).as_ref(), done.status.code()), (told, Some(1)));
    let said = fault(&["trace", "--socket", socket.path(), "--nothing"]);
    assert_eq!(said, "hullpippin: --nothing: options stand before the program\n");
}

/// Has calls go on until somebody has seen enough.
fn busy(ring: &mut Ring, mut is_over: impl FnMut() -> bool) {
    let until = Instant::now() + Duration::from_secs(60);
    while !is_over() {
        assert!(Instant::now() < until, "nobody has seen enough");
        register(ring);
        sleep(Duration::from_millis(10));
    }
}

fn register(ring: &mut Ring) {
    registration(ring.count - 1).iter().for_each(|it| ring.put(it));
}

#[test]
fn one_screen_is_printed() {
    let mut ring = filled_of("once", ROOMY);
    let socket = daemon("once", &ring, 0);
    // Much has happened by the time that it looks.
    (0..50).for_each(|_| register(&mut ring));
    let mut child = program();
    child.args(["top", "--once", "--interval", "0.5", "--socket", socket.path()]).stdout(Stdio::piped());
    let mut child = child.spawn().expect("the program");
    busy(&mut ring, || child.try_wait().expect("the program").is_some());
    let done = child.wait_with_output().expect("its end");
    let screen = String::from_utf8(done.stdout).expect("text");
    check_screen(&screen);
    assert!(screen.lines().all(|it| !it.ends_with(' ')), "{screen}");
}

/// The words of each line of a screen; rates are of the machine, all else is what the steps say.
fn check_screen(screen: &str) {
    let lines: Vec<Vec<&str>> = screen.lines().map(|it| it.split_whitespace().collect()).collect();
    let rest = |first: &str, from: usize| {
        let line = lines.iter().find(|it| it.contains(&first)).unwrap_or_else(|| panic!("{first}: {screen}"));
        line[from..].join(" ")
    };
    assert!(screen.contains(" calls/s, 2 processes, 3 threads"), "{screen}");
    assert_eq!(rest("mean", 0), "calls/s bytes/s mean most failed from -> to what");
    assert_eq!(
        rest("android.os.IServiceManager#3", 2),
        "1.2 ms 1.2 ms 0 Binder:1 -> manager android.os.IServiceManager#3"
    );
    assert_eq!(rest("unread", 0), "made/s served/s failed waits unread buffers window process");
    assert_eq!(rest("manager(9000100)", 2), "0 0 0 - - manager(9000100)");
    // The client has a call that nobody has read, from before.
    assert_eq!(rest("cl\\u{1b}ent(9000300)", 0), "0 0 0 1 0 - - cl\\u{1b}ent(9000300)");
    let number = |word: &str| word.parse::<f64>().unwrap_or_else(|_| panic!("{word}: {screen}"));
    let made = rest("Binder:1(9000200)", 0);
    assert!(number(made.split(' ').next().expect("a rate")) > 0.0, "{screen}");
    assert_eq!(made.split(' ').skip(1).collect::<Vec<_>>().join(" "), "0 0 0 1 - - Binder:1(9000200)");
}

fn tmux(test: &str, words: &[&str]) -> String {
    let name = format!("hullpippin-{test}-{}", std::process::id());
    let done = Command::new("tmux").args(["-L", &name]).args(words).env("TERM", "xterm").output().expect("tmux");
    String::from_utf8_lossy(&done.stdout).into_owned()
}

/// What `top` draws on a terminal of such a size, once a call is there; then it is ended by a key.
fn drawn(test: &str, columns: u32, shows: &str) -> String {
    let mut ring = filled_of(test, ROOMY);
    let socket = daemon(test, &ring, 0);
    let command = format!("{} top --interval 0.3 --socket {}", env!("CARGO_BIN_EXE_hullpippin"), socket.path());
    let size = columns.to_string();
    tmux(test, &["-f", "/dev/null", "new-session", "-d", "-x", &size, "-y", "24", &command]);
    let mut screen = String::new();
    busy(&mut ring, || {
        screen = tmux(test, &["capture-pane", "-p"]);
        screen.contains(shows)
    });
    assert_eq!(screen.lines().nth(23), Some("q: end"), "{screen}");
    tmux(test, &["send-keys", "q"]);
    // With its only program the terminal ends too.
    let until = Instant::now() + Duration::from_secs(60);
    while !tmux(test, &["list-sessions"]).is_empty() {
        assert!(Instant::now() < until, "it doesn't end");
        sleep(Duration::from_millis(20));
    }
    screen
}

#[test]
#[ignore = "needs tmux"]
fn a_screen_is_drawn_on_a_terminal() {
    check_screen(&drawn("screen", 130, "1.2 ms"));
}

/// On a narrow one there is less of a call, but who calls whom, and what.
#[test]
#[ignore = "needs tmux"]
fn a_screen_is_drawn_on_a_narrow_terminal() {
    let screen = drawn("narrow", 60, "1.2 ms");
    let lines: Vec<Vec<&str>> = screen.lines().map(|it| it.split_whitespace().collect()).collect();
    assert_eq!(lines[2], ["calls/s", "mean", "from", "->", "to", "what"], "{screen}");
    assert_eq!(lines[3][1..], ["1.2", "ms", "Binder:1", "->", "manager", "android.os.IServic.."], "{screen}");
    assert!(screen.lines().all(|it| it.chars().count() <= 60), "{screen}");
}

/// Colours and a dump on a narrow terminal, as it has them.
#[test]
#[ignore = "needs tmux"]
fn entries_are_shown_on_a_narrow_terminal() {
    let journal = Journal::registered().file("narrow.journal");
    let command = format!("{} show --no-pager --to 5 {}; sleep 60", env!("CARGO_BIN_EXE_hullpippin"), journal.path());
    tmux("entries", &["-f", "/dev/null", "new-session", "-d", "-x", "60", "-y", "40", &command]);
    let until = Instant::now() + Duration::from_secs(60);
    let mut screen = String::new();
    while !screen.contains("0068  ") {
        assert!(Instant::now() < until, "{screen}");
        screen = tmux("entries", &["capture-pane", "-p", "-e"]);
        sleep(Duration::from_millis(50));
    }
    tmux("entries", &["kill-server"]);
    assert!(screen.contains("\x1b[38;5;30mBC_TRANSACTION\x1b["), "{screen:?}");
    assert!(screen.contains("    0058  "), "eight bytes in a line: {screen}");
}
