// SPDX-License-Identifier: Apache-2.0 OR MIT
//! Scripts with names: what they come to, what is wrong with them, and whether what they expect holds.
mod common;
use common::*;
use std::fs;
use std::os::unix::fs::PermissionsExt;
use std::process::{Command, Stdio};

fn hex(bytes: &[u8]) -> String {
    bytes.iter().map(|it| format!("{it:02x}")).collect()
}

const REGISTRATION: &str = "\
# A service that is registered.
seats manager_thread service
let PING = '_PNG'
let TOKEN = \"android.os.IServiceManager\"
let head = i32 0 i32 -1 s16 TOKEN   # what such a call begins with
manager_thread open 100 1000 4K
service tx 0 code 3 flags TF_ACCEPT_FDS|0x40 head s16 \"hi\" obj(0x1000, 0x2000)handle(1)
service reply
manager_thread tx 1 code PING hex 0aff \"x#y\" i64 -2
manager_thread spam on
manager_thread read
manager_thread post write 0c630000 -
";

#[test]
fn names_come_to_what_they_stand_for() {
    let file = kept("names", REGISTRATION.as_bytes());
    let head = [&[0; 4][..], &[0xff; 4], &text("android.os.IServiceManager"), &text("hi")].concat();
    let data = [&head[..], &object(BINDER, 0x1000, 0x2000), &object(HANDLE, 1, 0)].concat();
    let (first, second) = (head.len(), head.len() + 24);
    // Each line stands at its own number, so that what the player says of it is said of this one.
    let lines = [
        "".into(),
        "seats 2".into(),
        "".into(),
        "".into(),
        "".into(),
        "0 open 100 1000 4096".into(),
        format!("1 tx 0 3 80 {} {first},{second}", hex(&data)),
        "1 reply 0 0 - -".into(),
        format!("0 tx 1 {} 0 0aff782379feffffffffffffff -", 0x5f50_4e47),
        "0 spam 1".into(),
        "0 read 256".into(),
        "0 post write 0c630000 -".into(),
    ];
    assert_eq!(printed(&["script", file.path()]), lines.join("\n") + "\n");
    let done = fed(&["script", "-"], REGISTRATION.as_bytes());
    assert_eq!(String::from_utf8_lossy(&done.stdout), lines.join("\n") + "\n");
}

#[test]
fn scripts_of_the_player_come_to_themselves() {
    let folder = concat!(env!("CARGO_MANIFEST_DIR"), "/../examples");
    let mut seen = 0;
    for entry in fs::read_dir(folder).expect("the examples") {
        let path = entry.expect("a file").path();
        if path.extension().map_or(true, |it| it != "script") {
            continue;
        }
        let script = fs::read_to_string(&path).expect("a script");
        let plain: String =
            script.lines().map(|it| if it.starts_with('#') { "\n".into() } else { format!("{it}\n") }).collect();
        assert_eq!(printed(&["script", path.to_str().expect("a path of letters")]), plain, "{path:?}");
        seen += 1;
    }
    assert!(seen > 50, "{seen} examples");
}

/// What is said of a script that makes no sense, but for the last line, which counts.
fn faults(name: &str, script: &str) -> Vec<String> {
    let file = kept(name, script.as_bytes());
    let done = run(&["script", file.path()]);
    assert_eq!((done.status.code(), done.stdout.len()), (Some(1), 0), "{script}");
    let said = String::from_utf8(done.stderr).expect("text");
    let mut lines: Vec<_> = said.lines().map(|it| it.replace(file.path(), "FILE")).collect();
    let last = lines.pop().expect("a count");
    assert_eq!(last, format!("hullpippin: FILE: {} of its lines make no sense, and nothing was run", lines.len() / 3));
    lines
}

#[test]
fn each_bad_line_is_told_with_a_caret() {
    let script = "seats a b\nb tx 0 code 3 s16 hello\na read\n\ta free \"q\"\na read 4 4 # too much\n";
    let expected = [
        "FILE:2:19: expected a text, found `hello`",
        "    b tx 0 code 3 s16 hello",
        "                      ^",
        "FILE:4:9: expected a number, found `\"q\"`",
        "    \ta free \"q\"",
        "    \t       ^",
        "FILE:5:10: expected the end of the line, found `4`",
        "    a read 4 4 # too much",
        "             ^",
    ];
    assert_eq!(faults("bad", script), expected);
}

#[test]
fn each_kind_of_fault_is_told() {
    let first = |name: &str, script: &str| faults(name, script).remove(0);
    for (index, (script, told)) in [
        ("", "1:1: the script has no line `seats`"),
        ("0 open 1 2 3\n", "1:1: the first line has to be `seats`, with their names or their number"),
        ("seats 2\n2 read\n", "2:1: there are 2 seats, the first of them 0"),
        ("seats a b\nc read\n", "2:1: no seat is called c; there are a, b"),
        ("seats a a\n", "1:9: two seats are called a"),
        ("seats a let\n", "1:9: expected a name: letters, digits and _, and no word of the language, found `let`"),
        ("seats a\nseats b\n", "2:1: the seats have been told already"),
        ("seats a\nlet a = 1\n", "2:5: a has a meaning already"),
        ("seats a\nlet x = 1\nlet x = 2\n", "3:5: x has a meaning already"),
        ("seats a\nlet x = \n", "2:8: expected a number, a text, or parts of a parcel, found the end of the line"),
        ("seats a\nlet x = \"t\"\na read x\n", "3:8: expected a number, found `x`"),
        ("seats a\na open 1 0x100000000 3\n", "2:10: 4294967296 has more than 32 bits"),
        ("seats a\na tx 0 i32 -2147483649\n", "2:12: expected a number, found `-2147483649`"),
        ("seats a\na tx 0 obj(1 2)\n", "2:14: expected `,`, found `2`"),
        ("seats a\na tx 0 hex 0g\n", "2:12: expected bytes in hex, two digits for each, or - for none, found `0g`"),
        ("seats a\na tx 0 code 'PNG'\n", "2:13: a code has four letters, as '_PNG', and this has 3"),
        ("seats a\na tx 0 s16 \"hello\n", "2:12: this text has no \" behind it"),
        ("seats a\nexpect X1\n", "2:1: nothing was done before that, of which one could expect anything"),
        (
            "seats a\na read\nexpect got BR_REPLAY\n",
            "3:12: expected the name of a return, as BR_REPLY, or data, found `BR_REPLAY`",
        ),
        ("seats a\na spam 2\n", "2:8: expected on or off, found `2`"),
    ]
    .iter()
    .enumerate()
    {
        assert_eq!(first(&format!("fault-{index}"), script), format!("FILE:{told}"), "{script}");
    }
    assert!(first("verb", "seats a\na foo\n").starts_with("FILE:2:3: expected a verb (open, attach, "));
    assert!(first("reason", "seats a\na read\nexpect X17\n").starts_with("FILE:3:8: expected accepted, got, opened, "));
}

/// A line that makes no sense isn't told of again by all that go by it.
#[test]
fn what_follows_from_a_fault_is_no_other() {
    assert_eq!(faults("seats", "seats a 7\na read\nb read\n").len(), 3);
    assert_eq!(faults("name", "seats a\nlet x = obj(\na tx 0 x\na read x\nexpect X1\n").len(), 3);
    assert_eq!(faults("step", "seats a\na foo\nexpect X1\n").len(), 3);
}

#[test]
fn what_is_last_is_known_by_playing() {
    let file = kept("last", b"seats a\na open 1 2 4K\na free last\n");
    let said = fault(&["script", file.path()]);
    assert!(
        said.contains(":3:8: what is `last` is known once the lines before were played: --run BPLAY does\n"),
        "{said}"
    );
}

/// A player of two lines that prints what it is given, whatever it plays.
fn stub(name: &str, lines: &str, status: u8) -> Kept {
    let text = format!(
        "#!/bin/sh\ncat > /dev/null\nprintf '{lines}'\n[ {status} = 0 ] || echo 'fault: line 2' >&2\nexit {status}\n"
    );
    let file = kept(name, text.as_bytes());
    fs::set_permissions(&file.0, fs::Permissions::from_mode(0o755)).expect("a program");
    file
}

#[test]
fn expectations_hold_or_are_told_with_what_came() {
    let lines = "2: opened 0 1\\n4: wrote 12 1 2 0:N5\\n8: got 0c7200000672000011720000 6869 - 2 3\\n12: turns\\n";
    let player = stub("player", lines, 0);
    let good = "seats a\na open 1 2 4K\nexpect opened\na free 7\nexpect N5\nexpect NoSuchBuffer\n\na read\n\
                expect got BR_TRANSACTION_COMPLETE BR_FAILED_REPLY\nexpect got BR_TRANSACTION_COMPLETE BR_FAILED_REPLY data \"hi\"\n\n\
                a await 9\nexpect turns\n";
    let file = kept("good", good.as_bytes());
    let told = format!("{}: 6 of 6 expectations hold\n", file.path());
    assert_eq!(printed(&["script", file.path(), "--run", player.path()]), told);
    let bad = kept(
        "wrong",
        b"seats a\na open 1 2 4K\nexpect X1\na free 7\nexpect accepted\n\n\na read\nexpect got BR_REPLY\nexpect got data \"ha\"\na look\nexpect page\n",
    );
    let done = run(&["script", bad.path(), "--run", player.path()]);
    let said = String::from_utf8_lossy(&done.stderr).replace(bad.path(), "FILE");
    let heads: Vec<_> = said.lines().filter(|it| !it.starts_with(' ')).collect();
    let expected = [
        "FILE:3:8: expected X1 NotStronglyNamed, and line 2 was answered: opened",
        "FILE:5:8: expected accepted, and line 4 was answered: wrote, N5 NoSuchBuffer",
        "FILE:9:8: expected got BR_REPLY, and line 8 was answered: got BR_TRANSACTION_COMPLETE BR_FAILED_REPLY, data 6869",
        "FILE:10:8: expected got nothing but BR_NOOP, data 6861 -, and line 8 was answered: got BR_TRANSACTION_COMPLETE BR_FAILED_REPLY, data 6869",
        "FILE:12:8: expected page, and line 11 wasn't run",
        "hullpippin: FILE: 5 of its expectations don't hold",
    ];
    assert_eq!(heads, expected);
    assert_eq!(String::from_utf8_lossy(&done.stdout), format!("{}: 0 of 5 expectations hold\n", bad.path()));
    assert_eq!(done.status.code(), Some(1));
}

#[test]
fn a_player_that_fails_is_told() {
    let file = kept("played", b"seats a\na open 1 2 4K\n");
    let player = stub("fails", "", 1);
    let told = format!("hullpippin: the player {}: fault: line 2\n", player.path());
    assert_eq!(fault(&["script", file.path(), "--run", player.path()]), told);
    let said = fault(&["script", file.path(), "--run", "/no/such/player"]);
    assert_eq!(said, "hullpippin: the player /no/such/player: No such file or directory (os error 2)\n");
}

fn player() -> String {
    std::env::var("HULLPIPPIN_PLAYER").expect("HULLPIPPIN_PLAYER names the player")
}

const SERVICE: &str = "\
seats manager_thread service client
let head = i32 0 i32 -1 i32 'SYST' s16 \"android.os.IServiceManager\" s16 \"hello\"
manager_thread open 100 1000 4K
manager_thread manager
manager_thread enter
service open 200 2000 4K
service tx 0 code 3 head obj(0x1000, 0x2000)
  expect accepted
manager_thread read
  expect got BR_TRANSACTION data head handle(1)
manager_thread acquire last
  expect accepted
manager_thread reply handle(last)
manager_thread free last
  expect accepted
manager_thread free last
  expect NoSuchBuffer
service read
  expect got BR_INCREFS BR_ACQUIRE BR_TRANSACTION_COMPLETE BR_REPLY data obj(0x1000, 0x2000)
client open 300 3000 4K
client tx 1 code 7
  expect X1
client read
  expect got BR_FAILED_REPLY
";

#[test]
#[ignore = "needs a player"]
fn the_latest_handle_and_buffer_are_those_that_were_read() {
    let file = kept("service", SERVICE.as_bytes());
    let (script, journal) = (kept("service.script", b""), kept("service.journal", b""));
    let words = ["script", file.path(), "--run", &player(), "--emit", script.path(), "--journal", journal.path()];
    assert_eq!(printed(&words), format!("{}: 8 of 8 expectations hold\n", file.path()));
    let lines = fs::read_to_string(&script.0).expect("the script");
    let lines: Vec<_> = lines.lines().collect();
    assert_eq!((lines[10], lines[13]), ("0 acquire 1", "0 free 65536"));
    assert!(printed(&["show", journal.path()]).contains("BC_ACQUIRE handle 1 (4.0 \"hello\" of pid 200)"));
    // What isn't there to be the latest is told where it is asked for.
    let none = kept("none-last", b"seats a\na open 1 2 4K\na acquire last-1\n");
    let said = fault(&["script", none.path(), "--run", &player()]);
    assert!(said.contains(":3:11: seat 0 has read 0 handles so far\n"), "{said}");
}

#[test]
#[ignore = "needs a player"]
fn lines_that_are_typed_are_shown() {
    let typed =
        "manager read\nseats boss client\nboss open 100 1000 4K\nboss manager\nexpect set\nboss read 7\nexpect X5\n\
                 :undo\nboss open 101 1 4K\n:script\n:state\n:no\n:quit\n";
    let mut child = program();
    child.args(["repl", "--run", &player()]).stdin(Stdio::piped()).stdout(Stdio::piped());
    let mut child = child.spawn().expect("the program");
    std::io::Write::write_all(&mut child.stdin.take().expect("a pipe"), typed.as_bytes()).expect("all of it");
    let done = child.wait_with_output().expect("its end");
    let lines = "\
repl:1:1: the first line has to be `seats`, with their names or their number
    manager read
    ^
0 seat 0 pid 100 open pid 100 euid 1000 window 4096: opened
1 seat 0 pid 100 manager: set
it holds
2 seat 0 pid 100 read limit 7: refused F11 ReadTooSmall: the limit of the read is too small
repl:6:8: expected X5 NotServing, and line 5 was answered: refused, F11 ReadTooSmall
    expect X5
           ^
2 seat 0 pid 100 open pid 101 euid 1 window 4096: refused F5 HasProcess: the seat has a process
seats 2
0 open 100 1000 4096
0 manager

0 open 101 1 4096
after 3 steps
manager object 1.0
pid 100 euid 1000 window 4096 opened at 0
  seat 0
  object 1.0 \"manager\" ptr 0x0 cookie 0x0, told weak, told strong
there is no :no; there are :help, :quit, :save, :script, :state, :undo
";
    assert_eq!(String::from_utf8_lossy(&done.stdout), lines);
    assert!(done.status.success());
}

#[test]
#[ignore = "needs a player"]
fn a_journal_goes_to_standard_output() {
    let (file, journal) =
        (kept("out-names", b"seats one\none open 100 1000 4K\n  expect opened\n"), kept("out.journal", b""));
    let words = ["script", file.path(), "--run", &player(), "--journal"];
    printed(&[&words[..], &[journal.path()]].concat());
    let done = run(&[&words[..], &["-"]].concat());
    assert_eq!(done.stdout, std::fs::read(&journal.0).expect("a journal"));
    assert_eq!(String::from_utf8_lossy(&done.stderr), format!("{}: 1 of 1 expectations hold\n", file.path()));
    let said = fault(&[&words[..], &["-", "--format", "json"]].concat());
    assert_eq!(said, "hullpippin: --journal - takes standard output, and something else wants it too\n");
}

/// Every script that is written for the player means there what it means without the player's own words.
#[test]
#[ignore = "needs a player"]
fn a_script_with_names_prints_what_its_own_script_prints() {
    let file = kept("same", SERVICE.as_bytes());
    let script = kept("same.script", b"");
    printed(&["script", file.path(), "--run", &player(), "--emit", script.path()]);
    let done = Command::new(player()).args(["run", script.path()]).output().expect("the player");
    let lines = String::from_utf8(done.stdout).expect("text");
    assert!(
        lines.contains("\n11: wrote 8 ") && lines.contains("\n21: wrote 68 ") && lines.contains(" stop X1\n"),
        "{lines}"
    );
}

/// All worked examples, by the player and by the library in its place: the same is printed, and the same journal is written.
#[test]
#[ignore = "needs the player and the library"]
fn the_library_plays_as_the_player_does() {
    let player = std::env::var("HULLPIPPIN_PLAYER").expect("the player");
    let folder = concat!(env!("CARGO_MANIFEST_DIR"), "/../examples");
    let mut count = 0;
    for file in fs::read_dir(folder).expect("examples").flatten().map(|it| it.path()) {
        if file.extension().map_or(true, |it| it != "script") {
            continue;
        }
        let script = file.to_str().expect("letters");
        let of = |player: &str, journal: &Kept| {
            let words =
                ["script", script, "--run", player, "--turns", "5", "--format", "json", "--journal", journal.path()];
            let done = run(&words);
            (done.status.code(), done.stdout, fs::read(journal.path()).expect("a journal"))
        };
        let (ours, theirs) = (kept("by-library", b""), kept("by-player", b""));
        assert!(of("no-such-player", &ours) == of(&player, &theirs), "{script}");
        count += 1;
    }
    assert!(count > 100, "{count}");
}

#[test]
fn repl_says_that_there_is_nothing_to_play_by() {
    let mut program = program();
    program.args(["repl", "--run", "no-such-player"]).env("HULLPIPPIN_LIBRARY", "/no/such/library");
    let done = program.stdin(Stdio::null()).output().expect("the program");
    let said = String::from_utf8_lossy(&done.stderr).into_owned();
    assert_eq!(done.status.code(), Some(1));
    assert!(said.contains("there is no player no-such-player, and no library plays in its place: "), "{said}");
    let said = fault(&["repl", "--run", "/no/such/player"]);
    assert!(said.contains("the player /no/such/player: No such file"), "{said}");
}
