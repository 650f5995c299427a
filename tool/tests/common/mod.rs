// SPDX-License-Identifier: Apache-2.0 OR MIT
//! Journals spelled by hand, as docs/FORMATS.md lays them out, and the program's runs over them.
#![allow(dead_code)]
pub mod ring;

use std::fs;
use std::io::Write;
use std::path::PathBuf;
use std::process::{Command, Output, Stdio};

pub const BC_TRANSACTION: u32 = 0x4040_6300;
pub const BC_REPLY: u32 = 0x4040_6301;
pub const BC_FREE_BUFFER: u32 = 0x4008_6303;
pub const BC_ACQUIRE: u32 = 0x4004_6305;
pub const BC_RELEASE: u32 = 0x4004_6306;
pub const BC_ENTER_LOOPER: u32 = 0x630c;
pub const BR_TRANSACTION: u32 = 0x8040_7202;
pub const BR_REPLY: u32 = 0x8040_7203;
pub const BR_NOOP: u32 = 0x720c;
pub const BR_TRANSACTION_COMPLETE: u32 = 0x7206;
pub const BR_FAILED_REPLY: u32 = 0x7211;
pub const BR_INCREFS: u32 = 0x8010_7207;
pub const BR_ACQUIRE: u32 = 0x8010_7208;

pub const OPENED: &[u8] = &[0];
pub const SET: &[u8] = &[1];
pub const EXITED: &[u8] = &[2];
pub const ACCEPTED: &[u8] = &[3];

pub fn noted(number: u8) -> Vec<u8> {
    vec![4, number]
}

pub fn stopped(number: u8) -> Vec<u8> {
    vec![5, number]
}

pub fn refused(number: u8) -> Vec<u8> {
    vec![7, number]
}

fn block(bytes: &[u8]) -> Vec<u8> {
    [&(bytes.len() as u32).to_le_bytes()[..], bytes].concat()
}

/// What was read: returns, and the parcel of the call or reply among them.
pub fn got(returns: &[Vec<u8>], data: &[u8], offsets: &[u8]) -> Vec<u8> {
    [vec![6], block(&returns.concat()), block(data), block(offsets)].concat()
}

pub fn message(code: u32, payload: &[u8]) -> Vec<u8> {
    [&code.to_le_bytes()[..], payload].concat()
}

/// A command's or a return's record.
#[derive(Clone, Copy, Default)]
pub struct Record {
    pub target: u64,
    pub code: u32,
    pub flags: u32,
    pub pid: u32,
    pub euid: u32,
    pub data: u64,
    pub offsets: u64,
    pub buffer: u64,
}

impl Record {
    pub fn bytes(&self, code: u32) -> Vec<u8> {
        let mut payload = Vec::new();
        payload.extend(self.target.to_le_bytes());
        payload.extend([0; 8]);
        for number in [self.code, self.flags, self.pid, self.euid] {
            payload.extend(number.to_le_bytes());
        }
        // Of what is read the offsets stand behind the data, at a multiple of 8.
        let behind = if self.buffer > 0 { self.buffer + (self.data + 7) / 8 * 8 } else { 0 };
        for number in [self.data, self.offsets, self.buffer, behind] {
            payload.extend(number.to_le_bytes());
        }
        message(code, &payload)
    }
}

/// An object of a parcel: its type, a ptr or a handle, a cookie.
pub fn object(kind: u32, binder: u64, cookie: u64) -> Vec<u8> {
    [&kind.to_le_bytes()[..], &[0; 4], &binder.to_le_bytes(), &cookie.to_le_bytes()].concat()
}

pub const BINDER: u32 = 0x7362_2a85;
pub const HANDLE: u32 = 0x7368_2a85;

/// AIDL's text.
pub fn text(word: &str) -> Vec<u8> {
    let units: Vec<u16> = word.encode_utf16().collect();
    let mut bytes = (units.len() as u32).to_le_bytes().to_vec();
    bytes.extend(units.iter().flat_map(|it| it.to_le_bytes()));
    bytes.extend([0; 2]);
    bytes.resize((bytes.len() + 3) / 4 * 4, 0);
    bytes
}

#[derive(Clone)]
pub struct Journal {
    pub bytes: Vec<u8>,
    pub count: u32,
}

/// How long the heading of a journal is: the third version counts entries in eight bytes.
pub fn heading_size(bytes: &[u8]) -> usize {
    if bytes.starts_with(b"BNDJ0003") {
        20
    } else {
        16
    }
}

impl Journal {
    pub fn new(mark: &str, seats: u32) -> Journal {
        let mut bytes = [mark.as_bytes(), &seats.to_le_bytes()].concat();
        bytes.resize(heading_size(&bytes), 0);
        Journal { bytes, count: 0 }
    }

    /// The same entries in the third version, of so many seats.
    pub fn widened(&self, seats: u32) -> Journal {
        let mut wide = Journal::new("BNDJ0003", seats);
        wide.bytes.extend(&self.bytes[heading_size(&self.bytes)..]);
        wide.count = self.count;
        wide.says(self.count);
        wide
    }

    pub fn entry(&mut self, seat: u32, step: &[u8], answer: &[u8]) -> &mut Journal {
        self.bytes.extend(seat.to_le_bytes());
        self.bytes.extend(block(step));
        self.bytes.extend(block(answer));
        self.count += 1;
        self.says(self.count)
    }

    /// Has the heading say so many entries; u32::MAX: that they are still written.
    pub fn says(&mut self, count: u32) -> &mut Journal {
        let is_wide = heading_size(&self.bytes) == 20;
        let high = if count == u32::MAX { count } else { 0 };
        self.bytes[12..16].copy_from_slice(&count.to_le_bytes());
        if is_wide {
            self.bytes[16..20].copy_from_slice(&high.to_le_bytes());
        }
        self
    }

    pub fn open(&mut self, seat: u32, pid: u32, euid: u32) -> &mut Journal {
        let numbers = [pid, euid, 4096].map(u32::to_le_bytes).concat();
        self.entry(seat, &[vec![0], numbers].concat(), OPENED)
    }

    pub fn manager(&mut self, seat: u32) -> &mut Journal {
        self.entry(seat, &[2], SET)
    }

    pub fn read(&mut self, seat: u32, answer: &[u8]) -> &mut Journal {
        self.entry(seat, &[&[4][..], &256u32.to_le_bytes()].concat(), answer)
    }

    /// A command without a parcel.
    pub fn command(&mut self, seat: u32, bytes: &[u8], answer: &[u8]) -> &mut Journal {
        self.entry(seat, &[vec![3], block(bytes), vec![0]].concat(), answer)
    }

    /// A transaction or reply with its parcel.
    pub fn send(&mut self, seat: u32, bytes: &[u8], data: &[u8], offsets: &[u8], answer: &[u8]) -> &mut Journal {
        self.entry(seat, &[vec![3], block(bytes), vec![1], block(data), block(offsets)].concat(), answer)
    }

    /// What nearly all runs begin with: seat 0 is the manager's, pid 100, in the loop; seat 1 is of pid 200.
    pub fn base() -> Journal {
        let mut journal = Journal::new("BNDJ0002", 3);
        journal.open(0, 100, 1000).manager(0);
        journal.command(0, &message(BC_ENTER_LOOPER, &[]), ACCEPTED).open(1, 200, 2000);
        journal
    }

    /// A one-way call, with code 7 and two bytes, as examples/ has it.
    pub fn one_way() -> Journal {
        let mut journal = Journal::base();
        let sent = Record { code: 7, flags: 1, data: 2, ..Record::default() };
        journal.send(1, &sent.bytes(BC_TRANSACTION), b"hi", &[], ACCEPTED);
        journal.read(1, &got(&[message(BR_NOOP, &[]), message(BR_TRANSACTION_COMPLETE, &[])], &[], &[]));
        let read = Record { euid: 2000, buffer: 65536, ..sent };
        journal.read(0, &got(&[message(BR_NOOP, &[]), read.bytes(BR_TRANSACTION)], b"hi", &[]));
        journal
    }

    /// A service that is registered: a call with an interface, a name and one object, and what comes of it.
    pub fn registered() -> Journal {
        let mut journal = Journal::base();
        let head = [&[0xff; 12][..], &text("android.os.IServiceManager"), &text("hello")].concat();
        let at = (head.len() as u64).to_le_bytes();
        let sent = [&head[..], &object(BINDER, 0x1000, 0x2000)].concat();
        let got_data = [&head[..], &object(HANDLE, 1, 0)].concat();
        let record = Record { code: 3, data: sent.len() as u64, offsets: 8, ..Record::default() };
        journal.send(1, &record.bytes(BC_TRANSACTION), &sent, &at, ACCEPTED);
        let read = Record { pid: 200, euid: 2000, buffer: 65536, ..record };
        journal.read(0, &got(&[message(BR_NOOP, &[]), read.bytes(BR_TRANSACTION)], &got_data, &at));
        journal.command(0, &message(BC_ACQUIRE, &1u32.to_le_bytes()), ACCEPTED);
        let reply = Record { data: 4, ..Record::default() };
        journal.send(0, &reply.bytes(BC_REPLY), &[0; 4], &[], ACCEPTED);
        let pair = [0x1000u64.to_le_bytes(), 0x2000u64.to_le_bytes()].concat();
        let told = [BR_INCREFS, BR_ACQUIRE].map(|it| message(it, &pair));
        let answer = Record { buffer: 65536, euid: 1000, ..reply };
        let returns =
            [&[message(BR_NOOP, &[])][..], &told, &[message(BR_TRANSACTION_COMPLETE, &[]), answer.bytes(BR_REPLY)]];
        journal.read(1, &got(&returns.concat(), &[0; 4], &[]));
        journal
    }

    /// Writes it to a file of its own.
    pub fn file(&self, name: &str) -> Kept {
        kept(name, &self.bytes)
    }
}

/// 2026-11-28, 11:03:07 by universal time, and what the monotonic clock says then.
pub const EPOCH: u64 = 1_795_863_787_000_000_000;
pub const STARTED: u64 = 1_000_000_000;

/// What the monotonic clock says after each step of a registration: the call at 4 is read 13.1 us later, and its reply 1.2 ms later.
pub const CLOCKS: [u64; 9] = [
    STARTED,
    1_000_400_000,
    1_000_900_000,
    2_500_000_000,
    4_000_000_000,
    4_000_013_100,
    4_000_050_000,
    4_000_100_000,
    4_001_200_000,
];

/// Who sits where in a registration.
pub const WHO: &str = "HPWHO 1 binder\n0 0 100 100 manager\n3 1 200 215 Binder:200_1 x\n";

/// The file with times that lies beside a journal.
pub fn times(clocks: &[u64]) -> Vec<u8> {
    let ahead = (EPOCH - STARTED).to_le_bytes();
    [&b"HPTIMES1"[..], &ahead, &clocks.iter().flat_map(|it| it.to_le_bytes()).collect::<Vec<_>>()].concat()
}

/// A registration with times and names beside it.
pub struct Recorded {
    pub journal: Kept,
    pub times: Kept,
    pub who: Kept,
}

impl Recorded {
    pub fn new(name: &str, journal: &Journal, clocks: &[u64], who: &str) -> Recorded {
        let journal = journal.file(name);
        let times = beside(&journal, "times", &times(clocks));
        let who = beside(&journal, "who", who.as_bytes());
        Recorded { journal, times, who }
    }

    pub fn registered(name: &str) -> Recorded {
        Recorded::new(name, &Journal::registered(), &CLOCKS, WHO)
    }

    pub fn path(&self) -> &str {
        self.journal.path()
    }
}

/// Writes a file beside a journal.
pub fn beside(journal: &Kept, suffix: &str, bytes: &[u8]) -> Kept {
    let path = PathBuf::from(format!("{}.{suffix}", journal.path()));
    fs::write(&path, bytes).expect("a file beside a journal");
    Kept(path)
}

/// A file that goes with its name.
pub struct Kept(pub PathBuf);

impl Drop for Kept {
    fn drop(&mut self) {
        let _ = fs::remove_file(&self.0);
    }
}

impl Kept {
    pub fn path(&self) -> &str {
        self.0.to_str().expect("a path of letters")
    }
}

pub fn kept(name: &str, bytes: &[u8]) -> Kept {
    let path = PathBuf::from(env!("CARGO_TARGET_TMPDIR")).join(format!("{}-{name}", std::process::id()));
    fs::write(&path, bytes).expect("a file in the folder of the tests");
    Kept(path)
}

/// The program, with the library that HULLPIPPIN_LIBRARY names here, or none.
pub fn program() -> Command {
    let mut command = Command::new(env!("CARGO_BIN_EXE_hullpippin"));
    command.env_remove("NO_COLOR").env_remove("PAGER").env_remove("HULLPIPPIN_PAGER").env("TZ", "UTC0");
    command
        .env("HULLPIPPIN_LIBRARY", std::env::var("HULLPIPPIN_LIBRARY").unwrap_or_else(|_| "/no/such/library".into()));
    command
}

/// What is said of an entry where there is no library.
pub const NOT_JUDGED: &str =
    "    not judged: no library that judges, which tools/install brings or HULLPIPPIN_LIBRARY names: \
    /no/such/library: cannot open shared object file: No such file or directory\n";

pub fn run(words: &[&str]) -> Output {
    program().args(words).stdin(Stdio::null()).output().expect("the program")
}

/// What it prints; it has to end well, and to say nothing else.
pub fn printed(words: &[&str]) -> String {
    let done = run(words);
    assert_eq!(String::from_utf8_lossy(&done.stderr), "", "{words:?}");
    assert!(done.status.success(), "{words:?}");
    String::from_utf8(done.stdout).expect("text")
}

/// What `show` prints of the entries that are chosen. That there are none is said, and ends with status 1.
pub fn chosen(words: &[&str]) -> String {
    let done = run(words);
    let said = String::from_utf8_lossy(&done.stderr);
    if !done.stdout.is_empty() || said.is_empty() {
        return printed(words);
    }
    assert!(said.ends_with(": no entry is as chosen\n") && said.lines().count() == 1, "{words:?}: {said}");
    assert_eq!(done.status.code(), Some(1), "{words:?}");
    String::new()
}

/// The data that stand in a page of `diagram`.
pub fn page_data(page: &str) -> serde_json::Value {
    let begin = "<script type=\"application/json\" id=\"data\">";
    let from = page.find(begin).expect("the data") + begin.len();
    let to = from + page[from..].find("</script>").expect("their end");
    serde_json::from_str(&page[from..to]).expect("JSON")
}

/// What it says of why it can't; it has to end with status 1.
pub fn fault(words: &[&str]) -> String {
    let done = run(words);
    assert_eq!(done.status.code(), Some(1), "{words:?}: {}", String::from_utf8_lossy(&done.stderr));
    String::from_utf8(done.stderr).expect("text")
}

/// Runs it with these bytes as standard input.
pub fn fed(words: &[&str], bytes: &[u8]) -> Output {
    let mut child = program()
        .args(words)
        .stdin(Stdio::piped())
        .stdout(Stdio::piped())
        .stderr(Stdio::piped())
        .spawn()
        .expect("the program");
    child.stdin.take().expect("a pipe").write_all(bytes).expect("all of it is read");
    child.wait_with_output().expect("its end")
}
