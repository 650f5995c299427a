// SPDX-License-Identifier: Apache-2.0 OR MIT
//! A daemon that has nothing but a ring of steps, which are spelled by hand as clients/ring.h lays them out.
use super::{kept, Kept, EPOCH, STARTED};
use nix::sys::socket::{
    accept, bind, listen, recv, send, sendmsg, socket, AddressFamily, ControlMessage, MsgFlags, SockFlag, SockType,
    UnixAddr,
};
use nix::unistd::close;
use std::fs::{File, OpenOptions};
use std::io::IoSlice;
use std::os::unix::fs::FileExt;
use std::os::unix::io::{AsRawFd, RawFd};
use std::path::PathBuf;
use std::thread;

pub const HEADING: usize = 4096;
pub const SLOT: usize = 384;
const COUNT_AT: u64 = 128;
const IS_OVER_AT: u64 = 36;

/// Who makes a step: a seat, the pid in the history, that of the system, the tid and the name.
pub type Who = (u32, u32, u32, u32, &'static str);

/// One of a step's fields, by where it stands.
pub mod field {
    pub const COMMAND: usize = 44;
    pub const HANDLE: usize = 48;
    pub const CODE: usize = 52;
    pub const FLAGS: usize = 56;
    pub const OTHER: usize = 60;
    pub const CALL: usize = 64;
    pub const OBJECT_PLACE: usize = 72;
    pub const OBJECT_INDEX: usize = 80;
    pub const DATA_SIZE: usize = 96;
    pub const OFFSETS_SIZE: usize = 104;
    /// Those of eight bytes.
    pub const LONG: [usize; 4] = [CALL, OBJECT_PLACE, DATA_SIZE, OFFSETS_SIZE];
}

/// What was done and what came of it, as a journal's first bytes have it, and a number.
pub type Kind = (u8, u8, u8);

pub const SENT: Kind = (3, 3, 0);
pub const GOT: Kind = (4, 6, 0);

pub struct Step {
    pub after: u64,
    pub who: Who,
    pub kind: Kind,
    pub fields: Vec<(usize, u64)>,
    pub data: Vec<u8>,
}

/// The bytes of a slot; `after` is in nanoseconds from the beginning.
fn slot(place: u64, step: &Step) -> Vec<u8> {
    let mut bytes = vec![0; SLOT];
    let (seat, process, pid, tid, comm) = step.who;
    bytes[0..8].copy_from_slice(&(2 * place + 2).to_le_bytes());
    bytes[8..16].copy_from_slice(&(STARTED + step.after).to_le_bytes());
    bytes[16..24].copy_from_slice(&place.to_le_bytes());
    let absent = [(field::CALL, u64::MAX), (field::OBJECT_PLACE, u64::MAX)];
    let whose = [(24, seat), (28, pid), (32, tid), (36, process)].map(|(at, number)| (at, u64::from(number)));
    for (at, number) in absent.iter().chain(&whose).chain(&step.fields) {
        let size = if field::LONG.contains(at) { 8 } else { 4 };
        bytes[*at..*at + size].copy_from_slice(&number.to_le_bytes()[..size]);
    }
    bytes[40..43].copy_from_slice(&[step.kind.0, step.kind.1, step.kind.2]);
    bytes[43] = step.data.len().min(232) as u8;
    bytes[136..136 + comm.len()].copy_from_slice(comm.as_bytes());
    let kept = step.data.len().min(232);
    bytes[152..152 + kept].copy_from_slice(&step.data[..kept]);
    bytes
}

/// The ring, in a file.
pub struct Ring {
    pub file: Kept,
    memory: File,
    slots: u64,
    pub count: u64,
}

impl Ring {
    pub fn new(name: &str, slots: u32) -> Ring {
        let mut heading = b"HPRING02".to_vec();
        heading.extend([HEADING as u32, SLOT as u32, slots, 9].map(u32::to_le_bytes).concat());
        heading.extend((EPOCH - STARTED).to_le_bytes());
        heading.resize(HEADING + SLOT * slots as usize, 0);
        // Two processes, of three threads.
        heading[1576] = 2;
        heading[1584] = 3;
        let file = kept(name, &heading);
        let memory = OpenOptions::new().write(true).open(&file.0).expect("the ring");
        Ring { file, memory, slots: slots.into(), count: 0 }
    }

    pub fn put(&mut self, step: &Step) {
        let at = HEADING as u64 + self.count % self.slots * SLOT as u64;
        self.memory.write_all_at(&slot(self.count, step), at).expect("a slot");
        self.count += 1;
        self.memory.write_all_at(&self.count.to_le_bytes(), COUNT_AT).expect("the count");
    }

    pub fn end(&self) {
        self.memory.write_all_at(&[1], IS_OVER_AT).expect("the heading");
    }
}

/// Listens at an address of this test's own.
fn listening(name: &str) -> (PathBuf, RawFd) {
    let path = PathBuf::from(format!("/tmp/hullpippin-test-{}-{name}", std::process::id()));
    let _ = std::fs::remove_file(&path);
    let end = socket(AddressFamily::Unix, SockType::SeqPacket, SockFlag::SOCK_CLOEXEC, None).expect("a socket");
    bind(end, &UnixAddr::new(&path).expect("an address")).and_then(|()| listen(end, 4)).expect("the address");
    (path, end)
}

/// Where the fields of a record of what goes on stand, as clients/protocol.h lays them out: the first three have eight bytes.
pub mod told {
    pub const INNERMOST: usize = 0;
    pub const OBJECT_PLACE: usize = 8;
    pub const MADE: usize = 16;
    pub const KIND: usize = 24;
    pub const PROCESS: usize = 28;
    pub const PID: usize = 32;
    pub const TID: usize = 36;
    pub const SEAT: usize = 40;
    pub const EUID: usize = 44;
    pub const FLAGS: usize = 48;
    pub const WINDOW: usize = 52;
    pub const THREADS: usize = 56;
    pub const MAX_THREADS: usize = 60;
    pub const STARTED: usize = 68;
    pub const SERVING: usize = 72;
    pub const CALLING: usize = 76;
    pub const UNREAD: usize = 80;
    pub const HANDLE: usize = 84;
    pub const OBJECT_INDEX: usize = 88;
    pub const PARTY: usize = 92;
    pub const START: usize = 96;
    pub const SIZE: usize = 100;
    pub const CODE: usize = 104;
}

/// Such a record: its kind, numbers, a name.
pub fn record(kind: u64, numbers: &[(usize, u64)], comm: &str) -> Vec<u8> {
    let mut bytes = vec![0; 128];
    for (at, number) in [(told::KIND, kind)].iter().chain(numbers) {
        let size = if *at < told::KIND { 8 } else { 4 };
        bytes[*at..*at + size].copy_from_slice(&number.to_le_bytes()[..size]);
    }
    bytes[112..112 + comm.len()].copy_from_slice(comm.as_bytes());
    bytes
}

/// Tells what goes on, page by page, each of which says where the next begins; or an error in place of the last.
pub fn telling(name: &str, pages: Vec<Vec<Vec<u8>>>, error: i32) -> Kept {
    let (path, end) = listening(name);
    let request =
        |op: u32, numbers: [u64; 2]| [op.to_le_bytes().to_vec(), numbers.map(u64::to_le_bytes).concat()].concat();
    thread::spawn(move || loop {
        let peer = accept(end).expect("a connection");
        let mut asked = [0; 256];
        let opened = [0; 16];
        recv(peer, &mut asked, MsgFlags::empty()).expect("a request");
        assert_eq!((&asked[4..24], &asked[24..36]), (&request(1, [0, 0])[..], &b"/dev/binder\0"[..]));
        send(peer, &opened, MsgFlags::MSG_NOSIGNAL).expect("an answer");
        for (index, records) in pages.iter().enumerate() {
            if recv(peer, &mut asked, MsgFlags::empty()).expect("a request") == 0 {
                break;
            }
            let numbers = |index: u64| if index == 0 { [0, 0] } else { [1 << 33 | index, 7 * index] };
            assert_eq!(&asked[4..24], &request(8, numbers(index as u64))[..]);
            let is_last = index + 1 == pages.len();
            let error = if is_last { error } else { 0 };
            let next = if is_last { [0, 0] } else { numbers(index as u64 + 1) };
            let mut page = [error.to_le_bytes(), (records.len() as u32).to_le_bytes()].concat();
            page.extend([30u64, next[0], next[1]].map(u64::to_le_bytes).concat());
            page.extend(records.concat());
            page.resize(32 + 16 * 128, 0xff);
            send(peer, &page, MsgFlags::MSG_NOSIGNAL).expect("an answer");
        }
        close(peer).expect("a connection");
    });
    Kept(path)
}

/// Answers every request for a ring at a socket with this one, or with an error.
pub fn daemon(name: &str, ring: &Ring, error: i32) -> Kept {
    let (path, end) = listening(name);
    let memory = File::open(&ring.file.0).expect("the ring");
    thread::spawn(move || loop {
        let peer = accept(end).expect("a connection");
        let mut request = [0; 256];
        let size = recv(peer, &mut request, MsgFlags::empty()).expect("a request");
        // It tells nothing but its steps.
        if request[4] == 1 {
            close(peer).expect("a connection");
            continue;
        }
        assert_eq!((size, &request[4..8], &request[24..36]), (88, &7u32.to_le_bytes()[..], &b"/dev/binder\0"[..]));
        let answer = [&error.to_le_bytes()[..], &1u32.to_le_bytes(), &4096u64.to_le_bytes()].concat();
        let fds = [memory.as_raw_fd()];
        let rights = [ControlMessage::ScmRights(&fds)];
        let rights = if error == 0 { &rights[..] } else { &[] };
        sendmsg::<()>(peer, &[IoSlice::new(&answer)], rights, MsgFlags::MSG_NOSIGNAL, None).expect("an answer");
        close(peer).expect("a connection");
    });
    Kept(path)
}
