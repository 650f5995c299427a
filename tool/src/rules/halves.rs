// SPDX-License-Identifier: Apache-2.0 OR MIT
//! What comes about amid a step that Linux's driver makes in parts. No script can ask for it.
use super::*;
use crate::codes::{self, *};
use crate::record::Kind;

const MANAGER: Seat = 0;
const CLIENT: Seat = 1;
/// Another thread of the client's.
const OTHER: Seat = 2;
const PTR: u64 = 0x10;

struct Steps {
    space: Space,
    made: u64,
}

impl Steps {
    /// A context manager, and a client with two threads, which are all in the loop.
    fn of(ways: &[Way]) -> Steps {
        let space = Space::new(ways.iter().fold(Ways::NONE, |sum, it| sum.with(*it)));
        let mut steps = Steps { space, made: 0 };
        let open = |pid| Request::Open { pid, euid: 0, window: 4096 };
        for (seat, request) in [(MANAGER, open(100)), (CLIENT, open(200)), (OTHER, Request::Attach { pid: 200 })] {
            steps.begin(seat);
            steps.space.request(seat, request).expect("a thread");
            steps.command(seat, BC_ENTER_LOOPER, &[]);
        }
        steps.begin(MANAGER);
        steps.space.request(MANAGER, Request::SetManager).expect("the manager");
        steps
    }

    fn begin(&mut self, seat: Seat) {
        self.made += 1;
        self.space.begin(u64::from(seat) << 32 | self.made);
    }

    fn process_of(&self, seat: Seat) -> ProcessId {
        self.space.threads.get(seat).expect("a thread").process
    }

    fn command(&mut self, seat: Seat, code: u32, payload: &[u8]) {
        let bytes = [&code.to_le_bytes()[..], payload].concat();
        self.begin(seat);
        let told = self.space.command(seat, &codes::command(&bytes).expect("a command"), None);
        assert_eq!(told, Told::Accepted);
    }

    fn finish(&mut self, seat: Seat) {
        self.begin(seat);
        self.space.finish_release(seat, self.process_of(seat));
    }

    /// A call to the manager, or the reply to what was called, with one object.
    fn send(&mut self, seat: Seat, code: u32, kind: Kind, value: u64) {
        let mut bytes = code.to_le_bytes().to_vec();
        for word in [0, 0, 0, 0, 24, 8, 0, 24u64] {
            bytes.extend(word.to_le_bytes());
        }
        let data = [u64::from(kind.number()), value, 0].map(u64::to_le_bytes).concat();
        let message = codes::command(&bytes).expect("a command");
        self.begin(seat);
        let told = self.space.command(seat, &message, Some((&data, &[0; 8])));
        assert_eq!(told, Told::Accepted);
    }

    /// The codes of what is read, but for BR_NOOP, and the pointer of the parcel.
    fn read(&mut self, seat: Seat) -> (Vec<u32>, u64) {
        self.begin(seat);
        let got = self.space.read(seat, 256).expect("there is something");
        let (mut codes, mut at) = (Vec::new(), 4);
        while at < got.stream.len() {
            let code = crate::record::u32_at(&got.stream, at);
            codes.push(code);
            at += 4 + (code >> 16 & 0x3fff) as usize;
        }
        (codes, got.buffer.map_or(0, |it| FIRST_POINTER + it.1))
    }
}

/// The client has its own object back in a buffer, which alone holds it strongly, and frees that: what another thread reads then.
fn read_amid_free(ways: &[Way]) -> (Steps, Vec<u32>) {
    let mut steps = Steps::of(ways);
    steps.send(CLIENT, BC_TRANSACTION, Kind::Binder, PTR);
    let called = steps.read(MANAGER).1;
    steps.send(MANAGER, BC_REPLY, Kind::Handle, 1);
    steps.command(MANAGER, BC_FREE_BUFFER, &called.to_le_bytes());
    steps.finish(MANAGER);
    let (codes, replied) = steps.read(CLIENT);
    assert_eq!(codes, [BR_INCREFS, BR_ACQUIRE, BR_TRANSACTION_COMPLETE, BR_REPLY]);
    let its = [PTR.to_le_bytes(), [0; 8]].concat();
    steps.command(CLIENT, BC_INCREFS_DONE, &its);
    steps.command(CLIENT, BC_ACQUIRE_DONE, &its);
    steps.command(CLIENT, BC_FREE_BUFFER, &replied.to_le_bytes());
    let read = steps.read(OTHER).0;
    (steps, read)
}

#[test]
fn a_buffer_that_is_freed_holds_the_receivers_objects_weakly_until_the_end() {
    assert_eq!(read_amid_free(&[]).1, [BR_RELEASE, BR_DECREFS]);
    let (mut steps, read) = read_amid_free(&[Way::Released]);
    assert_eq!(read, [BR_RELEASE]);
    steps.finish(CLIENT);
    assert_eq!(steps.read(OTHER).0, [BR_DECREFS]);
}

#[test]
fn who_ends_in_parts_is_called_no_longer_before_its_death_is_told() {
    let mut steps = Steps::of(&[Way::Ended]);
    let (manager, client) = (steps.process_of(MANAGER), steps.process_of(CLIENT));
    steps.command(CLIENT, BC_ACQUIRE, &0u32.to_le_bytes());
    steps.command(CLIENT, BC_REQUEST_DEATH_NOTIFICATION, &[&[0; 4][..], &7u64.to_le_bytes()[..]].concat());
    assert!(steps.space.callee(client, 0).is_ok());
    steps.begin(MANAGER);
    steps.space.exit_threads(manager);
    assert_eq!(steps.space.callee(client, 0), Err(4));
    assert_eq!(steps.space.list_to_read(CLIENT), None);
    steps.begin(MANAGER);
    steps.space.exit_objects(manager);
    assert_eq!(steps.read(CLIENT).0, [BR_DEAD_BINDER]);
}

#[test]
fn who_ends_in_parts_lets_go_of_names_behind_that() {
    let mut steps = Steps::of(&[Way::Ended]);
    let manager = steps.process_of(MANAGER);
    steps.send(CLIENT, BC_TRANSACTION, Kind::Binder, PTR);
    steps.read(MANAGER);
    steps.begin(MANAGER);
    steps.space.exit_threads(manager);
    assert!(steps.space.name(manager, 1).is_some());
    steps.begin(MANAGER);
    steps.space.exit_objects(manager);
    assert!(steps.space.name(manager, 1).is_some());
    steps.begin(MANAGER);
    steps.space.exit_names(manager);
    assert!(steps.space.name(manager, 1).is_none() && steps.space.processes.has(manager));
    steps.begin(MANAGER);
    steps.space.exit_rest(manager);
    assert!(!steps.space.processes.has(manager));
}
