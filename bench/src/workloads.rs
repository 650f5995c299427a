// SPDX-License-Identifier: Apache-2.0 OR MIT
//! The workloads of a fixed size. Each body leaves the engine as it found it, but for the history.
use crate::commands::{ONE_WAY, Object, Parcel};
use crate::steps::{SEATS, Steps};

pub const SMALL_WINDOW: u32 = 4096;
pub const LARGE_WINDOW: u32 = 4_194_304;

/// A driver's seats at most.
const MOST_SEATS: u32 = 31;

/// Sizes of what a read gets: with a transaction or reply alone, or after its sender's completion.
pub const COMPLETE: usize = 8;
pub const CALL: usize = 72;
pub const COMPLETE_AND_CALL: usize = 76;
/// Two notices, alone, before a completion, and before a completion and a reply.
pub const TWO_NOTICES: usize = 44;
pub const TWO_NOTICES_AND_COMPLETE: usize = 48;
const TWO_NOTICES_AND_REPLY: usize = 116;

/// A workload, whose body is played as often as wanted.
pub struct Workload {
    pub name: &'static str,
    /// The name of its journal.
    pub journal: &'static str,
    pub seats: u32,
    pub setup: Steps,
    pub body: Steps,
}

/// All of them that are measured by time.
pub fn all() -> [Workload; 6] {
    [ping(), call_and_reply(), object_first(), object_again(), chain(), callbacks()]
}

fn workload(name: &'static str, journal: &'static str, setup: Steps, body: impl FnOnce(&mut Steps)) -> Workload {
    let mut steps = Steps::default();
    body(&mut steps);
    let seats = setup.0.iter().map(|op| op.seat + 1).max().unwrap_or(1);
    Workload { name, journal, seats, setup, body: steps }
}

/// Two processes with a thread each, the first the context manager's.
pub fn two_processes(window: u32) -> Steps {
    let mut steps = Steps::default();
    steps.open(0, window);
    steps.open(1, window);
    steps
}

pub fn ping() -> Workload {
    workload("one-way ping", "w1", two_processes(SMALL_WINDOW), |steps| steps.ping(64))
}

/// The same in a driver of as many seats as there can be, each with a process of its own.
pub fn ping_among_all() -> Workload {
    let mut setup = Steps::default();
    (0..MOST_SEATS).for_each(|seat| setup.open(seat, SMALL_WINDOW));
    workload("one-way ping, 31 seats", "w1-31", setup, |steps| steps.ping(64))
}

pub fn call_and_reply() -> Workload {
    workload("call and reply", "w2", two_processes(SMALL_WINDOW), |steps| steps.call_and_reply(1, 0, 0))
}

fn object_first() -> Workload {
    let object = Object { ptr: 4096, cookie: 8192 };
    workload("object, first time", "w3a", two_processes(SMALL_WINDOW), |steps| steps.object_first(object, 1))
}

pub fn object_again() -> Workload {
    let mut setup = two_processes(SMALL_WINDOW);
    setup.objects(1, true);
    workload("object, again", "w3b", setup, |steps| steps.object_again(Object::number(1), 1))
}

/// A name that gets an asked reference and gives it back.
pub fn acquire_and_release() -> Workload {
    let mut setup = two_processes(SMALL_WINDOW);
    setup.objects(1, true);
    workload("acquire and release", "held", setup, |steps| {
        steps.acquire(0, 1);
        steps.release(0, 1);
    })
}

fn chain() -> Workload {
    workload("chain of 6 through 7 processes", "w4a", introduced(), |steps| {
        for k in 0..6 {
            steps.call(k, 1, 5, 0, Parcel::counting(64));
            steps.read(k + 1, CALL);
        }
        for k in (1..7).rev() {
            steps.reply(k, Parcel::counting(64));
            steps.free(k);
            steps.read(k, COMPLETE);
            steps.read_into(k - 1, COMPLETE_AND_CALL, SEATS);
            steps.free_from(k - 1, SEATS);
        }
    })
}

// Seven processes; each but the last has the handle 1 for an object of the next one's.
fn introduced() -> Steps {
    let mut steps = Steps::default();
    (0..7).for_each(|seat| steps.open(seat, SMALL_WINDOW));
    (1..7).for_each(|k| steps.show_to_manager(k, Object { ptr: 16 * u64::from(k), cookie: 8 }, k));
    (2..7).for_each(|k| steps.hand_out(k - 1, k));
    steps
}

fn callbacks() -> Workload {
    let mut setup = two_processes(SMALL_WINDOW);
    setup.objects(1, true);
    let sides = |k: u32| if k.is_multiple_of(2) { (1, 0) } else { (0, 1) };
    workload("callbacks, 6 deep", "w4b", setup, |steps| {
        for k in 0..6 {
            let (from, to) = sides(k);
            steps.call(from, u32::from(from == 0), 5, 0, Parcel::counting(64));
            steps.read_into(to, if k == 0 { CALL } else { COMPLETE_AND_CALL }, SEATS + k as usize);
        }
        for k in (0..6).rev() {
            let (from, to) = sides(k);
            steps.reply(to, Parcel::counting(64));
            steps.free_from(to, SEATS + k as usize);
            steps.read(from, COMPLETE_AND_CALL);
            steps.free(from);
        }
        steps.read(0, COMPLETE);
    })
}

impl Steps {
    /// A one-way call of seat 1's to the manager.
    pub fn ping(&mut self, size: u8) {
        self.call(1, 0, 1, ONE_WAY, Parcel::counting(size));
        self.read(1, COMPLETE);
        self.read(0, CALL);
        self.free(0);
    }

    /// A call and its reply.
    pub fn call_and_reply(&mut self, client: u32, server: u32, target: u32) {
        self.call(client, target, 2, 0, Parcel::counting(64));
        self.read(server, CALL);
        self.reply(server, Parcel::counting(64));
        self.free(server);
        self.read(server, COMPLETE);
        self.read(client, COMPLETE_AND_CALL);
        self.free(client);
    }

    /// A call with an object of seat 1's, which the manager acquires and releases; `reply` reads the reply.
    fn call_with(&mut self, object: Object, handle: u32, reply: impl FnOnce(&mut Steps)) {
        self.call(1, 0, 3, 0, Parcel::beginning_with(object));
        self.read(0, CALL);
        self.acquire(0, handle);
        self.reply(0, Parcel::counting(64));
        reply(self);
        self.free(1);
        self.free(0);
        self.release(0, handle);
        self.read(0, COMPLETE);
    }

    /// The whole life of an object of seat 1's.
    pub fn object_first(&mut self, object: Object, handle: u32) {
        self.call_with(object, handle, |steps| {
            steps.read(1, TWO_NOTICES_AND_REPLY);
            steps.handshakes(1, object);
        });
        self.read(1, TWO_NOTICES);
    }

    /// A call with an object that the manager has a name for.
    pub fn object_again(&mut self, object: Object, handle: u32) {
        self.call_with(object, handle, |steps| steps.read(1, COMPLETE_AND_CALL));
    }

    /// Seat 1 sends its first n objects to the manager, 64 in a parcel, which acquires each; `told`: it reads its
    /// notices and answers them.
    pub fn objects(&mut self, n: u32, told: bool) {
        for first in (1..=n).step_by(64) {
            let some = first..(first + 64).min(n + 1);
            self.call(1, 0, 4, ONE_WAY, Parcel::of_objects(some.clone().map(Object::number)));
            self.read(0, CALL);
            if told {
                self.read_large(1, 4 + 40 * some.len() + 4);
            }
            for k in some {
                if told {
                    self.handshakes(1, Object::number(k));
                }
                self.acquire(0, k);
            }
            self.free(0);
        }
    }

    /// A seat sends an object to the manager, which keeps it under that handle.
    pub fn show_to_manager(&mut self, seat: u32, object: Object, handle: u32) {
        self.call(seat, 0, 1, ONE_WAY, Parcel::of_objects(std::iter::once(object)));
        self.read(0, CALL);
        self.acquire(0, handle);
        self.free(0);
        self.read(seat, TWO_NOTICES_AND_COMPLETE);
        self.handshakes(seat, object);
    }

    /// A seat asks the manager for the object under that handle, and keeps it as its handle 1.
    pub fn hand_out(&mut self, seat: u32, handle: u32) {
        self.call(seat, 0, 1, 0, Parcel::default());
        self.read(0, CALL);
        self.reply(0, Parcel::of_handle(handle));
        self.free(0);
        self.read(0, COMPLETE);
        self.read(seat, COMPLETE_AND_CALL);
        self.acquire(seat, 1);
        self.free(seat);
    }
}

/// Pairs of a server, seat 2i, and its client, seat 2i + 1, all introduced: the setup, and each pair's body.
pub fn pairs(count: u32) -> (Steps, Vec<Steps>) {
    let mut setup = Steps::default();
    (0..2 * count).for_each(|seat| setup.open(seat, SMALL_WINDOW));
    for i in 1..count {
        setup.show_to_manager(2 * i, Object { ptr: 16, cookie: 8 }, i);
        setup.hand_out(2 * i + 1, i);
    }
    let body = |i| {
        let mut steps = Steps::default();
        steps.call_and_reply(2 * i + 1, 2 * i, u32::from(i > 0));
        steps
    };
    (setup, (0..count).map(body).collect())
}
