// SPDX-License-Identifier: Apache-2.0 OR MIT
//! Lists of requests, each of which is one step, with what each must answer.
use crate::commands::{self, BC_ACQUIRE, BC_ENTER_LOOPER, BC_RELEASE, BC_REPLY, BC_TRANSACTION, Object, Parcel};

/// A request, but for the buffer that a free names.
#[derive(Clone)]
pub enum Ask {
    Open {
        pid: u32,
        euid: u32,
        window: u32,
    },
    Manager,
    Write {
        stream: Vec<u8>,
        area: Vec<u8>,
    },
    Read(u32),
    /// Frees the buffer of the operation's slot.
    Free,
}

/// What a request must answer.
#[derive(Clone, Copy, Debug, PartialEq, Eq)]
pub enum Wants {
    /// It is done, and nothing was noted.
    Done,
    /// Returns of so many bytes.
    Got(usize),
    /// Returns, and again until the seat has nothing to read.
    Drained,
}

/// A request of a seat.
#[derive(Clone)]
pub struct Op<A = Ask> {
    pub seat: u32,
    pub ask: A,
    pub wants: Wants,
    /// Where a read puts the buffer that it tells, and a free finds it.
    pub slot: usize,
}

/// So many slots stand for the buffers that seats were told last; those behind are named by the workloads.
pub const SEATS: usize = 16;

/// A list of requests under construction.
#[derive(Clone, Default)]
pub struct Steps(pub Vec<Op>);

impl Steps {
    fn add(&mut self, seat: u32, ask: Ask, wants: Wants, slot: usize) {
        self.0.push(Op { seat, ask, wants, slot });
    }

    pub fn write(&mut self, seat: u32, stream: Vec<u8>) {
        self.add(seat, Ask::Write { stream, area: Vec::new() }, Wants::Done, 0);
    }

    /// Opens a process with one thread, which enters the loop; that of seat 0 becomes the context manager.
    pub fn open(&mut self, seat: u32, window: u32) {
        let pid = 100 * (seat + 1);
        self.add(seat, Ask::Open { pid, euid: 10 * pid, window }, Wants::Done, 0);
        if seat == 0 {
            self.add(seat, Ask::Manager, Wants::Done, 0);
        }
        self.write(seat, BC_ENTER_LOOPER.to_le_bytes().to_vec());
    }

    pub fn call(&mut self, seat: u32, target: u32, code: u32, flags: u32, parcel: Parcel) {
        let (stream, area) = parcel.sent(BC_TRANSACTION, target, code, flags);
        self.add(seat, Ask::Write { stream, area }, Wants::Done, 0);
    }

    pub fn reply(&mut self, seat: u32, parcel: Parcel) {
        let (stream, area) = parcel.sent(BC_REPLY, 0, 0, 0);
        self.add(seat, Ask::Write { stream, area }, Wants::Done, 0);
    }

    /// A read of up to 256 bytes, which must get so many.
    pub fn read(&mut self, seat: u32, size: usize) {
        self.read_into(seat, size, seat as usize);
    }

    pub fn read_into(&mut self, seat: u32, size: usize, slot: usize) {
        self.add(seat, Ask::Read(256), Wants::Got(size), slot);
    }

    /// A read with the largest limit that a parcel of objects needs.
    pub fn read_large(&mut self, seat: u32, size: usize) {
        self.add(seat, Ask::Read(4096), Wants::Got(size), seat as usize);
    }

    pub fn drain(&mut self, seat: u32) {
        self.add(seat, Ask::Read(4096), Wants::Drained, seat as usize);
    }

    /// Frees the buffer that the seat was told last.
    pub fn free(&mut self, seat: u32) {
        self.free_from(seat, seat as usize);
    }

    pub fn free_from(&mut self, seat: u32, slot: usize) {
        self.add(seat, Ask::Free, Wants::Done, slot);
    }

    pub fn acquire(&mut self, seat: u32, handle: u32) {
        self.write(seat, commands::with_handle(BC_ACQUIRE, handle));
    }

    pub fn release(&mut self, seat: u32, handle: u32) {
        self.write(seat, commands::with_handle(BC_RELEASE, handle));
    }

    /// The owner's answers to the two notices of an object.
    pub fn handshakes(&mut self, seat: u32, object: Object) {
        self.write(seat, commands::with_object(commands::BC_INCREFS_DONE, object));
        self.write(seat, commands::with_object(commands::BC_ACQUIRE_DONE, object));
    }
}
