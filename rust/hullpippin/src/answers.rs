// SPDX-License-Identifier: Apache-2.0 OR MIT
//! What is asked of a seat, and what comes of it.
use crate::{Cause, Fault, Note, Returns};
use hullpippin_sys as sys;
use std::fmt;

/// Why a write stopped before the end of its stream.
#[derive(Clone, Copy, Debug, PartialEq, Eq, Hash)]
pub enum Stop {
    /// The next command can't be read or run.
    Fault(Fault),
    /// The last command that was run was refused.
    Cause(Cause),
}

impl fmt::Display for Stop {
    fn fmt(&self, f: &mut fmt::Formatter<'_>) -> fmt::Result {
        match self {
            Stop::Fault(fault) => fault.fmt(f),
            Stop::Cause(cause) => cause.fmt(f),
        }
    }
}

impl std::error::Error for Stop {}

/// Why a request comes back. It wasn't run.
#[derive(Clone, Copy, Debug, PartialEq, Eq, Hash)]
pub enum Why {
    /// Another seat has the engine.
    Taken,
    /// The engine found no memory.
    NoMemory,
    /// The history can take no more.
    HistoryFull,
    /// The seat took the request back before anybody ran it.
    Withdrawn,
}

impl fmt::Display for Why {
    fn fmt(&self, f: &mut fmt::Formatter<'_>) -> fmt::Result {
        f.write_str(match self {
            Why::Taken => "another seat has the engine",
            Why::NoMemory => "out of memory",
            Why::HistoryFull => "the history is full",
            Why::Withdrawn => "the request was taken back",
        })
    }
}

impl std::error::Error for Why {}

/// What a request that was run came to.
#[derive(Clone, Debug, PartialEq, Eq)]
pub enum Answer {
    /// The seat has a thread of the process.
    Opened,
    /// The process is the context manager, or what it is told of its one-way flooding is set.
    Set,
    /// The thread or the process has ended.
    Exited,
    /// A write has run commands, perhaps none.
    Wrote {
        /// How many bytes of the stream were run.
        consumed: u32,
        /// The commands that changed nothing, by their places in the stream from 0, and why.
        notes: Vec<(u32, Note)>,
        /// Why the write stopped before the end of its stream, if it did.
        stop: Option<Stop>,
    },
    /// A read has got these bytes.
    Got {
        /// The returns: [`Answer::returns`] takes them apart.
        stream: Vec<u8>,
        /// The data of the transaction or reply among them.
        data: Vec<u8>,
        /// The offsets of its objects.
        offsets: Vec<u8>,
    },
    /// The request was refused, and changed nothing.
    Refused(Fault),
}

impl Answer {
    /// The returns that were read, one by one; none where nothing was.
    pub fn returns(&self) -> Returns<'_> {
        match self {
            Answer::Got { stream, .. } => Returns::of(stream),
            _ => Returns::of(&[]),
        }
    }
}

/// What came of a request.
#[derive(Clone, Debug, PartialEq, Eq)]
pub enum Outcome {
    /// It was run: its steps stand in the history from `from` up to and without `to`.
    Done {
        /// What the request came to.
        answer: Answer,
        /// The place of the request's first step in the history.
        from: u64,
        /// The place behind the request's last step.
        to: u64,
    },
    /// The request wasn't run, for this reason.
    Back(Why),
    /// The request is still handed over: nobody has run it yet.
    Handed,
}

impl Outcome {
    /// What the request came to, where it was run.
    pub fn answer(self) -> Option<Answer> {
        match self {
            Outcome::Done { answer, .. } => Some(answer),
            Outcome::Back(_) | Outcome::Handed => None,
        }
    }
}

/// A request to be posted.
#[derive(Clone, Copy, Debug, PartialEq, Eq)]
pub enum Request<'a> {
    /// As [`Seat::open`](crate::Seat::open).
    Open {
        /// The process's pid, 1 to 2147483647.
        pid: u32,
        /// The process's effective user id.
        euid: u32,
        /// The size of the process's window in bytes, a multiple of 4096 up to 4194304.
        window: u32,
    },
    /// As [`Seat::attach`](crate::Seat::attach).
    Attach {
        /// The pid of a live process.
        pid: u32,
    },
    /// As [`Seat::manager`](crate::Seat::manager).
    Manager,
    /// As [`Seat::set_spam`](crate::Seat::set_spam).
    SetSpam {
        /// Whether the process is told of its flooding from now on.
        on: bool,
    },
    /// As [`Seat::write`](crate::Seat::write).
    Write {
        /// The bytes of the commands, at most 4096.
        stream: &'a [u8],
        /// The area that the commands' parcels are cut from: their records say where.
        area: &'a [u8],
    },
    /// As [`Seat::read`](crate::Seat::read).
    Read {
        /// How many bytes of returns are read at most, at least 72.
        limit: u32,
    },
    /// As [`Seat::exit_thread`](crate::Seat::exit_thread).
    ExitThread,
    /// As [`Seat::exit_process`](crate::Seat::exit_process).
    ExitProcess,
}

impl<'a> Request<'a> {
    /// The request as the library takes it, its stream and its area.
    pub(crate) fn given(&self) -> (sys::hullpippin_request, &'a [u8], &'a [u8]) {
        let of = |kind| sys::hullpippin_request { kind, ..Default::default() };
        let (request, stream, area): (_, &[u8], &[u8]) = match *self {
            Request::Open { pid, euid, window } => {
                (sys::hullpippin_request { pid, euid, window, ..of(sys::HULLPIPPIN_OPEN) }, &[], &[])
            }
            Request::Attach { pid } => (sys::hullpippin_request { pid, ..of(sys::HULLPIPPIN_ATTACH) }, &[], &[]),
            Request::Manager => (of(sys::HULLPIPPIN_MANAGER), &[], &[]),
            Request::SetSpam { on } => {
                (sys::hullpippin_request { on: on.into(), ..of(sys::HULLPIPPIN_SET_SPAM) }, &[], &[])
            }
            Request::Write { stream, area } => (of(sys::HULLPIPPIN_WRITE), stream, area),
            Request::Read { limit } => (sys::hullpippin_request { limit, ..of(sys::HULLPIPPIN_READ) }, &[], &[]),
            Request::ExitThread => (of(sys::HULLPIPPIN_EXIT_THREAD), &[], &[]),
            Request::ExitProcess => (of(sys::HULLPIPPIN_EXIT_PROCESS), &[], &[]),
        };
        (request, stream, area)
    }
}

/// The fault of a number that the library tells, which is one of those that there are.
pub(crate) fn fault(number: u32) -> Fault {
    Fault::from_number(number).unwrap_or_else(|| panic!("the library tells fault {number}"))
}

/// The cause of a number that the library tells, which is one of those that there are.
pub(crate) fn cause(number: u32) -> Cause {
    Cause::from_number(number).unwrap_or_else(|| panic!("the library tells cause {number}"))
}

/// The note of a number that the library tells, which is one of those that there are.
pub(crate) fn note(number: u32) -> Note {
    Note::from_number(number).unwrap_or_else(|| panic!("the library tells note {number}"))
}

/// What the library has of an answer besides its numbers.
pub(crate) trait Fetched {
    /// Copies a part of what was read, the returns, the data or the offsets, to where there is room for so many bytes, and answers how many
    /// the part has.
    ///
    /// # Safety
    ///
    /// So many bytes from `out` on can be written.
    unsafe fn copy(&mut self, part: u32, out: *mut u8, room: usize) -> usize;

    /// No bytes, in memory that a part may be put into.
    fn spare(&mut self, _part: u32) -> Vec<u8> {
        Vec::new()
    }

    /// A part of what was read, which has so many bytes.
    fn bytes(&mut self, part: u32, size: usize) -> Vec<u8> {
        let mut bytes = self.spare(part);
        if size > 0 {
            bytes.reserve(size);
            // SAFETY: there is room for so many bytes, and the library fills as many of it as it tells.
            unsafe {
                let told = self.copy(part, bytes.as_mut_ptr(), size);
                bytes.set_len(told.min(size));
            }
        }
        bytes
    }

    /// What a request that was run came to; the notes are told apart.
    fn told(&mut self, told: &sys::hullpippin_answer, notes: Vec<(u32, Note)>, consumed: u32) -> Answer {
        match told.kind {
            sys::HULLPIPPIN_OPENED => Answer::Opened,
            sys::HULLPIPPIN_SET => Answer::Set,
            sys::HULLPIPPIN_EXITED => Answer::Exited,
            sys::HULLPIPPIN_WROTE => Answer::Wrote {
                consumed,
                notes,
                stop: match told.stop {
                    sys::HULLPIPPIN_AT_END => None,
                    sys::HULLPIPPIN_AT_FAULT => Some(Stop::Fault(fault(told.number))),
                    _ => Some(Stop::Cause(cause(told.number))),
                },
            },
            sys::HULLPIPPIN_GOT => Answer::Got {
                stream: self.bytes(sys::HULLPIPPIN_STREAM, told.stream),
                data: self.bytes(sys::HULLPIPPIN_DATA, told.data),
                offsets: self.bytes(sys::HULLPIPPIN_OFFSETS, told.offsets),
            },
            _ => Answer::Refused(fault(told.number)),
        }
    }
}
