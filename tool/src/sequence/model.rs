// SPDX-License-Identifier: Apache-2.0 OR MIT
//! A sequence diagram as plain data: lanes from left to right, and what happens from top to bottom.
use crate::refusals::Reason;

/// A seat's place beside the others: its thread's, or its threads' one after the other.
#[derive(Clone, Debug)]
pub struct Lane {
    pub seat: u32,
    /// The pid of the first process in which it had a thread, of those drawn.
    pub pid: Option<u32>,
    /// The least seat with this pid, by which the lanes of a process stand together.
    pub leader: u32,
    /// What its first thread is called, where that lies beside the journal.
    pub name: Option<String>,
}

/// Whose thread sits on a seat from a row on.
#[derive(Clone, Debug)]
pub struct Sitter {
    pub row: u64,
    pub seat: u32,
    pub pid: u32,
    pub name: Option<String>,
}

/// What is called, as its teller knows it.
#[derive(Clone, Copy, Debug)]
pub enum Target {
    Handle(u32),
    /// By a kernel's number.
    Node(u64),
}

/// What is sent from one thread to another.
#[derive(Clone, Copy, Debug)]
pub enum Kind {
    Call {
        target: Target,
        code: u32,
    },
    /// Its turn among the one-way calls on its object, from 1.
    OneWay {
        target: Target,
        code: u32,
        turn: u32,
    },
    /// The reply to the call that was made there.
    Reply {
        call: u64,
    },
}

/// Where an arrow ends: at a seat, in a row.
#[derive(Clone, Copy, Debug)]
pub struct End {
    pub seat: u32,
    pub row: u64,
}

/// A transaction or reply on its way.
#[derive(Clone, Copy, Debug)]
pub struct Arrow {
    /// The place of its step, by which it is known.
    pub made: u64,
    pub kind: Kind,
    pub sender: u32,
    /// The row where it begins; None: before all of them.
    pub sent: Option<u64>,
    /// The reading that handed it out.
    pub got: Option<End>,
}

/// What a thread is doing.
#[derive(Clone, Copy, Debug, PartialEq, Eq)]
pub enum Doing {
    /// There is no thread at the seat.
    Gone,
    /// The thread is in no call.
    Idle,
    Waits,
    Serves,
}

/// What a thread is doing for a while.
#[derive(Clone, Copy, Debug)]
pub struct Span {
    pub seat: u32,
    pub doing: Doing,
    /// The place of the call, or of the Open of the process.
    pub since: u64,
    /// The row in which it begins; None: before all of them.
    pub from: Option<u64>,
    /// How many calls it lies within.
    pub depth: u64,
    /// What the thread does afterwards.
    pub outer: Doing,
}

/// What an entry did, if that leaves a mark.
#[derive(Clone, Copy, Debug)]
pub enum Event {
    Opened(u32),
    Attached(u32),
    ManagerSet,
    SpamSet(bool),
    /// A transaction or reply was accepted, by its arrow.
    Sent(usize),
    /// A transaction or reply was handed out, by its arrow.
    Got(usize),
    /// A death was told, by the notification's cookie where that is known.
    Death(Option<u64>),
    DeadReply,
    FailedReply,
    SpamSuspect,
    ThreadExit,
    ProcessExit,
    /// A command or a request was refused, or changed nothing.
    Refused(Reason),
}

/// A mark in a row of its own.
#[derive(Clone, Copy, Debug)]
pub struct Row {
    pub place: u64,
    pub seat: u32,
    pub event: Event,
}

/// What there is from top to bottom. Spans begin and end in the next row.
#[derive(Clone, Copy, Debug)]
pub enum Thing {
    Row(Row),
    Begins(Span),
    Ends(Span),
}

#[derive(Debug, Default)]
pub struct Diagram {
    pub lanes: Vec<Lane>,
    /// Who sits on the lanes' seats one after the other, where a recording tells that.
    pub sitters: Vec<Sitter>,
    pub things: Vec<Thing>,
    pub arrows: Vec<Arrow>,
    pub rows: u64,
}

impl Diagram {
    /// Which lane, from the left, is that of a seat.
    pub fn lane_of(&self, seat: u32) -> Option<usize> {
        self.lanes.iter().position(|it| it.seat == seat)
    }

    /// Whether nobody has read what is sent by this arrow.
    pub fn is_unread(&self, index: usize) -> bool {
        self.arrows[index].got.is_none()
    }
}
