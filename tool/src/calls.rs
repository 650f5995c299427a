// SPDX-License-Identifier: Apache-2.0 OR MIT
//! Calls from their making to their end, as entries tell of them.
use crate::aidl;
use crate::codes::{
    Returns, BC_FREE_BUFFER, BC_TRANSACTION, BR_DEAD_BINDER, BR_DEAD_REPLY, BR_FAILED_REPLY, BR_TRANSACTION,
};
use crate::following::{About, Facts, ObjectId, Space};
use crate::journal::{Answer, Entry, Step};
use crate::record::Record;
use crate::refusals::Reason;
use crate::show::object_words;
use crate::times::Moment;
use std::collections::HashMap;

/// A thread whose process isn't known stands for one of its own, by this bit and its number; no pid of Linux has it.
pub const OF_THREAD: u32 = 1 << 31;

/// Who did something, and at which place of the recording.
#[derive(Clone, Copy, Debug, PartialEq, Eq)]
pub struct Doing {
    pub place: u64,
    pub seat: u32,
    pub pid: u32,
    /// What lies beside the journal: its thread, and when that was.
    pub tid: Option<u32>,
    pub time: Option<Moment>,
}

impl Doing {
    /// How many nanoseconds lie between two, where both have a time.
    pub fn since(self, earlier: Doing) -> Option<u64> {
        Some(self.time?.clock.saturating_sub(earlier.time?.clock))
    }
}

/// What is known of the objects that are called, by whoever tells of the calls.
pub trait Objects {
    /// As `3.0 "manager" of pid 100`.
    fn words(&self, object: ObjectId) -> String;
    /// As `3.0`, or `node 7`.
    fn number(&self, object: ObjectId) -> String;
    /// The name of its service, or else its interface.
    fn called(&self, object: ObjectId) -> Option<&str>;
    /// The interface that calls on it name.
    fn interface(&self, object: ObjectId) -> Option<&str>;
}

impl Objects for Space {
    fn words(&self, object: ObjectId) -> String {
        object_words(self, object)
    }

    fn number(&self, object: ObjectId) -> String {
        object.to_string()
    }

    fn called(&self, object: ObjectId) -> Option<&str> {
        self.name_of(object)
    }

    fn interface(&self, object: ObjectId) -> Option<&str> {
        crate::rules::Space::called(self, object)?.interface.as_deref()
    }
}

/// What has come back of a call.
#[derive(Clone, Copy, Debug, PartialEq, Eq)]
pub enum Back {
    /// A reply of so many bytes, where that is known.
    Reply(Option<u64>),
    /// A reply that was refused so that the call closed.
    Refused,
}

impl Back {
    /// How many bytes came back, as far as that is known.
    pub fn size(self) -> Option<u64> {
        match self {
            Back::Reply(size) => size,
            Back::Refused => None,
        }
    }
}

/// Why a transaction or reply was refused.
#[derive(Clone, Copy, Debug, PartialEq, Eq)]
pub enum Why {
    /// By the rules.
    Reason(Reason),
    /// By the return alone that a kernel gives.
    Returned(&'static str),
}

impl Why {
    /// As `X5 DeadObject`, or `BR_DEAD_REPLY`.
    pub fn name(self) -> String {
        match self {
            Why::Reason(it) => format!("{} {}", it.name(), it.word()),
            Why::Returned(name) => name.into(),
        }
    }

    /// The same, with what it means.
    pub fn words(self) -> String {
        match self {
            Why::Reason(it) => format!("{} {}: {}", it.name(), it.word(), it.text()),
            Why::Returned(name) => name.into(),
        }
    }
}

/// A call: a transaction that was accepted, with what has come of it so far.
#[derive(Clone, Debug, PartialEq, Eq)]
pub struct Call {
    pub made: Doing,
    pub to: u32,
    pub object: Option<ObjectId>,
    pub code: u32,
    pub one_way: bool,
    /// How many bytes it has, where that is known.
    pub size: Option<u64>,
    /// Who read its BR_TRANSACTION, and where.
    pub taken: Option<Doing>,
    /// Where its reply was accepted, or refused so that the call closed.
    pub replied: Option<(Doing, Back)>,
    /// The objects that it handed over, as a kernel tells them.
    pub passed: Vec<Passed>,
    /// What its method was called with, where that is known.
    pub arguments: Option<String>,
}

/// An object that a call or its reply hands over, as a kernel tells it.
#[derive(Clone, Copy, Debug, PartialEq, Eq)]
pub struct Passed {
    pub node: u64,
    /// The receiver's handle; None where it is the receiver's own.
    pub handle: Option<u32>,
    pub with_reply: bool,
}

/// What an entry does to calls.
#[derive(Clone, Debug, PartialEq, Eq)]
pub enum Event {
    Made(Call),
    /// A transaction or reply was refused.
    Refused(Doing, Why),
    /// The call was handed to a server; a one-way call, for which nobody waits, ends so.
    Taken(Call),
    Replied(Call),
    /// The caller has read the reply.
    Done(Call, Doing),
    /// The caller has read, by this return, that there will be no reply.
    Failed(Call, Doing, &'static str),
    /// A process was told of another's death, by this return.
    Died(Doing, &'static str),
    /// The buffer of a one-way call was freed.
    Freed(Call, Doing),
}

impl Event {
    /// Who has done it, and when.
    pub fn doing(&self) -> Doing {
        match self {
            Event::Made(call) => call.made,
            Event::Taken(call) => call.taken.unwrap_or(call.made),
            Event::Replied(call) => call.replied.map_or(call.made, |it| it.0),
            Event::Refused(doing, _)
            | Event::Done(_, doing)
            | Event::Failed(_, doing, _)
            | Event::Died(doing, _)
            | Event::Freed(_, doing) => *doing,
        }
    }
}

/// The calls that have not ended, by the places where they were made.
#[derive(Debug, Default)]
pub struct Calls {
    open: HashMap<u64, Call>,
}

impl Calls {
    /// What an entry does to calls; those that it ends are open no longer.
    pub fn events(&mut self, entry: &Entry<'_>, facts: &Facts) -> Vec<Event> {
        let pid = match facts.pid {
            Some(pid) => pid,
            None => return Vec::new(),
        };
        let tid = facts.person.as_ref().and_then(|it| it.tid);
        let doing = Doing { place: entry.place, seat: entry.seat, pid, tid, time: facts.time };
        match (&entry.step, &entry.answer) {
            (Step::Command { command, parcel, .. }, answer) => match command.record() {
                Some(record) if command.code.number == BC_TRANSACTION => {
                    let arguments = parcel.and_then(|it| aidl::arguments(record.code, it.data));
                    self.sent(doing, record, answer, facts, arguments)
                }
                Some(record) => self.replied(doing, record, answer, facts),
                None if command.code.number == BC_FREE_BUFFER => self.freed(doing, answer, facts),
                None => None,
            }
            .into_iter()
            .collect(),
            (_, Answer::Got { stream, .. }) => self.read(doing, stream, facts),
            _ => Vec::new(),
        }
    }

    /// Those that are open at the end.
    pub fn left(self) -> impl Iterator<Item = Call> {
        self.open.into_values()
    }

    fn sent(
        &mut self,
        doing: Doing,
        record: &Record,
        answer: &Answer<'_>,
        facts: &Facts,
        arguments: Option<String>,
    ) -> Option<Event> {
        if let Answer::Refused(reason) = answer {
            return Some(Event::Refused(doing, Why::Reason(*reason)));
        }
        let call = Call {
            made: doing,
            to: facts.receiver?,
            object: facts.object,
            code: record.code,
            one_way: record.is_one_way(),
            size: Some(record.data_size),
            taken: None,
            replied: None,
            passed: Vec::new(),
            arguments,
        };
        self.open.insert(doing.place, call.clone());
        Some(Event::Made(call))
    }

    fn replied(&mut self, doing: Doing, record: &Record, answer: &Answer<'_>, facts: &Facts) -> Option<Event> {
        let call = facts.answers.and_then(|it| self.open.get_mut(&it));
        if let Answer::Refused(reason) = answer {
            if let Some(call) = call {
                call.replied = Some((doing, Back::Refused));
            }
            return Some(Event::Refused(doing, Why::Reason(*reason)));
        }
        let call = call?;
        call.replied = Some((doing, Back::Reply(Some(record.data_size))));
        Some(Event::Replied(call.clone()))
    }

    fn freed(&mut self, doing: Doing, answer: &Answer<'_>, facts: &Facts) -> Option<Event> {
        let sent = match facts.about.first() {
            Some(About::Sent(sent)) if matches!(answer, Answer::Accepted) => sent,
            _ => return None,
        };
        let is_one_way = self.open.get(&sent.made).map_or(false, |it| it.one_way);
        let call = is_one_way.then(|| self.open.remove(&sent.made)).flatten()?;
        Some(Event::Freed(call, doing))
    }

    fn read(&mut self, doing: Doing, stream: &[u8], facts: &Facts) -> Vec<Event> {
        let returns = Returns(stream).flatten().zip(&facts.about);
        returns.filter_map(|(message, about)| self.returned(doing, message.code.number, about)).collect()
    }

    fn returned(&mut self, doing: Doing, code: u32, about: &About) -> Option<Event> {
        match about {
            About::Sent(sent) if code == BR_TRANSACTION => {
                let call = self.open.get_mut(&sent.made)?;
                call.taken = Some(doing);
                Some(Event::Taken(call.clone()))
            }
            About::Sent(sent) => Some(Event::Done(self.open.remove(&sent.answers?)?, doing)),
            About::Call(place) if matches!(code, BR_DEAD_REPLY | BR_FAILED_REPLY) => {
                let name = if code == BR_DEAD_REPLY { "BR_DEAD_REPLY" } else { "BR_FAILED_REPLY" };
                Some(Event::Failed(self.open.remove(place)?, doing, name))
            }
            About::Death(..) if code == BR_DEAD_BINDER => Some(Event::Died(doing, "BR_DEAD_BINDER")),
            _ => None,
        }
    }
}
