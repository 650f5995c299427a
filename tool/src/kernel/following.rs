// SPDX-License-Identifier: Apache-2.0 OR MIT
//! Calls, put together from the events of a trace. A call is known by its number. Which call a reply answers is told by nobody: it is
//! the innermost that its thread serves. What began before the trace did is passed over.
use super::ftrace::{Line, Passing, Transaction, What};
use super::names::{self, Named};
use super::node;
use super::threads::{Sending, Thread, Threads};
use super::verbs;
use crate::calls::{Back, Call, Doing, Event, Objects, Passed, Why, OF_THREAD};
use crate::following::ObjectId;
use crate::record::ONE_WAY;
use crate::times::Moment;
use anyhow::Result;
use std::collections::{BTreeMap, HashMap, VecDeque};

/// So many open calls are followed, with some 300 bytes each; so many one-way calls that were read and whose buffers live; so many
/// objects that a call hands over; and so many nodes by name.
const MOST_CALLS: usize = 1 << 16;
const MOST_READ: usize = 1 << 12;
const MOST_PASSED: usize = 64;
const MOST_NODES: usize = 1 << 16;

/// What is known of a node: whose it is, and what the user has told.
#[derive(Debug, Default)]
pub struct Node {
    pub owner: Option<u32>,
    pub named: Option<Named>,
}

/// All that a trace has told so far.
#[derive(Debug, Default)]
pub struct Following {
    pub threads: Threads,
    pub nodes: HashMap<u64, Node>,
    open: BTreeMap<u64, Call>,
    /// Which call a reply answers, until it is read: by the reply's number.
    replies: BTreeMap<u64, u64>,
    /// One-way calls that were read, oldest first: that their buffers are freed is perhaps never told.
    read: VecDeque<u64>,
    /// How many open calls were given up, since there were too many.
    pub given_up: u64,
    /// How far the clock of real time is ahead of the trace's, where that is known.
    pub ahead: Option<u64>,
    /// Whether the trace tells of sizes, and of commands.
    pub has_sizes: bool,
    pub has_commands: bool,
}

impl Objects for Following {
    fn words(&self, object: ObjectId) -> String {
        let owner = self.nodes.get(&object.place).and_then(|it| it.owner);
        let name = self.called(object).map_or(String::new(), |it| format!(" {it:?}"));
        let owner = owner.map_or(String::new(), |it| format!(" of pid {it}"));
        format!("{}{name}{owner}", self.number(object))
    }

    fn number(&self, object: ObjectId) -> String {
        format!("node {}", object.place)
    }

    fn called(&self, object: ObjectId) -> Option<&str> {
        self.named(object).map(|it| &it.service[..])
    }

    fn interface(&self, object: ObjectId) -> Option<&str> {
        self.named(object)?.interface.as_deref()
    }
}

/// The innermost call of a thread that is still open is taken off its list; what lies within it is over too.
fn take(list: &mut Vec<u64>, number: u64) {
    if let Some(at) = list.iter().rposition(|it| *it == number) {
        list.truncate(at);
    }
}

impl Following {
    fn named(&self, object: ObjectId) -> Option<&Named> {
        let node = self.nodes.get(&object.place)?;
        node.named.as_ref().or_else(|| names::of_node(object.place, node.owner?))
    }

    /// The names that nodes have.
    pub fn names(&self) -> impl Iterator<Item = &str> {
        self.nodes.keys().filter_map(|it| self.called(node(*it)))
    }

    /// Takes an event, and adds what it does to calls.
    pub fn event(&mut self, place: u64, line: &Line<'_>, what: What, events: &mut Vec<Event>) -> Result<()> {
        let thread = self.threads.meet(line.tid, line.comm, line.process)?;
        let still = thread.sending.map_or(false, |sending| belongs(what, sending.number()));
        if !still {
            self.told(line.tid, events);
        }
        let time = line.time.map(|it| self.moment(it));
        let pid = self.threads.process(line.tid);
        let doing = Doing { place, seat: line.tid, pid, tid: Some(line.tid), time };
        match what {
            What::Transaction(it) if it.is_reply => self.replied(doing, &it),
            What::Transaction(it) => self.called(doing, &it),
            What::Buffer(number, size) => self.sized(number, size),
            What::Passed(passing) => self.passed(doing, passing),
            What::Received(number) => self.received(doing, number, events),
            What::Released(number) => self.released(doing, number, events),
            What::Command(code) => self.command(line.tid, code),
            What::Return(code) => self.returned(doing, code, events),
            What::Ioctl(_) | What::Other => {}
        }
        Ok(())
    }

    /// A time of the trace's clock.
    pub fn moment(&self, clock: u64) -> Moment {
        self.ahead.map_or_else(|| Moment::of_machine(clock), |ahead| Moment::new(clock, ahead))
    }

    /// What was still being sent at the end of the trace.
    pub fn end(&mut self, events: &mut Vec<Event>) {
        self.threads.sending().into_iter().for_each(|it| self.told(it, events));
    }

    /// Calls that are open at the end, oldest first, but for one-way calls that were read.
    pub fn left(&self) -> impl Iterator<Item = &Call> {
        self.open.values().filter(|it| !it.one_way || it.taken.is_none())
    }

    /// What a thread was sending is sent: its size and objects are known by now, as far as they are told.
    fn told(&mut self, tid: u32, events: &mut Vec<Event>) {
        let sending = match self.threads.get(tid).and_then(|it| it.sending.take()) {
            Some(sending) => sending,
            None => return,
        };
        let (Sending::Call(number) | Sending::Reply(_, number)) = sending;
        let call = self.open.get(&number).cloned();
        events.extend(call.map(|it| if sending.number() == number { Event::Made(it) } else { Event::Replied(it) }));
    }

    fn thread(&mut self, tid: u32) -> Option<&mut Thread> {
        self.threads.get(tid)
    }

    fn called(&mut self, doing: Doing, it: &Transaction) {
        if self.nodes.len() < MOST_NODES {
            self.nodes.entry(it.node).or_default().owner = Some(it.process);
        }
        let call = Call {
            made: doing,
            to: it.process,
            object: Some(node(it.node)),
            code: it.code,
            one_way: it.flags & ONE_WAY != 0,
            size: None,
            taken: None,
            replied: None,
            passed: Vec::new(),
            arguments: None,
        };
        if let Some(thread) = self.thread(doing.seat) {
            thread.sending = Some(Sending::Call(it.number));
            thread.latest = Some(it.number);
            if !call.one_way {
                thread.waits.push(it.number);
            }
        }
        self.open.insert(it.number, call);
        if self.open.len() > MOST_CALLS {
            self.open.pop_first_call();
            self.given_up += 1;
        }
    }

    fn replied(&mut self, doing: Doing, it: &Transaction) {
        self.threads.learn(it.thread, it.process);
        let served = self.thread(doing.seat).and_then(|it| it.serves.pop());
        // Who began to look in the midst of a call knows it by its caller, who waits for nothing further in.
        let waited = self.thread(it.thread).and_then(|it| it.waits.last().copied());
        let number = match served.or(waited) {
            Some(number) => number,
            None => return,
        };
        if let Some(call) = self.open.get_mut(&number) {
            if !is_unknown(it.process) {
                call.made.pid = it.process;
            }
            call.replied = Some((doing, Back::Reply(None)));
            self.replies.insert(it.number, number);
            if self.replies.len() > MOST_CALLS {
                self.replies.pop_first_call();
            }
            if let Some(thread) = self.thread(doing.seat) {
                thread.sending = Some(Sending::Reply(it.number, number));
                thread.latest = None;
            }
        }
    }

    /// The call that a number is of, and whether the number is that of its reply.
    fn of(&mut self, number: u64) -> Option<(&mut Call, bool)> {
        let call = self.replies.get(&number).copied();
        Some((self.open.get_mut(&call.unwrap_or(number))?, call.is_some()))
    }

    fn sized(&mut self, number: u64, size: u64) {
        self.has_sizes = true;
        match self.of(number) {
            Some((call, true)) => call.replied = call.replied.map(|it| (it.0, Back::Reply(Some(size)))),
            Some((call, false)) => call.size = Some(size),
            None => {}
        }
    }

    fn passed(&mut self, doing: Doing, it: Passing) {
        let pid = Some(doing.pid).filter(|it| !is_unknown(*it));
        let named = it.ptr.and_then(|ptr| names::of_object(doing.seat, pid, ptr));
        if let (Some(named), true) = (named, self.nodes.len() < MOST_NODES) {
            self.nodes.insert(it.node, Node { owner: Some(named.owner), named: Some(named) });
        }
        if let Some((call, with_reply)) = self.of(it.transaction).filter(|it| it.0.passed.len() < MOST_PASSED) {
            call.passed.push(Passed { node: it.node, handle: it.handle, with_reply });
        }
    }

    fn received(&mut self, mut doing: Doing, number: u64, events: &mut Vec<Event>) {
        let sender = self.of(number).map(|(call, is_reply)| match call.replied {
            Some((replied, _)) if is_reply => replied.seat,
            _ => call.made.seat,
        });
        if let Some(sender) = sender {
            self.told(sender, events);
        }
        if let Some(call) = self.replies.remove(&number) {
            return self.done(doing, call, events);
        }
        let call = match self.open.get_mut(&number) {
            Some(call) => call,
            None => return,
        };
        self.threads.learn(doing.seat, call.to);
        doing.pid = call.to;
        call.taken = Some(doing);
        events.push(Event::Taken(call.clone()));
        if call.one_way {
            self.read.push_back(number);
        } else if let Some(thread) = self.threads.get(doing.seat) {
            thread.serves.push(number);
        }
        if self.read.len() > MOST_READ {
            let oldest = self.read.pop_front();
            oldest.and_then(|it| self.open.remove(&it));
        }
    }

    /// A reply was read.
    fn done(&mut self, doing: Doing, number: u64, events: &mut Vec<Event>) {
        if let Some(thread) = self.thread(doing.seat) {
            take(&mut thread.waits, number);
        }
        let call = self.open.remove(&number);
        events.extend(call.map(|call| Event::Done(call, doing)));
    }

    fn released(&mut self, doing: Doing, number: u64, events: &mut Vec<Event>) {
        let is_read = self.open.get(&number).map_or(false, |it| it.one_way && it.taken.is_some());
        if is_read {
            self.read.retain(|it| *it != number);
            events.extend(self.open.remove(&number).map(|call| Event::Freed(call, doing)));
        }
    }

    fn command(&mut self, tid: u32, code: u32) {
        self.has_commands = true;
        let sends =
            matches!(verbs::command(code), Some("BC_TRANSACTION" | "BC_TRANSACTION_SG" | "BC_REPLY" | "BC_REPLY_SG"));
        if let (Some(thread), true) = (self.thread(tid), sends) {
            thread.unanswered = true;
            thread.latest = None;
        }
    }

    fn returned(&mut self, doing: Doing, code: u32, events: &mut Vec<Event>) {
        match verbs::returned(code) {
            Some("BR_TRANSACTION_COMPLETE" | "BR_TRANSACTION_PENDING_FROZEN" | "BR_ONEWAY_SPAM_SUSPECT") => {
                if let Some(thread) = self.thread(doing.seat) {
                    thread.unanswered = false;
                    thread.latest = None;
                }
            }
            Some(name @ ("BR_DEAD_REPLY" | "BR_FAILED_REPLY" | "BR_FROZEN_REPLY")) => self.failed(doing, name, events),
            Some(name @ "BR_DEAD_BINDER") => events.push(Event::Died(doing, name)),
            _ => {}
        }
    }

    /// What a thread has sent was refused, or else the call that it waits for gets no reply.
    fn failed(&mut self, doing: Doing, name: &'static str, events: &mut Vec<Event>) {
        let thread = match self.threads.get(doing.seat) {
            Some(thread) => thread,
            None => return,
        };
        let number = match (thread.unanswered, thread.latest.take()) {
            (true, Some(number)) => number,
            // It was refused before it had a number.
            (true, None) => {
                thread.unanswered = false;
                events.push(Event::Refused(doing, Why::Returned(name)));
                return;
            }
            (false, _) => match thread.waits.last() {
                Some(number) => *number,
                None => return,
            },
        };
        thread.unanswered = false;
        take(&mut thread.waits, number);
        events.extend(self.open.remove(&number).map(|call| Event::Failed(call, doing, name)));
    }
}

/// Whether an event tells more of what a thread is sending.
fn belongs(what: What, number: u64) -> bool {
    matches!(what, What::Buffer(of, _) | What::Passed(Passing { transaction: of, .. }) if of == number)
}

fn is_unknown(process: u32) -> bool {
    process == 0 || process & OF_THREAD != 0
}

/// What Rust 1.63 hasn't: the entry with the least number is taken out.
trait PopFirst {
    fn pop_first_call(&mut self);
}

impl<T> PopFirst for BTreeMap<u64, T> {
    fn pop_first_call(&mut self) {
        let first = self.keys().next().copied();
        first.map(|it| self.remove(&it));
    }
}
