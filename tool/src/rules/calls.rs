// SPDX-License-Identifier: Apache-2.0 OR MIT
//! Transactions, replies, and open calls.
use super::buffers::Sent;
use super::*;
use crate::codes::{BR_DEAD_REPLY, BR_FAILED_REPLY, BR_TRANSACTION_COMPLETE};

/// A transaction or reply whose parcel has come to its receiver's window, and that hasn't come to a list yet.
#[derive(Clone, Debug, PartialEq, Eq)]
pub struct Half {
    pub what: What,
    /// The buffer, or the cause why there is none.
    pub delivered: Result<BufferId, u8>,
}

#[derive(Clone, Copy, Debug, PartialEq, Eq)]
pub enum What {
    OneWay(Option<ObjectId>),
    TwoWay(Option<ObjectId>),
    /// To the call of this frame.
    Reply(Option<FrameId>),
}

impl Space {
    /// The deepest frame in which a thread takes part, which is the one that came last.
    pub fn innermost(&self, seat: Seat) -> Option<(FrameId, &Frame)> {
        let its = |it: &Frame| it.caller == Some(seat) || it.server == Server::Seat(seat);
        self.frames.iter().filter(|it| its(it.1)).max_by_key(|it| it.1.made)
    }

    /// Closes calls whose server is gone and that have no open child, the oldest first.
    pub(super) fn settle(&mut self) {
        while self.orphans > 0 {
            let is_parent = |id: FrameId| self.frames.iter().any(|it| it.1.parent == Some(id));
            let gone = self.frames.iter().filter(|it| it.1.server == Server::Gone && !is_parent(it.0));
            let (id, caller) = match gone.min_by_key(|it| it.1.made) {
                Some((id, frame)) => (id, frame.caller),
                None => return,
            };
            self.close(id);
            if let Some(seat) = caller {
                self.owe_verdict(seat, BR_DEAD_REPLY, id);
            }
        }
    }

    /// The object that a transaction calls, or the cause why it doesn't.
    pub fn callee(&self, process: ProcessId, handle: u32) -> Result<ObjectId, u8> {
        let object = if handle > 0 {
            match self.name(process, handle) {
                Some(name) if name.count(STRONG) > 0 => name.object,
                _ => return Err(1),
            }
        } else {
            match self.manager {
                None => return Err(2),
                Some(object) if object.0 == process || self.is_own_pid(process, object.0) => return Err(3),
                Some(object) => object,
            }
        };
        let is_ending = self.processes.get(object.0).map_or(false, |it| it.is_ending);
        if self.objects.get(object).map_or(false, |it| it.owner_lives) && !is_ending {
            Ok(object)
        } else {
            Err(4)
        }
    }

    /// Whether the driver takes two processes for one: it compares the pids of those that have opened it.
    fn is_own_pid(&self, process: ProcessId, other: ProcessId) -> bool {
        let pid = |it| self.processes.get(it).map(|it| it.pid & PID);
        self.does(Way::OwnPid) && pid(process) == pid(other)
    }

    /// Why a thread may not make a two-way call.
    fn caller_cause(&self, seat: Seat) -> Option<u8> {
        if self.innermost(seat).map_or(false, |(_, frame)| frame.server != Server::Seat(seat)) {
            return Some(5);
        }
        let todo = &self.threads.get(seat)?.todo;
        let is_unread = if self.does(Way::Unread) {
            matches!(todo.front().map(|it| it.item), Some(Item::Call(_) | Item::Reply(_)))
        } else {
            todo.iter().any(|it| matches!(it.item, Item::Call(_) | Item::Reply(_) | Item::Verdict(_)))
        };
        if is_unread {
            Some(6)
        } else {
            None
        }
    }

    /// Of the calls on whose behalf a thread calls, the innermost one's caller of that process: it waits for this very work.
    pub fn waiting_caller(&self, seat: Seat, process: ProcessId) -> Option<Seat> {
        let mut frame = self.innermost(seat).map(|it| *it.1);
        while let Some(it) = frame {
            let caller = it.caller.filter(|seat| self.threads.get(*seat).map_or(false, |it| it.process == process));
            if caller.is_some() {
                return caller;
            }
            frame = it.parent.and_then(|it| self.frames.get(it)).copied();
        }
        None
    }

    /// BC_TRANSACTION up to where its parcel stands in the receiver's window.
    pub(super) fn prepare_transaction(&mut self, seat: Seat, sent: &Sent<'_>) -> Half {
        let is_one_way = sent.record.is_one_way();
        let process = self.threads.get(seat).map_or(0, |it| it.process);
        let target = self.callee(process, sent.record.handle());
        let what = if is_one_way { What::OneWay(target.ok()) } else { What::TwoWay(target.ok()) };
        let cause = target.err().or_else(|| if is_one_way { None } else { self.caller_cause(seat) });
        let delivered = match (cause, target) {
            (None, Ok(target)) => self.deliver(seat, target.0, sent, Some(target)),
            (cause, _) => Err(cause.unwrap_or(1)),
        };
        Half { what, delivered }
    }

    /// The call that a thread serves, which its reply answers, and who has made it.
    pub fn served(&self, seat: Seat) -> Option<(FrameId, Option<Seat>)> {
        self.innermost(seat).filter(|it| it.1.server == Server::Seat(seat)).map(|it| (it.0, it.1.caller))
    }

    /// A call is open no longer.
    fn close(&mut self, id: FrameId) -> Option<Frame> {
        let frame = self.frames.remove(id).map(|it| *it)?;
        self.orphans -= u32::from(frame.server == Server::Gone && self.orphans > 0);
        Some(frame)
    }

    /// BC_REPLY, in the same way.
    pub(super) fn prepare_reply(&mut self, seat: Seat, sent: &Sent<'_>) -> Half {
        let frame = self.served(seat);
        let delivered = match frame {
            None => Err(15),
            Some((_, None)) => Err(16),
            Some((_, Some(caller))) => {
                let receiver = self.threads.get(caller).map_or(0, |it| it.process);
                self.deliver(seat, receiver, sent, None)
            }
        };
        if let (Ok(buffer), Some((frame, _))) = (delivered, frame) {
            if let Some(it) = self.buffer_mut(buffer) {
                it.answers = Some(frame);
            }
        }
        Half { what: What::Reply(frame.map(|it| it.0)), delivered }
    }

    /// A transaction or reply comes to a list. The driver gives a call to a thread that waits, where `waiter` says so.
    pub fn commit(&mut self, seat: Seat, half: Half, waiter: Option<Seat>) -> Told {
        match (half.what, half.delivered) {
            (What::Reply(frame), delivered) => self.commit_reply(seat, frame, delivered),
            (_, Err(cause)) => {
                let reads = if matches!(cause, 2 | 4) { BR_DEAD_REPLY } else { BR_FAILED_REPLY };
                self.owe(seat, Item::Refusal(reads), false);
                self.settle();
                Told::Stopped(cause)
            }
            (What::OneWay(target), Ok(buffer)) => self.commit_one_way(seat, target, buffer, waiter),
            (What::TwoWay(_), Ok(buffer)) => {
                self.owe(seat, Item::Complete(false), true);
                let waiting = self.waiting_caller(seat, buffer.0).or(waiter);
                let process = self.threads.get(seat).and_then(|it| self.processes.get(it.process));
                let frame = Frame {
                    caller: Some(seat),
                    caller_pid: process.map_or(0, |it| it.pid),
                    server: Server::Pending,
                    parent: self.innermost(seat).map(|it| it.0),
                    made: Made(self.steps.0, 0),
                };
                self.frames.insert(self.current, frame);
                let current = self.current;
                if let Some(it) = self.buffer_mut(buffer) {
                    it.frame = Some(current);
                }
                self.call_comes(buffer, waiting);
                self.follow();
                Told::Accepted
            }
        }
    }

    fn commit_one_way(&mut self, seat: Seat, target: Option<ObjectId>, buffer: BufferId, waiter: Option<Seat>) -> Told {
        let is_suspect = self.buffer(buffer).map_or(false, |it| it.is_suspect);
        self.owe(seat, Item::Complete(is_suspect), false);
        let turns = target.and_then(|it| self.objects.get_mut(it)).map(|it| {
            it.turns.push_back(buffer.1);
            it.turns.len()
        });
        if turns.map_or(true, |it| it == 1) {
            self.call_comes(buffer, waiter);
        }
        self.follow();
        Told::Accepted
    }

    fn commit_reply(&mut self, seat: Seat, frame: Option<FrameId>, delivered: Result<BufferId, u8>) -> Told {
        let frame = match frame {
            // It closed while the reply was under way, as its server has ended.
            Some(id) => self.close(id).map(|it| (id, it.caller)),
            None => None,
        };
        let (call, caller) = match frame {
            Some(found) => found,
            None => {
                self.owe(seat, Item::Refusal(BR_FAILED_REPLY), false);
                self.settle();
                return Told::Stopped(15);
            }
        };
        let told = match (delivered, caller) {
            (Ok(buffer), Some(caller)) => {
                self.owe(seat, Item::Complete(false), false);
                self.owe(caller, Item::Reply(buffer), false);
                Told::Accepted
            }
            (Ok(buffer), None) => {
                self.owe(seat, Item::Refusal(BR_TRANSACTION_COMPLETE), false);
                self.end_buffer(buffer);
                Told::Stopped(16)
            }
            (Err(cause), caller) => {
                self.owe(seat, Item::Refusal(BR_TRANSACTION_COMPLETE), false);
                if let Some(caller) = caller {
                    self.owe_verdict(caller, BR_FAILED_REPLY, call);
                }
                Told::Stopped(cause)
            }
        };
        if told == Told::Accepted {
            self.follow();
        } else {
            self.settle();
        }
        told
    }

    /// A call gets its item: on the list of a thread that waits for it, else on its process's.
    fn call_comes(&mut self, buffer: BufferId, waiting: Option<Seat>) {
        match waiting.or_else(|| self.wake(buffer.0)) {
            Some(seat) => self.owe(seat, Item::Call(buffer), false),
            None => self.queue(Item::Call(buffer), List::Process(buffer.0)),
        }
    }
}
