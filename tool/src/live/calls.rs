// SPDX-License-Identifier: Apache-2.0 OR MIT
//! Calls, put together from a device's steps. Who begins to look in the midst of things knows nothing of what was before, and what
//! doesn't fit together is passed over.
use super::slot::{Came, Did, Party, Slot};
use crate::aidl;
use crate::codes::{BC_REPLY, BC_TRANSACTION, BR_DEAD_REPLY, BR_FAILED_REPLY, BR_REPLY, BR_TRANSACTION};
use crate::parcel::{letters, text_at, token};
use crate::refusals::Reason;
use std::collections::{HashMap, VecDeque};

type Object = (u64, u32);

/// A call that somebody has made.
#[derive(Clone, Debug)]
pub struct Call {
    pub place: u64,
    /// When it was made and read, in nanoseconds of the monotonic clock.
    pub made: u64,
    pub taken: Option<u64>,
    pub from: Party,
    /// The pid in the history of who is called; None where the call was refused.
    pub to: Option<u32>,
    /// Who serves the call, once its transaction was read.
    pub server: Option<Party>,
    /// What the object that is called goes by, and its interface.
    pub what: String,
    pub interface: Option<String>,
    /// What its method was called with, where that is known.
    pub arguments: Option<String>,
    pub code: u32,
    pub one_way: bool,
    pub size: u64,
    pub reply_size: u64,
}

/// How a call ended.
#[derive(Clone, Copy, Debug, PartialEq, Eq)]
pub enum End {
    /// Its reply was read; or itself, where it is one-way.
    Done,
    /// Its caller has read that there will be no reply.
    Failed,
    Refused(Reason),
    /// Its caller's thread or process has ended.
    Left,
}

#[derive(Clone, Debug)]
pub struct Ended {
    pub call: Call,
    pub end: End,
    /// When, in nanoseconds of the monotonic clock.
    pub time: u64,
}

impl Ended {
    pub fn took(&self) -> u64 {
        self.time.saturating_sub(self.call.made)
    }
}

/// `3`, or `_PNG`: the way codes are told where lines are short.
pub fn short_code(code: u32) -> String {
    letters(code).map_or_else(|| format!("#{code}"), |it| format!(" {it}"))
}

/// What is known of a seat's thread.
#[derive(Debug, Default)]
struct Seat {
    process: u32,
    /// The places of two-way calls that it waits for, and of those that it serves, the innermost last.
    waits: Vec<u64>,
    serves: Vec<u64>,
    /// How many refusals stand on its list that it hasn't read.
    refused: u32,
}

#[derive(Debug, Default)]
pub struct Calls {
    open: HashMap<u64, Call>,
    seats: HashMap<u32, Seat>,
    /// One-way calls that nobody has read, by who is called, oldest first.
    unread: HashMap<u32, VecDeque<u64>>,
    /// What each process is called: as its first thread, or the one that was met first.
    parties: HashMap<u32, Party>,
    interfaces: HashMap<Object, String>,
    services: HashMap<Object, String>,
}

impl Calls {
    /// Takes a step, and gives the calls that have ended by it.
    pub fn step(&mut self, slot: &Slot) -> Vec<Ended> {
        // The daemon's own seat begins and ends processes for them.
        if slot.seat != 0 {
            self.meet(slot);
        }
        match (slot.did, slot.came) {
            (Did::Command, came) if slot.command == BC_TRANSACTION => self.sent(slot, came).into_iter().collect(),
            (Did::Command, _) if slot.command == BC_REPLY => {
                self.replied(slot);
                Vec::new()
            }
            (Did::Read, Came::Got) => self.read(slot).into_iter().collect(),
            (Did::ExitThread, _) => self.leave(slot, |number, _| number == slot.seat),
            (Did::ExitProcess, _) => self.leave(slot, |_, seat| seat.process == slot.party.process),
            _ => Vec::new(),
        }
    }

    /// What is known of a process by its pid in the history.
    pub fn party(&self, process: u32) -> Option<&Party> {
        self.parties.get(&process)
    }

    /// Calls that have not ended.
    pub fn open(&self) -> impl Iterator<Item = &Call> {
        self.open.values()
    }

    fn meet(&mut self, slot: &Slot) {
        let party = &slot.party;
        self.seats.entry(slot.seat).or_default().process = party.process;
        let is_first = party.tid == Some(party.pid);
        let known = self.parties.entry(party.process).or_insert_with(|| party.clone());
        if is_first || known.pid != party.pid {
            *known = party.clone();
        }
    }

    fn seat(&mut self, slot: &Slot) -> &mut Seat {
        self.seats.entry(slot.seat).or_default()
    }

    fn sent(&mut self, slot: &Slot, came: Came) -> Option<Ended> {
        self.learn(slot);
        let call = Call {
            place: slot.place,
            made: slot.time,
            taken: None,
            from: slot.party.clone(),
            to: Some(slot.other).filter(|_| came == Came::Accepted),
            server: None,
            what: self.what(slot),
            interface: slot.object.and_then(|it| self.interfaces.get(&it).cloned()),
            arguments: aidl::arguments(slot.code, &slot.data),
            code: slot.code,
            one_way: slot.is_one_way(),
            size: slot.data_size,
            reply_size: 0,
        };
        if let Came::Refused(reason) = came {
            self.seat(slot).refused += 1;
            return Some(Ended { call, end: End::Refused(reason), time: slot.time });
        }
        if call.one_way {
            self.unread.entry(slot.other).or_default().push_back(slot.place);
        } else {
            self.seat(slot).waits.push(slot.place);
        }
        self.open.insert(slot.place, call);
        None
    }

    /// What an object is called: as it was registered, by its interface, or by its number.
    fn what(&self, slot: &Slot) -> String {
        let object = match slot.object {
            Some(object) => object,
            None => return format!("handle {}", slot.handle),
        };
        let known = self.services.get(&object).or_else(|| self.interfaces.get(&object));
        known.cloned().unwrap_or_else(|| format!("{}.{}", object.0, object.1))
    }

    /// What a parcel tells of the object that is called, and of one that is registered with a manager by it.
    fn learn(&mut self, slot: &Slot) {
        let (object, token) = match (slot.object, token(&slot.data)) {
            (Some(object), Some(token)) => (object, token),
            _ => return,
        };
        if slot.handle == 0 && slot.offsets_size == 8 {
            if let Some(name) = text_at(&slot.data, token.end) {
                // An object that is sent for the first time is of the step that sends it.
                self.services.entry((slot.place, 0)).or_insert(name.text);
            }
        }
        self.interfaces.entry(object).or_insert(token.text);
    }

    fn replied(&mut self, slot: &Slot) {
        let served = self.seat(slot).serves.pop();
        if let Some(call) = served.and_then(|it| self.open.get_mut(&it)) {
            call.reply_size = slot.data_size;
        }
        if let Came::Refused(_) = slot.came {
            self.seat(slot).refused += u32::from(served.is_none());
        }
    }

    fn read(&mut self, slot: &Slot) -> Option<Ended> {
        let ended = |call: Call, end: End| Ended { call, end, time: slot.time };
        match slot.command {
            BR_TRANSACTION => match slot.call {
                Some(place) => {
                    self.seat(slot).serves.push(place);
                    self.taken(place, slot);
                    None
                }
                None => self.read_one_way(slot).map(|it| ended(it, End::Done)),
            },
            BR_REPLY => self.waited(slot).map(|it| ended(it, End::Done)),
            BR_DEAD_REPLY | BR_FAILED_REPLY if self.seat(slot).refused > 0 => {
                self.seat(slot).refused -= 1;
                None
            }
            BR_DEAD_REPLY | BR_FAILED_REPLY => self.waited(slot).map(|it| ended(it, End::Failed)),
            _ => None,
        }
    }

    fn taken(&mut self, place: u64, slot: &Slot) {
        if let Some(call) = self.open.get_mut(&place) {
            call.taken = Some(slot.time);
            call.server = Some(slot.party.clone());
        }
    }

    /// The innermost call that a thread waits for.
    fn waited(&mut self, slot: &Slot) -> Option<Call> {
        let place = self.seat(slot).waits.pop()?;
        self.open.remove(&place)
    }

    /// The oldest one-way call that is like the one that is read, whose place the read doesn't tell.
    fn read_one_way(&mut self, slot: &Slot) -> Option<Call> {
        let unread = self.unread.get_mut(&slot.party.process)?;
        let open = &self.open;
        let is_like = |it: &Call| it.code == slot.code && it.size == slot.data_size;
        let at = unread.iter().position(|it| open.get(it).map_or(false, is_like))?;
        let place = unread.remove(at)?;
        self.taken(place, slot);
        self.open.remove(&place)
    }

    /// Threads end, and what they wait for is nobody's any more.
    fn leave(&mut self, slot: &Slot, ends: impl Fn(u32, &Seat) -> bool) -> Vec<Ended> {
        let mut left: Vec<u64> = Vec::new();
        self.seats.retain(|number, seat| {
            let is_over = ends(*number, seat);
            if is_over {
                left.append(&mut seat.waits);
            }
            !is_over
        });
        if slot.did == Did::ExitProcess {
            left.extend(self.unread.remove(&slot.party.process).into_iter().flatten());
        }
        left.sort_unstable();
        let calls = left.into_iter().filter_map(|it| self.open.remove(&it));
        calls.map(|call| Ended { call, end: End::Left, time: slot.time }).collect()
    }
}
