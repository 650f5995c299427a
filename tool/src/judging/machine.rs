// SPDX-License-Identifier: Apache-2.0 OR MIT
//! One step of a recording, made on the model: whether the rules answer it as the driver did.
use super::steps::*;
use crate::codes::*;
use crate::record::RECORD_SIZE;
use crate::rules::{BufferId, Item, List, ProcessId, Request, Seat, Space, Told, Way, PID};
use std::collections::HashMap;

/// What the driver wants to be free beyond the longest return, so that rules that are asked with so much less take no item that it
/// leaves.
const MORE_ROOM: u32 = 8;

/// What a step came to.
pub enum Came {
    Opened,
    Set(bool),
    Exited,
    Told(Told),
    Got(crate::rules::Got),
    Nothing,
    /// It was half of one.
    Half,
}

pub struct Machine<'a> {
    pub recording: &'a Recording,
    /// Which tracks a process has.
    tracks_of: Vec<Vec<usize>>,
    /// By the driver's number of a transaction, which read has got it.
    arrivals: HashMap<u64, (usize, usize)>,
    /// .. and which step has brought it to a list.
    senders: HashMap<u64, u64>,
    /// What the trace tells of the order: which steps have to wait for which.
    facts: HashMap<u64, Vec<u64>>,
}

/// A call that was read: by which track and when, and which step had brought it to a list.
#[derive(Clone, Copy)]
struct Reading {
    begin: u64,
    end: u64,
    track: usize,
    sent: u64,
}

/// How many calls a thread waits for the end of, after a step more.
fn waiting_after(waits: u32, step: &Step) -> u32 {
    match (&step.act, &step.wanted) {
        (Act::Command(command) | Act::Number(command), wanted) => {
            let is_call = command.message.code.number == BC_TRANSACTION;
            let is_one_way = command.message.record().map_or(false, |it| it.is_one_way());
            waits + u32::from(is_call && !is_one_way && !matches!(wanted, Wanted::Refused))
        }
        (Act::Read(_), Wanted::Got(got)) => {
            let ends = |it: &(u32, u64)| matches!(it.0, BR_REPLY | BR_DEAD_REPLY | BR_FAILED_REPLY);
            waits - u32::from(waits > 0 && got.kinds.iter().any(ends))
        }
        (Act::ExitThread, _) => 0,
        _ => waits,
    }
}

pub fn process_id(process: usize) -> ProcessId {
    process as ProcessId + 1
}

pub fn is_made(done: &[u32], number: u64) -> bool {
    done[(number >> 32) as usize] > number as u32
}

fn is_notice(code: u32) -> bool {
    matches!(code, BR_INCREFS | BR_ACQUIRE | BR_RELEASE | BR_DECREFS)
}

impl<'a> Machine<'a> {
    pub fn new(recording: &'a Recording) -> Machine<'a> {
        let mut machine = Machine {
            recording,
            tracks_of: vec![Vec::new(); recording.processes.len()],
            arrivals: HashMap::new(),
            senders: HashMap::new(),
            facts: HashMap::new(),
        };
        for (number, track) in recording.tracks.iter().enumerate() {
            machine.tracks_of[track.process].push(number);
            for (index, step) in track.steps.iter().enumerate() {
                machine.note(step_number(number, index), step);
            }
        }
        machine.find_facts();
        machine
    }

    fn note(&mut self, number: u64, step: &Step) {
        match (&step.act, step.id) {
            (Act::Read(_), Some(id)) => {
                self.arrivals.insert(id, ((number >> 32) as usize, number as u32 as usize));
            }
            (Act::Command(command), Some(id)) if command.message.record().is_some() => {
                self.senders.insert(id, number);
            }
            (Act::Queue, Some(id)) => {
                self.senders.insert(id, number);
            }
            _ => {}
        }
    }

    /// Calls are read in the order in which they were queued: two-way ones by threads that wait for no reply, one after the other, and
    /// one-way ones on one object.
    fn find_facts(&mut self) {
        let mut one_way: HashMap<(usize, u64), Vec<Reading>> = HashMap::new();
        let mut two_way: HashMap<usize, Vec<Reading>> = HashMap::new();
        for (number, track) in self.recording.tracks.iter().enumerate() {
            let mut waits = 0;
            for step in &track.steps {
                waits = waiting_after(waits, step);
                let got = match &step.wanted {
                    Wanted::Got(got) => got,
                    _ => continue,
                };
                let sender = step.id.and_then(|it| self.senders.get(&it)).copied();
                if let (Some(sent), Some((BR_TRANSACTION, _))) = (sender, got.kinds.last()) {
                    let record = crate::record::Record::read(&got.stream[got.stream.len() - RECORD_SIZE..]);
                    let reading = Reading { begin: step.begin, end: step.end, track: number, sent };
                    if record.is_one_way() {
                        one_way.entry((track.process, record.target)).or_default().push(reading);
                    } else if waits == 0 {
                        two_way.entry(track.process).or_default().push(reading);
                    }
                }
            }
        }
        for mut all in one_way.into_values() {
            all.sort_unstable_by_key(|it| it.end);
            for pair in all.windows(2) {
                self.facts.entry(pair[1].sent).or_default().push(pair[0].sent);
            }
        }
        two_way.into_values().for_each(|it| self.order_readings(it));
    }

    /// Of calls that were read by threads of one process, each came behind those that had been read before its reader began.
    fn order_readings(&mut self, mut all: Vec<Reading>) {
        all.sort_unstable_by_key(|it| it.end);
        for at in 0..all.len() {
            let it = all[at];
            let mut seen = Vec::new();
            for before in all[..at].iter().rev().take(64) {
                let is_before = before.track == it.track || before.end < it.begin;
                if is_before && !seen.contains(&before.track) {
                    seen.push(before.track);
                    self.facts.entry(it.sent).or_default().push(before.sent);
                }
            }
        }
    }

    pub fn tracks_of(&self, process: ProcessId) -> &[usize] {
        &self.tracks_of[process as usize - 1]
    }

    /// What the read of a transaction has got, and which step has brought it to a list.
    pub fn arrival(&self, id: Option<u64>) -> Option<&'a Got> {
        let (track, index) = *id.and_then(|it| self.arrivals.get(&it))?;
        match &self.step(track, index as u32)?.wanted {
            Wanted::Got(got) => Some(got),
            _ => None,
        }
    }

    pub fn sender(&self, id: u64) -> Option<u64> {
        self.senders.get(&id).copied()
    }

    /// Whether a step has to wait for another that isn't made, by what the trace tells.
    pub fn waits_for_fact(&self, done: &[u32], number: u64) -> bool {
        self.facts.get(&number).map_or(false, |it| it.iter().any(|it| !is_made(done, *it)))
    }

    pub fn reads_as(&self, space: &Space, seat: Seat, item: &Item, kind: (u32, u64), id: Option<u64>) -> bool {
        reads_as(space, seat, item, kind, id)
    }

    /// The next step of each track that has one.
    pub fn heads<'b>(&'b self, done: &'b [u32]) -> impl Iterator<Item = (usize, &'a Step)> + 'b {
        done.iter().enumerate().filter_map(move |(track, index)| Some((track, self.step(track, *index)?)))
    }

    /// Whether nothing is left that has to be made.
    pub fn is_over(&self, done: &[u32]) -> bool {
        // What comes behind the other half of a release has to be made too.
        let may_stay = |it: &Step| it.is_maybe || matches!(it.act, Act::End | Act::EndPart(_) | Act::Finish);
        self.recording.tracks.iter().zip(done).all(|(track, done)| {
            let rest = track.steps.get(*done as usize..).unwrap_or(&[]);
            rest.first().map_or(true, may_stay) && rest.iter().all(may_stay)
        })
    }

    pub fn step(&self, track: usize, index: u32) -> Option<&'a Step> {
        self.recording.tracks[track].steps.get(index as usize)
    }

    /// Looks, without changing anything, whether a step could be made.
    pub fn could_be(&self, space: &Space, done: &[u32], track: usize, step: &Step) -> bool {
        let process = self.recording.tracks[track].process;
        match &step.act {
            Act::Open => true,
            Act::Attach => space.processes.has(process_id(process)),
            Act::End => self.tracks_of[process]
                .iter()
                .filter(|it| **it != track)
                .all(|it| self.step(*it, done[*it]).map_or(true, |it| it.is_maybe || matches!(it.act, Act::Finish))),
            Act::EndPart(_) => true,
            _ if !space.threads.has(track as Seat) => false,
            Act::Manager => !matches!(step.wanted, Wanted::Done(is_set) if is_set == space.manager.is_some()),
            Act::Read(_) => self.could_read(space, track as Seat, step),
            _ => true,
        }
    }

    fn could_read(&self, space: &Space, seat: Seat, step: &Step) -> bool {
        let list = space.list_to_read(seat);
        let got = match &step.wanted {
            Wanted::Got(got) => got,
            Wanted::Call(caller) => return could_take(space, list, *caller as Seat),
            Wanted::Own => return list == Some(List::Thread(seat)),
            _ => return list.is_none(),
        };
        let todo = match list.and_then(|it| space.list(it)) {
            Some(todo) => todo,
            None => return false,
        };
        let (mut at, kinds) = (0, &got.kinds);
        for item in todo.iter().map(|it| &it.item) {
            if at >= kinds.len() {
                // Its room was used up.
                return true;
            }
            if let Item::Notice(object) = item {
                while at < kinds.len() && is_notice(kinds[at].0) && kinds[at].1 == object.1 {
                    at += 1;
                }
                continue;
            }
            if !reads_as(space, seat, item, kinds[at], step.id) {
                return false;
            }
            at += 1;
            if matches!(item, Item::Call(_) | Item::Reply(_) | Item::Death(_)) {
                break;
            }
        }
        at == kinds.len()
    }

    /// Makes a step: what it came to, or None where the rules answer otherwise than the driver did.
    pub fn make(&self, space: &mut Space, done: &[u32], track: usize, step: &Step) -> Option<Came> {
        let process = self.recording.tracks[track].process;
        let seat = track as Seat;
        space.begin(step_number(track, done[track] as usize));
        space.transaction = step.id.unwrap_or(0);
        match &step.act {
            Act::Open => {
                let it = &self.recording.processes[process];
                space.open_as(process_id(process), it.model_pid, it.euid, it.window);
                Some(Came::Opened)
            }
            Act::Attach => {
                space.attach(seat, process_id(process));
                Some(Came::Opened)
            }
            Act::Manager => {
                let is_set = space.request(seat, Request::SetManager).is_ok();
                Some(Came::Set(is_set)).filter(|_| matches!(step.wanted, Wanted::Done(it) if it == is_set))
            }
            Act::Spam(on) => space.request(seat, Request::SetSpam(*on)).ok().map(|()| Came::Set(true)),
            Act::ExitThread => space.request(seat, Request::ExitThread).ok().map(|()| Came::Exited),
            Act::End => {
                match space.does(Way::Ended) {
                    true => space.exit_threads(process_id(process)),
                    false => space.exit_process(process_id(process)),
                }
                Some(Came::Exited)
            }
            Act::EndPart(part) => {
                match part {
                    Part::Objects => space.exit_objects(process_id(process)),
                    Part::Names => space.exit_names(process_id(process)),
                    Part::Rest => space.exit_rest(process_id(process)),
                }
                Some(Came::Half)
            }
            Act::Command(command) => self.command(space, done, seat, step, command),
            Act::Hold(command) => {
                space.hold_for(seat, &command.message, command.parcel.as_ref().map(|it| (&*it.0, &*it.1)));
                Some(Came::Half)
            }
            Act::Number(command) => Some(Came::Half).filter(|_| self.number(space, seat, step, command)),
            Act::Queue => Some(self.queue(space, done, seat, step)),
            Act::Finish => {
                space.finish_release(seat, process_id(process));
                Some(Came::Half)
            }
            Act::Read(limit) => self.read(space, seat, step, self.limit(*limit)),
        }
    }

    fn queue(&self, space: &mut Space, done: &[u32], seat: Seat, step: &Step) -> Came {
        let buffer = space.threads.get(seat).and_then(|it| it.half.as_ref()?.delivered.ok());
        let waiter = buffer.and_then(|it| self.who_waits(space, done, it, step.id));
        Came::Told(space.send_second_half(seat, waiter))
    }

    /// What rules that want less room are asked for, so that they take no item that the driver leaves.
    pub fn limit(&self, limit: u32) -> u32 {
        limit.saturating_sub(MORE_ROOM)
    }

    /// The command as the model takes it, with its own pointer of a buffer.
    pub fn message(&self, space: &Space, seat: Seat, command: &Command) -> Message {
        let mut message = command.message;
        if let Payload::Buffer(_) = message.payload {
            let its = space.threads.get(seat).and_then(|it| space.processes.get(it.process));
            let place = its.and_then(|it| it.buffers.iter().find(|it| it.1.key == command.key && command.key > 0));
            message.payload = Payload::Buffer(place.map_or(8, |it| crate::rules::FIRST_POINTER + it.0));
        }
        message
    }

    fn command(&self, space: &mut Space, done: &[u32], seat: Seat, step: &Step, command: &Command) -> Option<Came> {
        let told = if command.message.record().is_some() {
            let parcel = command.parcel.as_ref().map(|it| (&*it.0, &*it.1));
            let half = space.prepare(seat, &command.message, parcel);
            let buffer = half.delivered.ok();
            if !self.arrives_so(space, buffer, step.id) {
                return None;
            }
            let waiter = buffer.and_then(|it| self.who_waits(space, done, it, step.id));
            space.commit(seat, half, waiter)
        } else {
            let message = self.message(space, seat, command);
            space.command(seat, &message, None)
        };
        let is_so = match step.wanted {
            Wanted::Fails => told == Told::Invalid,
            Wanted::Taken => matches!(told, Told::Accepted | Told::Noted(_)),
            Wanted::Refused => matches!(told, Told::Stopped(_)),
            _ => told != Told::Invalid,
        };
        Some(Came::Told(told)).filter(|_| is_so)
    }

    fn number(&self, space: &mut Space, seat: Seat, step: &Step, command: &Command) -> bool {
        let parcel = command.parcel.as_ref().map(|it| (&*it.0, &*it.1));
        let delivered = space.send_first_half(seat, &command.message, parcel);
        let is_so = match step.wanted {
            Wanted::Taken => delivered.is_ok(),
            Wanted::Refused => delivered.is_err(),
            _ => true,
        };
        is_so && self.arrives_so(space, delivered.ok(), step.id)
    }

    /// Whether a parcel is what its reader has got, where the trace tells who that was: so a handle's number is known at once.
    fn arrives_so(&self, space: &Space, buffer: Option<BufferId>, id: Option<u64>) -> bool {
        match (self.arrival(id), buffer.and_then(|it| space.buffer(it))) {
            (Some(got), Some(buffer)) => got.data == buffer.data && got.offsets == buffer.offsets,
            (Some(_), None) => false,
            _ => true,
        }
    }

    /// The thread that waits for nothing else than this call, by what its read has brought: the driver gives it the call, past what
    /// stands on its process's list.
    fn who_waits(&self, space: &Space, done: &[u32], buffer: BufferId, id: Option<u64>) -> Option<Seat> {
        let todo = space.list(List::Process(buffer.0))?;
        if !space.does(Way::Waiter) || todo.is_empty() {
            return None;
        }
        let waits = |track: &usize| {
            let step = self.step(*track, done[*track])?;
            let got = match &step.wanted {
                Wanted::Got(got) => got,
                _ => return None,
            };
            let is_alone = got.kinds.len() == 1 && got.kinds[0].0 == BR_TRANSACTION;
            let thread = space.threads.get(*track as Seat)?;
            let is_it = match (id, step.id) {
                (Some(id), Some(its)) => id == its,
                _ => space
                    .buffer(buffer)
                    .map_or(false, |it| it.data.len() == got.data.len() && it.offsets == got.offsets),
            };
            let is_idle = thread.todo.is_empty() && space.innermost(*track as Seat).is_none();
            Some((step.end, *track)).filter(|_| is_alone && is_it && is_idle)
        };
        let process = buffer.0 as usize - 1;
        self.tracks_of[process].iter().filter_map(waits).min().map(|it| it.1 as Seat)
    }

    fn read(&self, space: &mut Space, seat: Seat, step: &Step, limit: u32) -> Option<Came> {
        let number = space.current;
        let (got, its) = match (space.read(seat, limit), &step.wanted) {
            (Err(12), Wanted::Nothing) => return Some(Came::Nothing),
            (Ok(got), Wanted::Got(its)) => (got, its),
            (Ok(got), Wanted::Call(_) | Wanted::Own) => {
                got.buffer.into_iter().for_each(|it| space.name_buffer(it, number + 1));
                return Some(Came::Got(got));
            }
            _ => return None,
        };
        let mut stream = got.stream.clone();
        if let Some(buffer) = got.buffer {
            space.name_buffer(buffer, number + 1);
            let at = stream.len() - RECORD_SIZE;
            forget_pointers(&mut stream, at);
            let pid = crate::record::u32_at(&stream, at + 24) & PID;
            stream[at + 24..at + 28].copy_from_slice(&pid.to_le_bytes());
        }
        let is_so = same_returns(&its.stream, &stream) && its.data == got.data && its.offsets == got.offsets;
        Some(Came::Got(got)).filter(|_| is_so)
    }
}

/// Whether a process's list has a call of that thread's for who takes it next, perhaps behind notices.
fn could_take(space: &Space, list: Option<List>, caller: Seat) -> bool {
    let process = space.threads.get(caller).map(|it| it.process);
    let is_its = |buffer: BufferId| {
        space.buffer(buffer).map_or(false, |it| match it.frame {
            Some(frame) => space.frames.get(frame).map_or(false, |it| it.caller == Some(caller)),
            None => Some(it.sender) == process,
        })
    };
    let todo = match list {
        Some(List::Process(_)) => list.and_then(|it| space.list(it)),
        _ => None,
    };
    let first = todo.and_then(|it| it.iter().map(|it| it.item).find(|it| !matches!(it, Item::Notice(_))));
    matches!(first, Some(Item::Call(buffer)) if is_its(buffer))
}

/// Two streams of returns, of which one may begin without BR_NOOP, as a read of a second part does.
fn same_returns(one: &[u8], other: &[u8]) -> bool {
    one == other || other.len() == one.len() + 4 && other.ends_with(one) && !one.starts_with(&BR_NOOP.to_le_bytes())
}

/// Whether an item reads as a return, as far as can be told without reading it.
fn reads_as(space: &Space, seat: Seat, item: &Item, kind: (u32, u64), id: Option<u64>) -> bool {
    let (code, word) = kind;
    match *item {
        Item::Notice(_) => false,
        Item::Complete(_) => matches!(code, BR_TRANSACTION_COMPLETE | BR_ONEWAY_SPAM_SUSPECT),
        Item::Refusal(it) | Item::Verdict(it) => code == it,
        Item::Call(buffer) | Item::Reply(buffer) => {
            let is_kind = code == if matches!(item, Item::Call(_)) { BR_TRANSACTION } else { BR_REPLY };
            let sent = space.buffer(buffer).map(|it| it.id);
            is_kind
                && match (sent, id) {
                    (Some(sent), Some(id)) if sent > 0 => sent == id,
                    _ => true,
                }
        }
        Item::Death(number) => {
            let its = space.threads.get(seat).and_then(|it| space.processes.get(it.process));
            let death = its.and_then(|it| it.deaths.iter().find(|it| it.number == number));
            code == BR_DEAD_BINDER && death.map_or(false, |it| it.cookie == word)
        }
        Item::Cleared(cookie) => (code, word) == (BR_CLEAR_DEATH_NOTIFICATION_DONE, cookie),
    }
}
