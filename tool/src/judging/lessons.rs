// SPDX-License-Identifier: Apache-2.0 OR MIT
//! Why no order goes on: which step was made too early, and what has to come before it.
use super::machine::{process_id, Machine};
use super::steps::*;
use crate::codes::*;
use crate::record::{u32_at, u64_at, Kind, Record, OBJECT_SIZE, RECORD_SIZE};
use crate::rules::{Buffer, Item, List, Listed, ObjectId, Past, Process, ProcessId, Seat, Space, PID};

/// A step that has to wait for another one.
pub type Lesson = (u64, u64);

/// How far ahead a thread's steps are looked at.
const AHEAD: usize = 6;

pub struct Lessons<'a> {
    pub machine: &'a Machine<'a>,
    pub space: &'a Space,
    pub done: &'a [u32],
    pub found: Vec<Lesson>,
}

fn is_notice(code: u32) -> bool {
    matches!(code, BR_INCREFS | BR_ACQUIRE | BR_RELEASE | BR_DECREFS)
}

fn is_handle(data: &[u8], at: usize) -> bool {
    [Kind::Handle, Kind::WeakHandle].iter().any(|it| it.number() == u32_at(data, at))
}

/// Whether two parcels are the same but for their objects.
fn same_but_objects(one: &[u8], other: &[u8], offsets: &[u8]) -> bool {
    if one.len() != other.len() {
        return false;
    }
    let mut at = 0;
    for offset in offsets.chunks_exact(8).map(|it| u64_at(it, 0) as usize).filter(|it| *it < one.len()) {
        if offset > at && one[at..offset] != other[at..offset] {
            return false;
        }
        at = at.max((offset + OBJECT_SIZE).min(one.len()));
    }
    one[at..] == other[at..]
}

impl<'a> Lessons<'a> {
    fn add(&mut self, late: Option<u64>, early: Option<u64>) {
        if let (Some(late), Some(early)) = (late, early) {
            if late != early {
                self.found.push((late, early));
            }
        }
    }

    /// What can be learned of the steps that ought to come next, the most pressing first.
    pub fn learn(&mut self, heads: &[(usize, &'a Step)]) {
        for (track, step) in heads {
            if let Act::Command(command) | Act::Number(command) = &step.act {
                self.of_call(*track, step, command);
            }
        }
        for (track, step) in heads {
            if let Act::Read(_) = step.act {
                self.of_read(*track, step);
            }
        }
    }

    fn own(&self, track: usize) -> u64 {
        step_number(track, self.done[track] as usize)
    }

    fn its_process(&self, track: usize) -> (ProcessId, Option<&'a Process>) {
        let id = process_id(self.machine.recording.tracks[track].process);
        (id, self.space.processes.get(id))
    }

    /// Of a call whose handle isn't there any more, what took it away; of one whose objects get other numbers than they had, why.
    fn of_call(&mut self, track: usize, step: &Step, command: &Command) {
        let (own, (id, process)) = (self.own(track), self.its_process(track));
        let (record, process) = match (command.message.record(), process) {
            (Some(record), Some(process)) => (record, process),
            _ => return,
        };
        let is_call = command.message.code.number == BC_TRANSACTION;
        if is_call && matches!(step.wanted, Wanted::Taken) && self.space.callee(id, record.handle()) == Err(1) {
            for freed in process.freed.get(&record.handle()).iter().flat_map(|it| it.iter()) {
                self.add(Some(freed), Some(own));
            }
        }
        if let (Some(got), true) = (self.machine.arrival(step.id), self.space.threads.has(track as Seat)) {
            let mut space = self.space.clone();
            space.begin(own);
            let parcel = command.parcel.as_ref().map(|it| (&*it.0, &*it.1));
            let half = space.prepare(track as Seat, &command.message, parcel);
            if let Some((receiver, buffer)) = half.delivered.ok().and_then(|it| Some((it.0, space.buffer(it)?))) {
                self.of_numbers(receiver, buffer, got, own);
            }
        }
    }

    /// Of a parcel whose handles have other numbers: what was released too early or too late for it.
    fn of_numbers(&mut self, receiver: ProcessId, buffer: &Buffer, got: &Got, sent: u64) {
        let process = match self.space.processes.get(receiver) {
            Some(process) => process,
            None => return,
        };
        for at in got.offsets.chunks_exact(8).map(|it| u64_at(it, 0) as usize) {
            if !is_handle(&got.data, at) || !is_handle(&buffer.data, at) {
                continue;
            }
            let (ours, theirs) = (u32_at(&buffer.data, at + 8), u32_at(&got.data, at + 8));
            if ours == theirs {
                continue;
            }
            for freed in [theirs, ours].iter().filter_map(|it| process.freed.get(it)).flat_map(|it| it.iter()) {
                self.add(Some(freed), Some(sent));
            }
            if let Some(name) = process.names.get(theirs) {
                for release in self.releases_of(receiver, theirs) {
                    self.add(Some(sent), Some(release));
                }
                self.add(name.by.0, Some(sent));
            }
            let freed = process.freed.get(&theirs).and_then(|it| it.iter().next());
            self.add(Some(sent), freed);
        }
    }

    /// What a process's threads may do next that takes a number away.
    fn releases_of(&self, process: ProcessId, number: u32) -> Vec<u64> {
        let mut found = Vec::new();
        for track in self.machine.tracks_of(process) {
            let from = self.done[*track] as usize;
            for (index, step) in self.machine.recording.tracks[*track].steps.iter().enumerate().skip(from).take(AHEAD) {
                let command = match &step.act {
                    Act::Command(command) => command,
                    _ => continue,
                };
                let drops = match command.message.payload {
                    Payload::Handle(handle) => {
                        handle == number && matches!(command.message.code.number, BC_RELEASE | BC_DECREFS)
                    }
                    Payload::Buffer(_) => self.carries(process, command.key, number),
                    _ => false,
                };
                if drops {
                    found.push(step_number(*track, index));
                }
            }
        }
        found
    }

    /// What a process's threads may begin next that holds one of its objects.
    fn holds_of(&self, process: ProcessId, ptr: u64) -> Vec<u64> {
        let mut found = Vec::new();
        for track in self.machine.tracks_of(process) {
            let from = self.done[*track] as usize;
            for (index, step) in self.machine.recording.tracks[*track].steps.iter().enumerate().skip(from).take(AHEAD) {
                let parcel = match &step.act {
                    Act::Hold(command) => command.parcel.as_ref(),
                    _ => None,
                };
                let names = |it: &super::steps::Parcel| {
                    let offsets = it.1.chunks_exact(8).map(|at| u64_at(at, 0) as usize);
                    offsets.filter(|at| at + OBJECT_SIZE <= it.0.len()).any(|at| u64_at(&it.0, at + 8) == ptr)
                };
                if parcel.map_or(false, names) {
                    found.push(step_number(*track, index));
                }
            }
        }
        found
    }

    fn carries(&self, process: ProcessId, key: u64, number: u32) -> bool {
        let its = self.space.processes.get(process);
        let buffer = its.and_then(|it| it.buffers.iter().find(|it| it.1.key == key && key > 0));
        buffer.map_or(false, |it| it.1.entries.iter().any(|it| it.receiver == Some(number)))
    }

    fn of_read(&mut self, track: usize, step: &Step) {
        let (own, seat) = (self.own(track), track as Seat);
        let todo: Vec<Listed> = match self.space.list_to_read(seat).and_then(|it| self.space.list(it)) {
            Some(todo) => todo.iter().copied().collect(),
            None => Vec::new(),
        };
        let got = match &step.wanted {
            Wanted::Got(got) => got,
            Wanted::Call(_) | Wanted::Own => return,
            _ => return self.add(todo.first().and_then(|it| it.by.0), Some(own)),
        };
        let process = self.its_process(track).0;
        self.of_notices(process, got, own);
        if todo.is_empty() && got.kinds.last().map_or(false, |it| it.0 == BR_TRANSACTION) {
            self.of_taken(process, step, got, own);
        }
        let mut at = 0;
        for (place, listed) in todo.iter().enumerate() {
            let by = listed.by.0;
            if let Some(kind) = got.kinds.get(at).filter(|it| !self.begins(seat, listed, **it, step.id)) {
                // What was read first stands further behind: it came too late.
                let other = todo[place..].iter().find(|it| self.begins(seat, it, *kind, step.id));
                let other = other.and_then(|it| it.by.0);
                self.add(by, other);
                self.of_downs(listed, other, own);
            }
            let goes_on = match listed.item {
                Item::Notice(object) => {
                    at += self.of_notice(object, got.kinds.get(at..).unwrap_or(&[]), by, own);
                    true
                }
                item => {
                    at += 1;
                    self.of_item(process, seat, step, got, (item, by), at - 1)
                }
            };
            if !goes_on {
                return;
            }
        }
    }

    /// Of a notice that is read, or isn't: how many returns are its own.
    fn of_notice(&mut self, object: ObjectId, kinds: &[(u32, u64)], by: Option<u64>, own: u64) -> usize {
        let count = kinds.iter().take_while(|it| is_notice(it.0) && it.1 == object.1).count();
        if count == 0 {
            let untold = self.space.objects.get(object).and_then(|it| it.untold.0);
            self.add(untold, by);
            self.add(by, Some(own));
        }
        count
    }

    /// Of another item that is to be read as the return of a number, or isn't: whether one looks at what stands behind it.
    fn of_item(
        &mut self,
        process: ProcessId,
        seat: Seat,
        step: &Step,
        got: &Got,
        (item, by): (Item, Option<u64>),
        at: usize,
    ) -> bool {
        let own = self.own(seat as usize);
        let kind = got.kinds.get(at);
        let fits = kind.map_or(false, |it| self.machine.reads_as(self.space, seat, &item, *it, step.id));
        if let Item::Call(buffer) = item {
            self.of_turn(buffer, by);
            let is_it = fits && self.is_alike(buffer, step, got);
            if kind.map_or(false, |it| it.0 == BR_TRANSACTION) && !is_it {
                match self.wanted(process, step, got, by) {
                    Some(wanted) => self.add(by, Some(wanted)),
                    None => self.of_taken(process, step, got, own),
                }
                self.add(by, Some(own));
                return false;
            }
        }
        if !fits {
            self.add(by, Some(own));
            return false;
        }
        if let Item::Call(buffer) | Item::Reply(buffer) = item {
            if let Some(its) = self.space.buffer(buffer) {
                let sent = its.sent;
                self.of_numbers(process, its, got, sent);
            }
            return false;
        }
        true
    }

    /// Of a call that another read has got which could have come later.
    fn of_taken(&mut self, process: ProcessId, step: &Step, got: &Got, own: u64) {
        let its = match self.space.processes.get(process) {
            Some(its) => its,
            None => return,
        };
        let handed = its.buffers.iter().filter(|it| it.1.key > 0 && it.1.target.is_some());
        let takers: Vec<u64> =
            handed.filter(|it| self.is_alike((process, it.0), step, got)).map(|it| it.1.key - 1).collect();
        for taker in takers {
            let other = self.machine.step((taker >> 32) as usize, taker as u32);
            if other.map_or(false, |it| it.end > step.end) {
                self.add(Some(taker), Some(own));
            }
        }
    }

    /// Of a one-way call that is due before its time: the one before it may have ended later.
    fn of_turn(&mut self, buffer: (ProcessId, u64), by: Option<u64>) {
        let its = self.space.buffer(buffer).filter(|it| it.is_one_way && Some(it.sent) == by);
        let object = its.and_then(|it| self.space.objects.get(it.target?));
        for turned in object.map_or(Past::default(), |it| it.turned).iter().take(2) {
            self.add(Some(turned), by);
        }
    }

    /// Of a notice that stands before its time, what else has let go of its object: one of these may have done so later.
    fn of_downs(&mut self, listed: &Listed, other: Option<u64>, own: u64) {
        let object = match listed.item {
            Item::Notice(object) => self.space.objects.get(object),
            _ => None,
        };
        for down in object.map_or(Past::default(), |it| it.down).iter().skip(1) {
            self.add(Some(down), other);
            self.add(Some(down), Some(own));
        }
    }

    /// Whether an item may read as a return.
    fn begins(&self, seat: Seat, listed: &Listed, kind: (u32, u64), id: Option<u64>) -> bool {
        match listed.item {
            Item::Notice(object) => is_notice(kind.0) && kind.1 == object.1,
            item => self.machine.reads_as(self.space, seat, &item, kind, id),
        }
    }

    /// Of a notice that tells otherwise, what has changed its object too early.
    fn of_notices(&mut self, process: ProcessId, got: &Got, own: u64) {
        for (code, ptr) in got.kinds.iter().filter(|it| is_notice(it.0)) {
            if let Some(object) = self.space.objects.get((process, *ptr)) {
                let by = if matches!(*code, BR_RELEASE | BR_DECREFS) { object.up } else { object.down };
                self.add(by.iter().next(), Some(own));
                let is_half = *code == BR_RELEASE && !got.kinds.contains(&(BR_DECREFS, *ptr));
                if is_half || *code == BR_INCREFS && !got.kinds.contains(&(BR_ACQUIRE, *ptr)) {
                    let other = if is_half { object.down } else { object.up };
                    self.add(other.iter().next(), Some(own));
                }
                if is_half {
                    for hold in self.holds_of(process, *ptr) {
                        self.add(Some(own), Some(hold));
                    }
                }
            }
        }
    }

    /// Whether a call is the one that was read, but for the numbers of handles.
    fn is_alike(&self, buffer: (ProcessId, u64), step: &Step, got: &Got) -> bool {
        let its = match self.space.buffer(buffer) {
            Some(its) => its,
            None => return false,
        };
        if let (Some(id), true) = (step.id, its.id > 0) {
            return its.id == id;
        }
        let pid = self.space.processes.get(its.sender).map_or(0, |it| it.pid & PID);
        let record = Record::read(&got.stream[got.stream.len().saturating_sub(RECORD_SIZE)..]);
        (its.code, its.flags) == (record.code, record.flags)
            && its.target.map_or(false, |it| it.1 == record.target)
            && [0, pid as i32].contains(&record.sender_pid)
            && its.offsets == got.offsets
            && same_but_objects(&its.data, &got.data, &got.offsets)
    }

    /// Which call a read has got, of those that are made and unread, or that may come next.
    fn wanted(&self, process: ProcessId, step: &Step, got: &Got, first: Option<u64>) -> Option<u64> {
        if let Some(sender) = step.id.and_then(|it| self.machine.sender(it)) {
            return Some(sender);
        }
        let todo = self.space.list(List::Process(process))?;
        let other = todo.iter().filter(|it| it.by.0 != first).find(|it| match it.item {
            Item::Call(buffer) => self.is_alike(buffer, step, got),
            _ => false,
        });
        other.and_then(|it| it.by.0).or_else(|| self.sent_next(step, got))
    }

    fn sent_next(&self, step: &Step, got: &Got) -> Option<u64> {
        let record = Record::read(&got.stream[got.stream.len().saturating_sub(RECORD_SIZE)..]);
        for (number, track) in self.machine.recording.tracks.iter().enumerate() {
            let pid = self.machine.recording.processes[track.process].pid as i32;
            let from = self.done[number] as usize;
            for (index, other) in track.steps.iter().enumerate().skip(from).take(AHEAD) {
                let (command, more) = match &other.act {
                    Act::Command(command) => (command, 0),
                    Act::Number(command) => (command, 1),
                    _ => continue,
                };
                let sent = match (command.message.record(), &command.parcel) {
                    (Some(sent), Some(parcel)) if command.message.code.number == BC_TRANSACTION => (sent, parcel),
                    _ => continue,
                };
                let is_it = (sent.0.code, sent.0.flags) == (record.code, record.flags)
                    && [0, pid].contains(&record.sender_pid)
                    && other.begin <= step.end
                    && sent.1 .1 == got.offsets
                    && same_but_objects(&sent.1 .0, &got.data, &got.offsets);
                if is_it {
                    return Some(step_number(number, index + more));
                }
            }
        }
        None
    }
}
