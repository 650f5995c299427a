// SPDX-License-Identifier: Apache-2.0 OR MIT
//! A recording as steps of the rules: of each thread, in its own order, each with when it can have been made and what came of it.
use super::files::{Asked, Call, Files, Opened, WriteRead};
use super::trace::{self, Trace, Traced};
use crate::codes::{self, *};
use crate::record::{u32_at, u64_at, Record, RECORD_SIZE};
use crate::rules::{Way, Ways, PID};
use anyhow::{ensure, Result};
use std::collections::{BTreeMap, HashMap, HashSet};
use std::rc::Rc;

/// A time that never comes.
pub const NEVER: u64 = u64::MAX >> 1;
/// The kernel's trace is cut to microseconds.
const MICRO: u64 = 1000;

const BC_REGISTER_LOOPER: u32 = 0x630b;
const BC_TRANSACTION_SG: u32 = 0x4048_6311;
const BC_REPLY_SG: u32 = 0x4048_6312;
const BR_SPAWN_LOOPER: u32 = 0x720d;
const BR_OK: u32 = 0x7201;

/// The limit of a read, with what the driver wants beyond the rules, that has room for one item.
const ONE_ITEM: u32 = 80;

const SET_CONTEXT_MGR: u32 = 0x4004_6207;
const SET_CONTEXT_MGR_EXT: u32 = 0x4018_620d;
const THREAD_EXIT: u32 = 0x4004_6208;
const SPAM_DETECTION: u32 = 0x4004_6210;

const EINTR: i32 = 4;
const EAGAIN: i32 = 11;
const EBUSY: i32 = 16;

/// A parcel's data and offsets.
pub type Parcel = (Rc<[u8]>, Rc<[u8]>);

#[derive(Clone, Debug)]
pub struct Command {
    pub message: Message,
    pub bytes: Rc<[u8]>,
    pub parcel: Option<Parcel>,
    /// Of BC_FREE_BUFFER, what its buffer is called since it was read.
    pub key: u64,
}

#[derive(Clone, Debug)]
pub enum Act {
    Open,
    Attach,
    Manager,
    Spam(bool),
    ExitThread,
    /// A process ends; or in parts, of which this is the first one: its threads end.
    End,
    EndPart(Part),
    Command(Command),
    /// A transaction or reply in parts: it holds its target and its objects, its objects get their numbers, and it comes to a list.
    Hold(Command),
    Number(Command),
    Queue,
    /// The other half of what a command has released.
    Finish,
    Read(u32),
}

/// What of a process goes behind its threads where it ends in parts.
#[derive(Clone, Copy, Debug)]
pub enum Part {
    Objects,
    Names,
    Rest,
}

/// What a read has got: returns without BR_NOOP, as codes with a ptr or a cookie, and the parcel.
#[derive(Clone, Debug, PartialEq, Eq)]
pub struct Got {
    /// Without pointers of buffers, which differ from the model's.
    pub stream: Vec<u8>,
    pub kinds: Vec<(u32, u64)>,
    pub data: Rc<[u8]>,
    pub offsets: Rc<[u8]>,
}

/// What came of a step, as far as that is known.
#[derive(Clone, Debug)]
pub enum Wanted {
    Any,
    /// A command was taken; refused; or it is the one at which a write fails.
    Taken,
    Refused,
    Fails,
    Done(bool),
    Got(Got),
    Nothing,
    /// Of who wasn't recorded: a call of that track's thread, or what there is of its own.
    Call(usize),
    Own,
}

#[derive(Clone, Debug)]
pub struct Step {
    pub act: Act,
    pub begin: u64,
    pub end: u64,
    /// When it was likely made.
    pub at: u64,
    pub wanted: Wanted,
    /// The driver's number of the transaction that is sent or read.
    pub id: Option<u64>,
    /// Whether it may never have been made, as its call never came back.
    pub is_maybe: bool,
    /// Of a read, when each return was written, where that is known.
    pub returns: Vec<u64>,
    /// Of a command, when it was begun, and when its objects had their numbers, where that is known.
    pub begun: Option<u64>,
    pub numbered: Option<u64>,
}

#[derive(Clone, Debug)]
pub struct Process {
    pub pid: u32,
    /// Its pid in the model, of which no two have the same.
    pub model_pid: u32,
    pub euid: u32,
    pub window: u64,
    pub device: String,
    pub(super) opened: u64,
    pub(super) open_end: u64,
    pub(super) last: u64,
    pub(super) closed: Option<u64>,
}

/// A thread's steps; or those of a process, which opens and ends: then there is no tid.
#[derive(Clone, Debug)]
pub struct Track {
    pub process: usize,
    pub tid: Option<u32>,
    pub name: String,
    pub steps: Vec<Step>,
    /// Of each step, which one it was or is a part of as it was recorded.
    pub parts_of: Vec<u32>,
}

#[derive(Clone, Debug, Default)]
pub struct Recording {
    pub processes: Vec<Process>,
    pub tracks: Vec<Track>,
    /// What couldn't be seen, or isn't in the rules, with how often.
    pub left_out: BTreeMap<String, u64>,
    pub is_traced: bool,
    pub ahead: u64,
    /// How many calls went to processes that weren't recorded, for which one stands in.
    pub absent: usize,
    of_file: HashMap<Opened, usize>,
    /// What was read into which process at which address: when, and which step that was.
    deliveries: HashMap<(usize, u64), Vec<(u64, u64)>>,
    by_id: HashMap<u64, u64>,
    /// Replies that the trace has: their tracks, places and callers' threads.
    replies: Vec<(usize, usize, u32)>,
}

/// What a step is called, so that no two are alike: its track and its number there.
pub fn step_number(track: usize, index: usize) -> u64 {
    (track as u64) << 32 | index as u64
}

fn padded(size: usize) -> usize {
    size.saturating_add(7) & !7
}

fn is_parcel(code: u32) -> bool {
    matches!(code, BC_TRANSACTION | BC_REPLY | BC_TRANSACTION_SG | BC_REPLY_SG)
}

impl Recording {
    /// The steps on one device; where none is named, the one that most processes have opened.
    pub fn read(path: &str, device: Option<&str>) -> Result<Recording> {
        let files = Files::read(path)?;
        let trace = files.trace.as_deref().map(trace::read).unwrap_or_default();
        let mut found = Recording { is_traced: !trace.is_empty(), ..Recording::default() };
        found.ahead = files.threads.first().map_or(0, |it| it.ahead);
        let device = device.map(String::from).or_else(|| most_opened(&files));
        found.find_processes(&files, device.as_deref().unwrap_or(""));
        ensure!(!found.processes.is_empty(), "nobody has opened {}", device.as_deref().unwrap_or("a device"));
        found.make_tracks(&files, &trace);
        found.name_buffers();
        found.foresee();
        found.foresee_replies();
        found.match_calls();
        found.add_absent();
        found.add_processes();
        Ok(found)
    }

    pub fn size(&self) -> usize {
        self.tracks.iter().map(|it| it.steps.len()).sum()
    }

    pub fn threads(&self) -> usize {
        self.tracks.iter().filter(|it| it.tid.is_some()).count()
    }

    fn leave_out(&mut self, what: impl Into<String>) {
        *self.left_out.entry(what.into()).or_insert(0) += 1;
    }

    /// Each open file of the device is a process of the driver.
    fn find_processes(&mut self, files: &Files, device: &str) {
        let mut calls: Vec<&Call> = files.threads.iter().flat_map(|it| &it.calls).collect();
        calls.sort_by_key(|it| it.begin);
        for call in calls {
            let end = call.end.unwrap_or(call.begin);
            match &call.what {
                Asked::Open { file, euid, path } if path == device => {
                    let again = self.processes.iter().filter(|it| it.pid == file.0).count() as u32;
                    self.of_file.insert(*file, self.processes.len());
                    self.processes.push(Process {
                        pid: file.0,
                        model_pid: file.0 & PID | (again & 0x7f) << 24,
                        euid: *euid,
                        window: 0,
                        device: path.clone(),
                        opened: call.begin,
                        open_end: end,
                        last: end,
                        closed: None,
                    });
                }
                Asked::Window { file, size } => {
                    if let Some(it) = self.of_file.get(file).and_then(|it| self.processes.get_mut(*it)) {
                        it.window = (size.saturating_add(4095) & !4095).min(4 << 20);
                        it.open_end = it.open_end.max(end);
                    }
                }
                Asked::Close { file } => {
                    if let Some(it) = self.of_file.get(file).and_then(|it| self.processes.get_mut(*it)) {
                        it.closed = it.closed.or(Some(call.begin));
                    }
                }
                _ => {}
            }
        }
    }

    fn make_tracks(&mut self, files: &Files, trace: &Trace) {
        for thread in &files.threads {
            if thread.missed > 0 {
                *self.left_out.entry("calls that weren't kept".into()).or_insert(0) += thread.missed;
            }
            let traced = trace.get(&thread.tid).map_or(&[][..], |it| it);
            let mut at = 0;
            for call in &thread.calls {
                let file = match &call.what {
                    Asked::Ioctl { file, .. } => *file,
                    Asked::WriteRead(it) => it.file,
                    _ => continue,
                };
                let its = self.of_file.get(&file).copied();
                let process = match its.filter(|it| self.processes[*it].window > 0) {
                    Some(process) => process,
                    None => continue,
                };
                let track = self.track_of(process, thread.tid, &thread.name);
                let last = call.end.unwrap_or(call.begin);
                self.processes[process].last = self.processes[process].last.max(last);
                self.attach(track, call.begin);
                match &call.what {
                    Asked::Ioctl { request, argument, result, error, .. } => {
                        self.add_ioctl(track, call, *request, *argument, *result, *error)
                    }
                    Asked::WriteRead(asked) => {
                        while traced.get(at).map_or(false, |it| it.begin + MICRO < call.begin) {
                            at += 1;
                        }
                        let told = traced.get(at).filter(|it| it.begin <= last);
                        at += usize::from(told.is_some());
                        self.add_write_read(track, call, asked, told);
                    }
                    _ => {}
                }
            }
        }
    }

    fn track_of(&mut self, process: usize, tid: u32, name: &str) -> usize {
        let found = self.tracks.iter().position(|it| (it.process, it.tid) == (process, Some(tid)));
        found.unwrap_or_else(|| {
            let name = name.into();
            self.tracks.push(Track { process, tid: Some(tid), name, steps: Vec::new(), parts_of: Vec::new() });
            self.tracks.len() - 1
        })
    }

    fn push(&mut self, track: usize, act: Act, begin: u64, end: u64, at: u64, wanted: Wanted) -> &mut Step {
        let steps = &mut self.tracks[track].steps;
        let (returns, begun, numbered) = (Vec::new(), None, None);
        steps.push(Step { act, begin, end, at, wanted, id: None, is_maybe: false, returns, begun, numbered });
        steps.last_mut().expect("the step that was pushed")
    }

    /// A thread is one of the driver's from its first call on.
    fn attach(&mut self, track: usize, begin: u64) {
        let is_new = self.tracks[track].steps.last().map_or(true, |it| matches!(it.act, Act::ExitThread));
        if is_new {
            let open_end = self.processes[self.tracks[track].process].open_end;
            let since = self.tracks[track].steps.last().map_or(open_end, |it| it.begin);
            self.push(track, Act::Attach, since.min(begin), NEVER, begin, Wanted::Any);
        }
    }

    fn add_ioctl(&mut self, track: usize, call: &Call, request: u32, argument: u32, result: i32, error: i32) {
        let (begin, end) = (call.begin, call.end.unwrap_or(NEVER));
        match request {
            SET_CONTEXT_MGR | SET_CONTEXT_MGR_EXT if result == 0 || error == EBUSY => {
                self.push(track, Act::Manager, begin, end, begin, Wanted::Done(result == 0));
            }
            THREAD_EXIT => {
                self.push(track, Act::ExitThread, begin, end, begin, Wanted::Any);
            }
            SPAM_DETECTION if result == 0 => {
                self.push(track, Act::Spam(argument != 0), begin, end, begin, Wanted::Any);
            }
            _ => {}
        }
    }

    fn add_write_read(&mut self, track: usize, call: &Call, asked: &WriteRead, traced: Option<&Traced>) {
        if asked.is_part {
            self.leave_out("calls of which a part couldn't be read");
        }
        let failed = asked.result != 0;
        self.add_commands(track, call, asked, traced);
        let all_written = asked.write_consumed >= asked.write_size;
        let is_read = asked.read_size > asked.read_before && call.end.is_some();
        if !is_read || failed && !all_written && ![EINTR, EAGAIN].contains(&asked.error) {
            return;
        }
        let end = call.end.unwrap_or(NEVER);
        let limit = (asked.read_size - asked.read_before).min(u64::from(u32::MAX)) as u32;
        if !failed {
            self.add_read(track, (call.begin, end), limit, asked, traced);
        } else if asked.error == EAGAIN {
            self.push(track, Act::Read(limit), call.begin, end, end, Wanted::Nothing);
        }
    }

    fn add_commands(&mut self, track: usize, call: &Call, asked: &WriteRead, traced: Option<&Traced>) {
        let is_over = call.end.is_some();
        let consumed = if is_over { asked.write_consumed.saturating_sub(asked.write_before) } else { u64::MAX };
        let (mut at, mut parcel_at, mut place) = (0usize, 0usize, 0usize);
        while at + 4 <= asked.written.len() {
            let code = u32_at(&asked.written, at);
            let next = at + 4 + (code >> 16 & 0x3fff) as usize;
            if next > asked.written.len() {
                break;
            }
            let command = self.command(&asked.written[at..next], &asked.sent, &mut parcel_at);
            let when = when_written(call, traced, place);
            if next as u64 > consumed {
                if let (Some(command), true) = (command, asked.result != 0 && ![EINTR, EAGAIN].contains(&asked.error)) {
                    self.push(track, Act::Command(command), when.0, when.1, when.0, Wanted::Fails);
                }
                break;
            }
            if let Some(command) = command {
                let command_is_parcel = command.message.record().is_some();
                // A refused transaction ends its write.
                let goes_on = (next as u64) < consumed && is_over;
                let numbered = traced.and_then(|it| it.numbered.get(&place)).copied();
                let step = self.push(track, Act::Command(command), when.0, when.1, when.0, Wanted::Any);
                step.id = traced.and_then(|it| it.sent.get(&place).or_else(|| it.freed.get(&place))).copied();
                step.is_maybe = !is_over;
                step.begun = traced.and_then(|it| it.begun.get(&place)).copied();
                step.numbered = numbered.map(|it| it.1);
                step.at = step.numbered.or(step.begun).unwrap_or(step.at);
                if command_is_parcel {
                    step.begin = step.begun.map_or(step.begin, |it| it.clamp(step.begin, step.end));
                }
                if goes_on {
                    step.wanted = Wanted::Taken;
                }
                if let Some(caller) = traced.and_then(|it| it.answered.get(&place)) {
                    let index = self.tracks[track].steps.len() - 1;
                    self.replies.push((track, index, *caller));
                }
            }
            at = next;
            place += 1;
        }
    }

    /// A command as the rules have it; None for one that they leave out.
    fn command(&mut self, bytes: &[u8], parcels: &[u8], parcel_at: &mut usize) -> Option<Command> {
        let code = u32_at(bytes, 0);
        let mut bytes = bytes.to_vec();
        let mut parcel = None;
        if is_parcel(code) {
            if matches!(code, BC_TRANSACTION_SG | BC_REPLY_SG) {
                if u64_at(&bytes, 4 + RECORD_SIZE) > 0 {
                    self.leave_out("buffers of scatter-gather commands");
                }
                let plain = if code == BC_TRANSACTION_SG { BC_TRANSACTION } else { BC_REPLY };
                bytes.truncate(4 + RECORD_SIZE);
                bytes[..4].copy_from_slice(&plain.to_le_bytes());
            }
            let record = Record::read(&bytes[4..]);
            let mut part = |size: u64| {
                let size = usize::try_from(size).unwrap_or(usize::MAX);
                let found = parcel_at.checked_add(size).and_then(|end| parcels.get(*parcel_at..end));
                *parcel_at = parcel_at.saturating_add(padded(size));
                found.map(Rc::<[u8]>::from)
            };
            parcel = part(record.data_size).and_then(|data| Some((data, part(record.offsets_size)?)));
            self.look_for_left_out(&parcel);
            bytes[52..60].copy_from_slice(&0u64.to_le_bytes());
            bytes[60..68].copy_from_slice(&(padded(record.data_size as usize) as u64).to_le_bytes());
        } else if code == BC_REGISTER_LOOPER {
            bytes[..4].copy_from_slice(&BC_ENTER_LOOPER.to_le_bytes());
        }
        match codes::command(&bytes) {
            Ok(message) => Some(Command { message, bytes: bytes.into(), parcel, key: 0 }),
            Err(_) => {
                self.leave_out(format!("commands {code:#x}"));
                None
            }
        }
    }

    fn look_for_left_out(&mut self, parcel: &Option<Parcel>) {
        let (data, offsets) = match parcel {
            Some(parcel) => parcel,
            None => return,
        };
        let kinds = [(0x7074_2a85, "PTR objects"), (0x6664_2a85, "FD objects"), (0x6664_6185, "FDA objects")];
        for at in offsets.chunks_exact(8).map(|it| u64_at(it, 0)) {
            let kind = usize::try_from(at).map_or(0, |it| u32_at(data, it));
            if let Some((_, name)) = kinds.iter().find(|it| it.0 == kind) {
                self.leave_out(*name);
            }
        }
    }

    /// What a read has got, and the pointer of the parcel that came with it.
    fn got(&mut self, asked: &WriteRead) -> (Got, Option<u64>) {
        let mut got =
            Got { stream: asked.returned.clone(), kinds: Vec::new(), data: Rc::new([]), offsets: Rc::new([]) };
        let (mut at, mut pointer) = (0, None);
        while at + 4 <= got.stream.len() {
            let code = u32_at(&got.stream, at);
            let next = at + 4 + (code >> 16 & 0x3fff) as usize;
            if next > got.stream.len() {
                got.kinds.push((code, 0));
                break;
            }
            match code {
                BR_SPAWN_LOOPER => got.stream[at..at + 4].copy_from_slice(&BR_NOOP.to_le_bytes()),
                BR_TRANSACTION | BR_REPLY => {
                    pointer = Some(u64_at(&got.stream, at + 52));
                    take_parcel(&mut got, at + 4, &asked.received);
                    got.kinds.push((code, 0));
                }
                BR_NOOP | BR_OK => {}
                _ if RETURNS.iter().any(|it| it.number == code) => {
                    let word = if next - at >= 12 { u64_at(&got.stream, at + 4) } else { 0 };
                    got.kinds.push((code, word));
                }
                _ => {
                    // No item reads so: there is no order with it.
                    self.leave_out(format!("returns {code:#x}"));
                    got.kinds.push((code, 0));
                }
            }
            at = next;
        }
        (got, pointer)
    }

    fn add_read(&mut self, track: usize, when: (u64, u64), limit: u32, asked: &WriteRead, traced: Option<&Traced>) {
        let (got, pointer) = self.got(asked);
        // The first read of a thread, or one of notices that tell nothing any more, is no step.
        if got.kinds.is_empty() {
            return;
        }
        let (begin, end) = when;
        let told = traced.filter(|it| !it.returns.is_empty());
        let since = told.and_then(|it| it.waits).map_or(begin, |it| begin.max(it));
        let until = told.and_then(|it| it.read).map_or(end, |it| end.min(it + MICRO).max(since));
        let likely = told.map_or(end, |it| it.returns[0].max(since).min(until));
        let (index, process) = (self.tracks[track].steps.len(), self.tracks[track].process);
        let id = traced.and_then(|it| it.received);
        if let Some(pointer) = pointer {
            let key = step_number(track, index) + 1;
            self.deliveries.entry((process, pointer)).or_default().push((end, key));
            if let Some(id) = id {
                self.by_id.insert(id, key);
            }
        }
        let returns = told.map_or(Vec::new(), |it| it.returns.clone());
        let step = self.push(track, Act::Read(limit), since, until, likely, Wanted::Got(got));
        step.id = id;
        step.returns = returns;
    }

    /// The numbers of the one-way calls that were read.
    fn one_way_calls(&self) -> HashSet<u64> {
        let is_one_way = |step: &&Step| match &step.wanted {
            Wanted::Got(got) => {
                let record = got.stream.len().checked_sub(RECORD_SIZE).and_then(|it| got.stream.get(it..));
                got.kinds.last().map_or(false, |it| it.0 == BR_TRANSACTION)
                    && record.map_or(false, |it| Record::read(it).is_one_way())
            }
            _ => false,
        };
        self.tracks.iter().flat_map(|it| &it.steps).filter(is_one_way).filter_map(|it| it.id).collect()
    }

    /// A buffer that is given back is the one that was read last at that address before; the trace knows which it is, and when its
    /// references went. Before that the next one-way call may have come, where it was one.
    fn name_buffers(&mut self) {
        let one_way = self.one_way_calls();
        for all in self.deliveries.values_mut() {
            all.sort_unstable();
        }
        for track in &mut self.tracks {
            for step in &mut track.steps {
                let (begin, id) = (step.begin, step.id);
                let command = match &mut step.act {
                    Act::Command(command) => command,
                    _ => continue,
                };
                if let Payload::Buffer(pointer) = command.message.payload {
                    let is_one_way = id.map_or(true, |it| one_way.contains(&it));
                    if let (Some(begun), false) = (step.begun, is_one_way) {
                        step.begin = begun.clamp(step.begin, step.end);
                    }
                    let known = self.deliveries.get(&(track.process, pointer));
                    let last = known.and_then(|all| all.iter().rev().find(|it| it.0 <= begin)).map(|it| it.1);
                    command.key = id.and_then(|it| self.by_id.get(&it)).copied().or(last).unwrap_or(0);
                }
            }
        }
    }

    /// Whether a transaction was taken, which the thread's next read tells.
    fn foresee(&mut self) {
        for track in &mut self.tracks {
            let mut told: Option<(bool, bool)> = None;
            for step in track.steps.iter_mut().rev() {
                match (&step.act, &step.wanted) {
                    (Act::Read(_), Wanted::Got(got)) => {
                        let has = |codes: &[u32]| got.kinds.iter().any(|it| codes.contains(&it.0));
                        let taken = has(&[BR_TRANSACTION_COMPLETE, BR_ONEWAY_SPAM_SUSPECT]);
                        told = Some((taken, has(&[BR_FAILED_REPLY, BR_DEAD_REPLY])));
                    }
                    (Act::Command(command), Wanted::Any) if command.message.code.number == BC_TRANSACTION => {
                        step.wanted = match told {
                            Some((true, false)) => Wanted::Taken,
                            Some((false, true)) => Wanted::Refused,
                            _ => Wanted::Any,
                        };
                        told = None;
                    }
                    (Act::ExitThread, _) => told = None,
                    _ => {}
                }
            }
        }
    }

    /// A reply was refused where nobody has read it, and its caller has read a refusal in its place.
    fn foresee_replies(&mut self) {
        let reads = self.tracks.iter().flat_map(|it| &it.steps).filter(|it| matches!(it.act, Act::Read(_)));
        let read: HashSet<u64> = reads.filter_map(|it| it.id).collect();
        for (track, index, caller) in std::mem::take(&mut self.replies) {
            let (id, begin) = (self.tracks[track].steps[index].id, self.tracks[track].steps[index].begin);
            let is_end = |it: &&(u32, u64)| matches!(it.0, BR_REPLY | BR_FAILED_REPLY | BR_DEAD_REPLY);
            let end_of = |step: &Step| match &step.wanted {
                Wanted::Got(got) if step.end >= begin => got.kinds.iter().find(is_end).map(|it| it.0),
                _ => None,
            };
            let mut its = self.tracks.iter().filter(|it| it.tid == Some(caller)).flat_map(|it| &it.steps);
            let is_refused = its.find_map(end_of) == Some(BR_FAILED_REPLY);
            if is_refused && id.map_or(false, |it| !read.contains(&it)) {
                self.tracks[track].steps[index].wanted = Wanted::Refused;
            }
        }
    }

    /// Each process opens by itself, and ends some time after the last that is known of it.
    fn add_processes(&mut self) {
        for index in 0..self.processes.len() {
            let it = &self.processes[index];
            if it.window == 0 {
                continue;
            }
            let (opened, open_end, last, since) = (it.opened, it.open_end, it.last, it.closed.unwrap_or(it.last));
            let (steps, parts_of) = (Vec::new(), Vec::new());
            self.tracks.push(Track { process: index, tid: None, name: String::new(), steps, parts_of });
            let track = self.tracks.len() - 1;
            self.push(track, Act::Open, opened, open_end, opened, Wanted::Any);
            self.push(track, Act::End, since, NEVER, last, Wanted::Any);
        }
    }

    /// The same, with each transaction and reply with objects in two steps, and what may release a name, where the driver makes them so.
    pub fn taken_apart(&self, ways: Ways) -> Recording {
        let mut found = self.clone();
        found.take_apart(ways);
        found
    }

    fn take_apart(&mut self, ways: Ways) {
        let mut moved = HashMap::new();
        for (number, track) in self.tracks.iter_mut().enumerate() {
            let mut apart = Vec::new();
            for (index, step) in std::mem::take(&mut track.steps).into_iter().enumerate() {
                take_step_apart(step, ways, &mut apart);
                track.parts_of.resize(apart.len(), index as u32);
                // What a read's last part has got is its parcel.
                let last =
                    if matches!(apart.last().map(|it| &it.act), Some(Act::Read(_))) { apart.len() - 1 } else { 0 };
                moved.insert(step_number(number, index), step_number(number, last));
            }
            track.steps = apart;
        }
        // Buffers are called by the step that has read them.
        for step in self.tracks.iter_mut().flat_map(|it| &mut it.steps) {
            if let Act::Command(command) = &mut step.act {
                if let Some(to) = command.key.checked_sub(1).and_then(|it| moved.get(&it)) {
                    command.key = to + 1;
                }
            }
        }
    }
}

/// A read in parts, one for each item: what one has got, from its first return on.
fn read_in_parts(step: &Step, got: &Got, to: &mut Vec<Step>) {
    let same_item = |one: (u32, u64), other: (u32, u64)| {
        let pairs =
            [(BR_INCREFS, BR_ACQUIRE), (BR_RELEASE, BR_DECREFS), (BR_ACQUIRE, BR_DECREFS), (BR_INCREFS, BR_RELEASE)];
        one.1 == other.1 && pairs.contains(&(one.0, other.0))
    };
    let (mut from, mut at) = (0, if got.stream.starts_with(&BR_NOOP.to_le_bytes()) { 4 } else { 0 });
    let mut begin = step.begin;
    while from < got.kinds.len() {
        let mut next = from + 1;
        while next < got.kinds.len() && same_item(got.kinds[next - 1], got.kinds[next]) {
            next += 1;
        }
        let size: usize = got.kinds[from..next].iter().map(|it| 4 + (it.0 >> 16 & 0x3fff) as usize).sum();
        let is_last = next == got.kinds.len();
        let part = Got {
            stream: [&BR_NOOP.to_le_bytes()[..], got.stream.get(at..at + size).unwrap_or(&[])].concat(),
            kinds: got.kinds[from..next].to_vec(),
            data: if is_last { got.data.clone() } else { Rc::new([]) },
            offsets: if is_last { got.offsets.clone() } else { Rc::new([]) },
        };
        let end = step.returns.get(next - 1).map_or(step.end, |it| (it + MICRO).clamp(begin, step.end.max(begin)));
        let likely = step.returns.get(from).map_or(step.at, |it| (*it).clamp(begin, end));
        to.push(Step {
            act: Act::Read(ONE_ITEM),
            begin,
            end,
            at: likely,
            wanted: Wanted::Got(part),
            id: step.id.filter(|_| is_last),
            is_maybe: false,
            returns: Vec::new(),
            begun: None,
            numbered: None,
        });
        begin = step.returns.get(next - 1).map_or(begin, |it| it.saturating_sub(MICRO).max(begin));
        at += size;
        from = next;
    }
}

fn take_step_apart(step: Step, ways: Ways, to: &mut Vec<Step>) {
    let (numbers, releases) = (ways.has(Way::Numbered), ways.has(Way::Released));
    if let (Wanted::Got(got), true) = (&step.wanted, ways.has(Way::Pieces)) {
        let other = |it: &&(u32, u64)| !matches!(it.0, BR_TRANSACTION_COMPLETE | BR_TRANSACTION | BR_REPLY);
        if got.kinds.len() > 1 && got.kinds.iter().any(|it| other(&it)) {
            let got = got.clone();
            return read_in_parts(&step, &got, to);
        }
    }
    if let (Act::End, true) = (&step.act, ways.has(Way::Ended)) {
        let parts = [Part::Objects, Part::Names, Part::Rest].map(Act::EndPart);
        return to.extend(std::iter::once(Act::End).chain(parts).map(|act| Step { act, ..step.clone() }));
    }
    let command = match &step.act {
        Act::Command(command) if !matches!(step.wanted, Wanted::Fails) => command.clone(),
        _ => return to.push(step),
    };
    let has_objects = command.parcel.as_ref().map_or(false, |it| !it.1.is_empty());
    match command.message.code.number {
        BC_TRANSACTION | BC_REPLY if numbers && has_objects => {
            let numbered = step.numbered.map(|it| it.clamp(step.begin, step.end));
            let end = numbered.map_or(step.end, |it| step.end.min(it + MICRO));
            if ways.has(Way::Held) {
                let (act, at) = (Act::Hold(command.clone()), step.begun.unwrap_or(step.begin));
                to.push(Step { act, wanted: Wanted::Any, at, end, ..step.clone() });
            }
            to.push(Step { act: Act::Number(command), end, ..step.clone() });
            let begin = numbered.unwrap_or(step.begin);
            to.push(Step { act: Act::Queue, wanted: Wanted::Any, at: step.at + 1, begin, ..step });
        }
        BC_RELEASE | BC_FREE_BUFFER if releases => {
            let second = Step { act: Act::Finish, wanted: Wanted::Any, id: None, ..step.clone() };
            to.push(step);
            to.push(second);
        }
        _ => to.push(step),
    }
}

fn most_opened(files: &Files) -> Option<String> {
    let mut counts: BTreeMap<&str, usize> = BTreeMap::new();
    for call in files.threads.iter().flat_map(|it| &it.calls) {
        if let Asked::Open { path, .. } = &call.what {
            *counts.entry(path).or_insert(0) += 1;
        }
    }
    counts.into_iter().max_by_key(|it| it.1).map(|it| it.0.to_string())
}

/// When a command can have been worked off: between its own event and the next one, where there is a trace.
fn when_written(call: &Call, traced: Option<&Traced>, place: usize) -> (u64, u64) {
    let end = call.end.unwrap_or(NEVER);
    let told = traced.and_then(|it| Some((it, *it.commands.get(place)?)));
    let (traced, begin) = match told {
        Some(told) => told,
        None => return (call.begin, end),
    };
    let next = traced.commands.get(place + 1).copied().or(traced.written);
    (begin.max(call.begin), next.map_or(end, |it| end.min(it + MICRO)).max(begin))
}

/// The parcel that a record in the stream tells of; its pointers are forgotten.
fn take_parcel(got: &mut Got, at: usize, received: &[u8]) {
    let record = Record::read(&got.stream[at..]);
    let data = usize::try_from(record.data_size).unwrap_or(usize::MAX);
    let offsets = usize::try_from(record.offsets_size).unwrap_or(usize::MAX);
    let from = padded(data);
    got.data = received.get(..data).unwrap_or(&[]).into();
    got.offsets = from.checked_add(offsets).and_then(|end| received.get(from..end)).unwrap_or(&[]).into();
    forget_pointers(&mut got.stream, at);
}

/// Puts how far the offsets stand from the data in place of the pointers of a record.
pub fn forget_pointers(stream: &mut [u8], at: usize) {
    let record = Record::read(&stream[at..]);
    stream[at + 48..at + 56].copy_from_slice(&0u64.to_le_bytes());
    stream[at + 56..at + 64].copy_from_slice(&record.offsets.wrapping_sub(record.buffer).to_le_bytes());
}
