// SPDX-License-Identifier: Apache-2.0 OR MIT
//! Who took part and wasn't recorded, as a context manager that ran before: one process stands in for all of them. It is the manager,
//! takes each call, and answers what the caller was answered.
use super::steps::*;
use crate::codes::{self, *};
use crate::record::{u32_at, u64_at, Kind, Record, OBJECT_SIZE, RECORD_SIZE};

/// The stand-in's pid, which no process of Linux has.
pub const ABSENT: u32 = crate::who::NOT_RECORDED;
const WINDOW: u64 = 4 << 20;
/// Where its objects stand, by the handles under which they came.
const FIRST_PTR: u64 = 1 << 32;
const PTR_EACH: u64 = 16;
const NO_LIMIT: u32 = 1 << 20;

/// A call to who wasn't recorded: which step of which track, and of a two-way one the step that reads its reply.
struct Call {
    track: usize,
    step: Step,
    reply: Option<(Step, Got)>,
}

fn record_of(got: &Got) -> Option<Record> {
    got.stream.len().checked_sub(RECORD_SIZE).and_then(|it| got.stream.get(it..)).map(Record::read)
}

fn ends_in(step: &Step, code: u32) -> bool {
    matches!(&step.wanted, Wanted::Got(got) if got.kinds.last().map_or(false, |it| it.0 == code))
}

/// A step of the stand-in, which lies within a caller's.
fn within(act: Act, wanted: Wanted, begin: u64, end: u64, at: u64) -> Step {
    let (returns, begun, numbered) = (Vec::new(), None, None);
    Step { act, begin, end, at, wanted, id: None, is_maybe: false, returns, begun, numbered }
}

fn command(code: u32, payload: &[u8], parcel: Option<Parcel>, key: u64) -> Option<Command> {
    let bytes = [&code.to_le_bytes()[..], payload].concat();
    let message = codes::command(&bytes).ok()?;
    Some(Command { message, bytes: bytes.into(), parcel, key })
}

/// A parcel as who sent it has it: its objects are the sender's own. None where it brings back one of the receiver's.
fn as_sent(got: &Got) -> Option<Parcel> {
    let mut data = got.data.to_vec();
    for at in got.offsets.chunks_exact(8).filter_map(|it| usize::try_from(u64_at(it, 0)).ok()) {
        let end = at.checked_add(OBJECT_SIZE).filter(|it| *it <= data.len())?;
        let kind = [(Kind::Handle, Kind::Binder), (Kind::WeakHandle, Kind::WeakBinder)];
        let kind = kind.iter().find(|it| it.0.number() == u32_at(&data, at))?.1;
        let ptr = FIRST_PTR + PTR_EACH * u64::from(u32_at(&data, at + 8));
        data[at..at + 4].copy_from_slice(&kind.number().to_le_bytes());
        data[at + 8..at + 16].copy_from_slice(&ptr.to_le_bytes());
        data[at + 16..end].copy_from_slice(&(ptr + 8).to_le_bytes());
    }
    Some((data.into(), got.offsets.clone()))
}

fn reply(got: &Got) -> Option<Command> {
    let (record, parcel) = (record_of(got)?, as_sent(got)?);
    let mut bytes = vec![0; RECORD_SIZE];
    bytes[16..20].copy_from_slice(&record.code.to_le_bytes());
    bytes[20..24].copy_from_slice(&record.flags.to_le_bytes());
    bytes[32..40].copy_from_slice(&(parcel.0.len() as u64).to_le_bytes());
    bytes[40..48].copy_from_slice(&(parcel.1.len() as u64).to_le_bytes());
    bytes[56..64].copy_from_slice(&((parcel.0.len() as u64 + 7) / 8 * 8).to_le_bytes());
    command(BC_REPLY, &bytes, Some(parcel), 0)
}

impl Recording {
    pub(super) fn has_manager(&self) -> bool {
        let is_one = |it: &Step| matches!((&it.act, &it.wanted), (Act::Manager, Wanted::Done(true)));
        self.tracks.iter().flat_map(|it| &it.steps).any(is_one)
    }

    /// Whether all who took part were recorded, as far as can be told.
    pub(super) fn is_whole(&self) -> bool {
        self.absent == 0 && self.has_manager()
    }

    /// Where nobody who was recorded is the context manager or is called, and calls were taken all the same.
    pub(super) fn add_absent(&mut self) {
        let is_called = self.tracks.iter().flat_map(|it| &it.steps).any(|it| ends_in(it, BR_TRANSACTION));
        if is_called || self.has_manager() {
            return;
        }
        let calls: Vec<Call> = (0..self.tracks.len()).flat_map(|it| self.calls_of(it)).collect();
        let record = calls.iter().find_map(|it| record_of(&it.reply.as_ref()?.1));
        let mut whole = self.clone();
        if record.map_or(false, |it| whole.stand_in_for(&calls, it.sender_euid)) {
            *self = whole;
        }
    }

    /// Adds a process that answers all these calls: whether it can.
    fn stand_in_for(&mut self, calls: &[Call], euid: u32) -> bool {
        let since = self.processes.iter().map(|it| it.opened).min().unwrap_or(0);
        self.absent = calls.len();
        self.processes.push(Process {
            pid: ABSENT,
            model_pid: ABSENT,
            euid,
            window: WINDOW,
            device: self.processes[0].device.clone(),
            opened: since,
            open_end: since,
            last: calls.iter().map(|it| it.step.end).max().unwrap_or(since),
            closed: None,
        });
        self.stand_in(since, within(Act::Manager, Wanted::Done(true), since, NEVER, since));
        let mut callers: Vec<usize> = calls.iter().map(|it| it.track).collect();
        callers.dedup();
        callers.iter().all(|track| self.answer(since, *track, calls.iter().filter(|it| it.track == *track)))
    }

    /// The calls of a thread that were taken.
    fn calls_of(&self, track: usize) -> Vec<Call> {
        let (mut found, mut open): (Vec<Call>, Option<Step>) = (Vec::new(), None);
        for step in &self.tracks[track].steps {
            match (&step.act, &step.wanted) {
                (Act::Command(_), Wanted::Refused | Wanted::Fails) => {}
                (Act::Command(command), _) if command.message.code.number == BC_TRANSACTION => {
                    if command.message.record().map_or(false, |it| it.is_one_way()) {
                        found.push(Call { track, step: step.clone(), reply: None });
                    } else {
                        open = Some(step.clone());
                    }
                }
                (_, Wanted::Got(got)) if ends_in(step, BR_REPLY) => {
                    let reply = Some((step.clone(), got.clone()));
                    found.extend(open.take().map(|step| Call { track, step, reply }));
                }
                _ => {}
            }
        }
        found
    }

    /// A thread of the stand-in's that makes this step: which track.
    fn stand_in(&mut self, since: u64, first: Step) -> usize {
        let attach = within(Act::Attach, Wanted::Any, since, NEVER, since);
        let process = self.processes.len() - 1;
        let (name, steps) = ("(not recorded)".into(), vec![attach, first]);
        self.tracks.push(Track { process, tid: None, name, steps, parts_of: Vec::new() });
        self.tracks.len() - 1
    }

    /// A thread that answers all calls of one: whether it can.
    fn answer<'a>(&mut self, since: u64, caller: usize, calls: impl Iterator<Item = &'a Call>) -> bool {
        let enters = match command(BC_ENTER_LOOPER, &[], None, 0) {
            Some(enters) => within(Act::Command(enters), Wanted::Any, since, NEVER, since),
            None => return false,
        };
        let track = self.stand_in(since, enters);
        for call in calls {
            let (begin, at) = (call.step.begin, call.step.at);
            let end = call.reply.as_ref().map_or(NEVER, |it| it.0.end);
            let steps = &mut self.tracks[track].steps;
            let key = step_number(track, steps.len()) + 1;
            steps.push(within(Act::Read(NO_LIMIT), Wanted::Call(caller), begin, end, at));
            // It keeps the objects that it is sent.
            let sent = if let Act::Command(it) = &call.step.act { it.parcel.as_ref() } else { None };
            if sent.map_or(true, |it| it.1.is_empty()) {
                let frees = command(BC_FREE_BUFFER, &8u64.to_le_bytes(), None, key);
                steps.extend(frees.map(|it| within(Act::Command(it), Wanted::Any, begin, end, at)));
            }
            if let Some((read, got)) = &call.reply {
                let replies = match reply(got) {
                    Some(replies) => replies,
                    None => return false,
                };
                let likely = read.at.saturating_sub(1).max(begin);
                let id = read.id;
                steps.push(Step { id, ..within(Act::Command(replies), Wanted::Taken, begin, end, likely) });
                steps.push(within(Act::Read(NO_LIMIT), Wanted::Own, begin, NEVER, likely));
            }
        }
        true
    }
}
