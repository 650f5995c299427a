// SPDX-License-Identifier: Apache-2.0 OR MIT
//! Commands, and streams of them.
use super::buffers::Sent;
use super::*;
use crate::codes::{self, *};

const MOST_STREAM: usize = 4096;
/// Commands that the rules refuse by name (docs/FORMATS.md).
const REFUSED: [u32; 5] = [0x4008_630a, 0x4004_6302, 0x630b, 0x4048_6311, 0x4048_6312];

/// What a command came to.
#[derive(Clone, Copy, Debug, PartialEq, Eq)]
pub enum Told {
    Accepted,
    /// It changed nothing, for this note.
    Noted(u8),
    /// It is refused, for this cause.
    Stopped(u8),
    /// The driver ends the write with EINVAL.
    Invalid,
}

/// What a write came to.
#[derive(Clone, Debug, Default, PartialEq, Eq)]
pub struct Wrote {
    pub consumed: usize,
    /// The number of a command in the stream, and its note.
    pub notes: Vec<(usize, u8)>,
    /// Why it ended before its stream did: a fault, F, or a cause, X, or EINVAL.
    pub stop: Option<(char, u8)>,
}

/// The first command of a stream with its bytes, or the fault that stands there.
pub fn first_command(stream: &[u8]) -> Result<(Message, &[u8]), Fault> {
    if stream.len() < 4 {
        return Err(1);
    }
    let code = crate::record::u32_at(stream, 0);
    if REFUSED.contains(&code) {
        return Err(3);
    }
    let found = COMMANDS.iter().find(|it| it.number == code).ok_or(2u8)?;
    let bytes = stream.get(..4 + found.shape.size()).ok_or(1u8)?;
    codes::command(bytes).map(|it| (it, bytes)).map_err(|_| 1)
}

/// The parts of a write's area that a record names; None where they end outside of it.
fn parcel_of<'a>(record: &crate::record::Record, area: &'a [u8]) -> Option<(&'a [u8], &'a [u8])> {
    let part = |from: u64, size: u64| {
        let end = from.checked_add(size).filter(|it| *it <= area.len() as u64)?;
        area.get(from as usize..end as usize)
    };
    Some((part(record.buffer, record.data_size)?, part(record.offsets, record.offsets_size)?))
}

impl Space {
    /// Commands one after the other, each a step of its own. Err is a fault that refuses the write.
    pub fn write(&mut self, seat: Seat, stream: &[u8], area: &[u8]) -> Result<Wrote, Fault> {
        let mut wrote = Wrote::default();
        let refuses = |thread: &Thread| thread.todo.iter().any(|it| matches!(it.item, Item::Refusal(_)));
        if self.does(Way::Stuck) && self.threads.get(seat).map_or(false, refuses) {
            return Ok(wrote);
        }
        if stream.len() > MOST_STREAM && !self.does(Way::Long) {
            return Err(15);
        }
        let mut index = 0;
        while wrote.consumed < stream.len() && wrote.stop.is_none() {
            let (command, bytes) = match first_command(&stream[wrote.consumed..]) {
                Ok(found) => found,
                Err(fault) => {
                    wrote.stop = Some(('F', fault));
                    break;
                }
            };
            self.begin(self.steps.0);
            if !self.threads.has(seat) {
                return Err(4);
            }
            let parcel = command.record().and_then(|it| parcel_of(it, area));
            match self.command(seat, &command, parcel) {
                Told::Accepted => {}
                Told::Noted(note) => wrote.notes.push((index, note)),
                Told::Stopped(cause) => wrote.stop = Some(('X', cause)),
                Told::Invalid => {
                    wrote.stop = Some(('E', 0));
                    break;
                }
            }
            wrote.consumed += bytes.len();
            index += 1;
        }
        Ok(wrote)
    }

    /// A command's one step, for a step that has begun and a seat that has a thread.
    pub fn command(&mut self, seat: Seat, command: &Message, parcel: Option<(&[u8], &[u8])>) -> Told {
        let process = self.threads.get(seat).map_or(0, |it| it.process);
        let told = match (command.code.number, command.payload) {
            (BC_TRANSACTION | BC_REPLY, _) => {
                let half = self.prepare(seat, command, parcel);
                return self.commit(seat, half, None);
            }
            (BC_FREE_BUFFER, Payload::Buffer(pointer)) => self.free(seat, process, pointer),
            (BC_INCREFS, Payload::Handle(handle)) => self.ask(process, handle, WEAK),
            (BC_ACQUIRE, Payload::Handle(handle)) => self.ask(process, handle, STRONG),
            (BC_DECREFS, Payload::Handle(handle)) => self.drop_asked(process, handle, WEAK),
            (BC_RELEASE, Payload::Handle(handle)) => self.drop_asked(process, handle, STRONG),
            (BC_INCREFS_DONE, Payload::PtrCookie(ptr, cookie)) => self.acknowledge(process, ptr, cookie, WEAK),
            (BC_ACQUIRE_DONE, Payload::PtrCookie(ptr, cookie)) => self.acknowledge(process, ptr, cookie, STRONG),
            (BC_REQUEST_DEATH_NOTIFICATION, Payload::HandleCookie(handle, cookie)) => {
                self.ask_death(process, handle, cookie)
            }
            (BC_CLEAR_DEATH_NOTIFICATION, Payload::HandleCookie(handle, cookie)) => {
                self.clear_death(seat, process, handle, cookie)
            }
            (BC_DEAD_BINDER_DONE, Payload::Cookie(cookie)) => self.death_done(seat, process, cookie),
            (code, _) => self.set_looping(seat, code == BC_ENTER_LOOPER),
        };
        if told == Told::Accepted {
            self.follow();
        } else {
            self.touched.clear();
        }
        told
    }

    fn set_looping(&mut self, seat: Seat, on: bool) -> Told {
        if let Some(it) = self.threads.get_mut(seat) {
            it.is_looping = on;
            it.has_entered |= on;
        }
        Told::Accepted
    }

    /// A transaction or reply up to where its parcel stands in the receiver's window.
    pub fn prepare(&mut self, seat: Seat, command: &Message, parcel: Option<(&[u8], &[u8])>) -> calls::Half {
        let record = command.record().copied().unwrap_or_default();
        // A parcel of other lengths than the record's is none.
        let fits =
            |it: &(&[u8], &[u8])| (it.0.len() as u64, it.1.len() as u64) == (record.data_size, record.offsets_size);
        let sent = Sent { record, parcel: parcel.filter(fits) };
        if command.code.number == BC_REPLY {
            self.prepare_reply(seat, &sent)
        } else {
            self.prepare_transaction(seat, &sent)
        }
    }

    /// Before that: what it is to hold, its target and those of its objects that there are.
    pub fn hold_for(&mut self, seat: Seat, command: &Message, parcel: Option<(&[u8], &[u8])>) {
        let process = self.threads.get(seat).map_or(0, |it| it.process);
        let target = command.record().filter(|_| command.code.number == BC_TRANSACTION);
        let target = target.and_then(|it| self.callee(process, it.handle()).ok());
        let mut held = self.objects_of(process, parcel);
        held.extend(target.map(|it| (it, STRONG)));
        self.hold(seat, held);
    }

    /// Its first half: its objects have their numbers, and it its buffer; the cause why not.
    pub fn send_first_half(
        &mut self,
        seat: Seat,
        command: &Message,
        parcel: Option<(&[u8], &[u8])>,
    ) -> Result<BufferId, u8> {
        let half = self.prepare(seat, command, parcel);
        let delivered = half.delivered;
        if let Some(it) = self.threads.get_mut(seat) {
            it.half = Some(half);
        }
        self.release_held(seat);
        self.follow();
        delivered
    }

    /// Its second half: it comes to a list, and its sender's completion too.
    pub fn send_second_half(&mut self, seat: Seat, waiter: Option<Seat>) -> Told {
        match self.threads.get_mut(seat).and_then(|it| it.half.take()) {
            Some(half) => self.commit(seat, half, waiter),
            None => Told::Invalid,
        }
    }
}
