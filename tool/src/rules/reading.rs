// SPDX-License-Identifier: Apache-2.0 OR MIT
//! Reads, and what items read as.
use super::buffers::FIRST_POINTER;
use super::*;
use crate::codes::*;
use std::rc::Rc;

/// The longest return, which has to fit for the next item to be taken; and what the driver wants to be free: a call's record, a
/// security context, the code.
pub const LONGEST_RETURN: usize = 68;
pub const DRIVERS_ROOM: usize = 76;
const LEAST_READ: u32 = 72;

#[derive(Clone, Debug, PartialEq, Eq)]
pub struct Got {
    pub stream: Vec<u8>,
    pub data: Rc<[u8]>,
    pub offsets: Rc<[u8]>,
    /// The buffer that was handed out.
    pub buffer: Option<BufferId>,
}

impl Space {
    /// The list that a thread would read, if there is something on it.
    pub fn list_to_read(&self, seat: Seat) -> Option<List> {
        let thread = self.threads.get(seat)?;
        if !thread.todo.is_empty() {
            let is_due = thread.is_due || !self.does(Way::Deferred);
            return Some(List::Thread(seat)).filter(|_| is_due);
        }
        let takes = (thread.is_looping || self.does(Way::Looper)) && self.innermost(seat).is_none();
        let todo = &self.processes.get(thread.process)?.todo;
        Some(List::Process(thread.process)).filter(|_| takes && !todo.is_empty())
    }

    pub fn read(&mut self, seat: Seat, limit: u32) -> Result<Got, Fault> {
        if !self.threads.has(seat) {
            return Err(4);
        }
        if limit < LEAST_READ && !self.does(Way::Room) {
            return Err(11);
        }
        loop {
            let list = self.list_to_read(seat).ok_or(12u8)?;
            let (got, is_short) = self.read_from(seat, list, limit as usize);
            self.follow();
            // Else the driver has read Notices that no longer tell anything, and goes on.
            if got.stream.len() > 4 || is_short {
                return Ok(got);
            }
        }
    }

    /// Item after item of a list, while there is room for one more; and whether there wasn't.
    fn read_from(&mut self, seat: Seat, list: List, limit: usize) -> (Got, bool) {
        let room = if self.does(Way::Room) { DRIVERS_ROOM } else { LONGEST_RETURN };
        let mut got =
            Got { stream: BR_NOOP.to_le_bytes().to_vec(), data: Rc::new([]), offsets: Rc::new([]), buffer: None };
        while let Some(item) = self.list(list).and_then(|it| it.front().map(|it| it.item)) {
            if limit < got.stream.len() + room {
                return (got, true);
            }
            self.take_first(seat, list);
            self.spell(seat, item, &mut got);
            if matches!(item, Item::Call(_) | Item::Reply(_) | Item::Death(_)) {
                break;
            }
        }
        (got, false)
    }

    fn take_first(&mut self, seat: Seat, list: List) {
        self.take_off(seat, list, 0);
    }

    fn take_off(&mut self, seat: Seat, list: List, at: usize) -> Option<Listed> {
        let taken = self.list_mut(list).and_then(|it| it.remove(at));
        if let Some(thread) = self.threads.get_mut(seat) {
            thread.is_due = thread.is_due && !thread.todo.is_empty();
        }
        taken
    }

    /// Takes one item off a list, wherever it stands there, for who knows what was read: the item, and what it reads as.
    pub fn take(&mut self, seat: Seat, list: List, at: usize) -> Option<(Listed, Got)> {
        let listed = self.take_off(seat, list, at)?;
        let mut got = Got { stream: Vec::new(), data: Rc::new([]), offsets: Rc::new([]), buffer: None };
        self.spell(seat, listed.item, &mut got);
        Some((listed, got))
    }

    /// What comes behind a read whose items were taken so.
    pub fn end_read(&mut self) {
        self.follow();
    }

    /// What an item reads as, and what its reading does.
    fn spell(&mut self, seat: Seat, item: Item, got: &mut Got) {
        let process = self.threads.get(seat).map_or(0, |it| it.process);
        match item {
            Item::Notice(object) => self.read_notice(object, &mut got.stream),
            Item::Cleared(cookie) => {
                got.stream.extend(BR_CLEAR_DEATH_NOTIFICATION_DONE.to_le_bytes());
                got.stream.extend(cookie.to_le_bytes());
            }
            Item::Death(number) => {
                self.process_mut(process, |it| it.told.push(number));
                if let Some(death) = self.death_mut(process, number) {
                    death.phase = Phase::Told;
                    got.stream.extend(BR_DEAD_BINDER.to_le_bytes());
                    got.stream.extend(death.cookie.to_le_bytes());
                }
            }
            Item::Call(buffer) => self.hand_out(seat, BR_TRANSACTION, buffer, got),
            Item::Reply(buffer) => self.hand_out(seat, BR_REPLY, buffer, got),
            Item::Complete(is_suspect) => {
                let is_marked = self.processes.get(process).map_or(false, |it| it.is_marked);
                let is_told = is_suspect && (is_marked || !self.does(Way::Spam));
                let code = if is_told { BR_ONEWAY_SPAM_SUSPECT } else { BR_TRANSACTION_COMPLETE };
                got.stream.extend(code.to_le_bytes());
            }
            Item::Refusal(code) | Item::Verdict(code) => got.stream.extend(code.to_le_bytes()),
        }
    }

    fn hand_out(&mut self, seat: Seat, code: u32, id: BufferId, got: &mut Got) {
        let frame = match self.buffer_mut(id) {
            Some(it) => {
                it.is_handed = true;
                it.frame
            }
            None => return,
        };
        let mut caller = None;
        if let Some(frame) = frame.and_then(|it| self.frames.get_mut(it)) {
            frame.server = Server::Seat(seat);
            caller = frame.caller;
        }
        let process = caller.and_then(|it| self.threads.get(it)).map(|it| it.process);
        let sender_pid = process.and_then(|it| self.processes.get(it)).map_or(0, |it| it.pid);
        let buffer = match self.buffer(id) {
            Some(it) => it,
            None => return,
        };
        let cookie = buffer.target.and_then(|it| self.objects.get(it)).map_or(0, |it| it.cookie);
        let data = FIRST_POINTER + id.1;
        let offsets = data + (buffer.data.len() as u64 + 7) / 8 * 8;
        let stream = &mut got.stream;
        stream.extend(code.to_le_bytes());
        stream.extend(buffer.target.map_or(0, |it| it.1).to_le_bytes());
        stream.extend(cookie.to_le_bytes());
        for number in [buffer.code, buffer.flags, sender_pid, buffer.sender_euid] {
            stream.extend(number.to_le_bytes());
        }
        for number in [buffer.data.len() as u64, buffer.offsets.len() as u64, data, offsets] {
            stream.extend(number.to_le_bytes());
        }
        got.data = buffer.data.clone();
        got.offsets = buffer.offsets.clone();
        got.buffer = Some(id);
    }
}
