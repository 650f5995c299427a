// SPDX-License-Identifier: Apache-2.0 OR MIT
//! Parcels, and the windows to which they come.
use super::*;
use crate::record::{needed, u32_at, u64_at, Kind, Record, KINDS, OBJECT_SIZE};
use std::rc::Rc;

/// The pointer of a window's first byte.
pub const FIRST_POINTER: u64 = 65536;

/// An object that a buffer holds.
#[derive(Clone, Copy, Debug, PartialEq, Eq, Serialize, Deserialize)]
pub struct Entry {
    pub object: ObjectId,
    pub strength: usize,
    /// The numbers that its sender and its receiver have for it; None where it is their own.
    pub sender: Option<u32>,
    pub receiver: Option<u32>,
}

/// A parcel in its receiver's window.
#[derive(Clone, Debug, PartialEq, Eq, Serialize, Deserialize)]
pub struct Buffer {
    pub sender: ProcessId,
    pub sender_euid: u32,
    pub sender_pid: u32,
    pub sender_seat: Seat,
    pub code: u32,
    pub flags: u32,
    /// As the receiver sees them.
    #[serde(skip, default = "no_bytes")]
    pub data: Rc<[u8]>,
    #[serde(skip, default = "no_bytes")]
    pub offsets: Rc<[u8]>,
    /// How many bytes its data has, and how many it takes of the window.
    pub size: u64,
    pub needed: u64,
    pub is_one_way: bool,
    pub is_handed: bool,
    pub is_suspect: bool,
    pub target: Option<ObjectId>,
    pub frame: Option<FrameId>,
    /// Of a reply, the call that it answers.
    pub answers: Option<FrameId>,
    pub entries: Vec<Entry>,
    /// The step that sent it.
    pub sent: u64,
    /// What its reader calls it; 0 before that, or where it has no word for it.
    pub key: u64,
    /// The driver's number of the transaction, where it is known; else 0.
    pub id: u64,
}

fn no_bytes() -> Rc<[u8]> {
    Rc::new([])
}

/// A parcel as it is written.
#[derive(Clone, Copy, Debug)]
pub struct Sent<'a> {
    pub record: Record,
    /// None where the parts lie outside of the area.
    pub parcel: Option<(&'a [u8], &'a [u8])>,
}

/// An object of a parcel: where it stands, and what stands there.
#[derive(Clone, Copy, Debug)]
struct Flat {
    offset: usize,
    kind: Kind,
    flags: u32,
    value: u64,
    cookie: u64,
}

/// The objects of a parcel up to the first faulty one, and the cause which that is.
fn walk(data: &[u8], offsets: &[u8]) -> (Vec<Flat>, Option<u8>) {
    let (mut found, mut least) = (Vec::new(), 0);
    if offsets.len() % 8 != 0 {
        return (found, Some(8));
    }
    for at in (0..offsets.len()).step_by(8) {
        let offset = u64_at(offsets, at);
        let end = offset.checked_add(OBJECT_SIZE as u64);
        if offset % 4 != 0 || offset < least || end.map_or(true, |it| it > data.len() as u64) {
            return (found, Some(9));
        }
        let offset = offset as usize;
        let number = u32_at(data, offset);
        let kind = match KINDS.iter().find(|it| it.1 == number).map(|it| it.0) {
            Some(kind @ (Kind::Binder | Kind::WeakBinder | Kind::Handle | Kind::WeakHandle)) => kind,
            Some(_) => return (found, Some(10)),
            None => return (found, Some(9)),
        };
        let (flags, value, cookie) = (u32_at(data, offset + 4), u64_at(data, offset + 8), u64_at(data, offset + 16));
        found.push(Flat { offset, kind, flags, value, cookie });
        least = offset as u64 + OBJECT_SIZE as u64;
    }
    (found, None)
}

/// An object as the receiver sees it: by its number, or where it is its own by ptr and cookie.
fn put_seen(data: &mut [u8], flat: &Flat, strength: usize, seen: Result<u32, (u64, u64)>) {
    let is_strong = strength == STRONG;
    match seen {
        Ok(number) => {
            let kind = if is_strong { Kind::Handle } else { Kind::WeakHandle };
            put_flat(data, flat.offset, kind, flat.flags, u64::from(number), 0);
        }
        Err((ptr, cookie)) => {
            let kind = if is_strong { Kind::Binder } else { Kind::WeakBinder };
            put_flat(data, flat.offset, kind, flat.flags, ptr, cookie);
        }
    }
}

fn put_flat(data: &mut [u8], offset: usize, kind: Kind, flags: u32, value: u64, cookie: u64) {
    data[offset..offset + 4].copy_from_slice(&kind.number().to_le_bytes());
    data[offset + 4..offset + 8].copy_from_slice(&flags.to_le_bytes());
    data[offset + 8..offset + 16].copy_from_slice(&value.to_le_bytes());
    data[offset + 16..offset + 24].copy_from_slice(&cookie.to_le_bytes());
}

impl Process {
    /// How many bytes of its window all buffers take, and those of one-way calls.
    pub fn used(&self) -> u64 {
        self.buffers.iter().fold(0, |sum, it| sum.saturating_add(it.1.needed))
    }

    pub fn one_way(&self) -> u64 {
        self.buffers.iter().filter(|it| it.1.is_one_way).fold(0, |sum, it| sum.saturating_add(it.1.needed))
    }

    /// Where its window has holes, and how large each is.
    fn holes(&self) -> impl Iterator<Item = (u64, u64)> + '_ {
        let mut at = 0;
        let ends = self.buffers.iter().map(|(place, it)| (place, place.saturating_add(it.needed)));
        ends.chain(Some((self.window, 0))).map(move |(place, end)| {
            let hole = (at, place.saturating_sub(at));
            at = end;
            hole
        })
    }

    /// How many bytes the largest hole has, and so the largest buffer that fits in.
    pub fn largest_hole(&self) -> u64 {
        self.holes().map(|it| it.1).max().unwrap_or(0)
    }
}

impl Space {
    pub fn buffer(&self, buffer: BufferId) -> Option<&Buffer> {
        self.processes.get(buffer.0)?.buffers.get(buffer.1)
    }

    /// What a buffer's reader calls it.
    pub fn name_buffer(&mut self, buffer: BufferId, key: u64) {
        if let Some(it) = self.buffer_mut(buffer) {
            it.key = key;
        }
    }

    pub(super) fn buffer_mut(&mut self, buffer: BufferId) -> Option<&mut Buffer> {
        self.processes.get_mut(buffer.0)?.buffers.get_mut(buffer.1)
    }

    /// The objects that a parcel names up to the first that may not be sent, and the cause which that is. New ones have to be made.
    fn resolve(&mut self, process: ProcessId, flats: &[Flat]) -> (Vec<(Kind, ObjectId)>, Option<u8>) {
        let mut found = Vec::new();
        for (at, flat) in flats.iter().enumerate() {
            let object = if flat.kind.is_binder() {
                let object = (process, flat.value);
                let earlier = flats[..at].iter().find(|it| it.kind.is_binder() && it.value == flat.value);
                let known = self.objects.get(object).map(|it| it.cookie).or(earlier.map(|it| it.cookie));
                if known.map_or(false, |it| it != flat.cookie) {
                    self.lost(object, WEAK);
                    return (found, Some(11));
                }
                object
            } else {
                match self.name(process, flat.value as u32) {
                    Some(name) if flat.kind != Kind::Handle || name.count(STRONG) > 0 => name.object,
                    _ => return (found, Some(12)),
                }
            };
            found.push((flat.kind, object));
        }
        (found, None)
    }

    /// Those objects of a parcel that there are already, each to be held weakly.
    pub(super) fn objects_of(&self, process: ProcessId, parcel: Option<(&[u8], &[u8])>) -> Vec<(ObjectId, usize)> {
        let flats = parcel.map_or(Vec::new(), |(data, offsets)| walk(data, offsets).0);
        let object = |flat: &Flat| match flat.kind.is_binder() {
            true => Some((process, flat.value)).filter(|it| self.objects.has(*it)),
            false => self.name(process, flat.value as u32).map(|it| it.object),
        };
        flats.iter().filter_map(object).map(|it| (it, WEAK)).collect()
    }

    /// Where a buffer may start: the least place by the rules, in the smallest hole by the driver.
    fn place_for(&self, process: &Process, needed: u64) -> Option<u64> {
        let mut holes = process.holes().filter(|it| it.1 >= needed);
        if self.does(Way::Fit) {
            holes.min_by_key(|it| (it.1, it.0)).map(|it| it.0)
        } else {
            holes.next().map(|it| it.0)
        }
    }

    /// Puts a parcel into the receiver's window: the cause why not, or the buffer.
    pub(super) fn deliver(
        &mut self,
        seat: Seat,
        receiver: ProcessId,
        sent: &Sent<'_>,
        target: Option<ObjectId>,
    ) -> Result<BufferId, u8> {
        let record = &sent.record;
        let sender = self.threads.get(seat).map_or(0, |it| it.process);
        let is_one_way = target.is_some() && record.is_one_way();
        let needed = needed(record.data_size, record.offsets_size);
        let (flats, fault) = sent.parcel.map_or((Vec::new(), Some(7)), |(data, offsets)| walk(data, offsets));
        let (found, unsendable) = self.resolve(sender, &flats);
        let cause = fault.or(unsendable);
        let its = self.processes.get(receiver).ok_or(16u8)?;
        let spent = if is_one_way { its.one_way() } else { 0 };
        let place = match self.place_for(its, needed) {
            None => return Err(cause.unwrap_or(13)),
            Some(_) if is_one_way && spent + needed > its.window / 2 => return Err(cause.unwrap_or(14)),
            Some(place) => place,
        };
        if let (Some(cause), false) = (cause, self.does(Way::Half)) {
            return Err(cause);
        }
        let buffer = (receiver, place);
        self.add_buffer(buffer, seat, sent, is_one_way, target);
        self.carry(seat, buffer, sent, &flats, &found);
        if let Some(cause) = cause {
            // The driver has sent what stands before the faulty object, and takes it back.
            self.end_buffer(buffer);
            self.follow();
            return Err(cause);
        }
        self.own_notices(seat, sender, &found);
        Ok(buffer)
    }

    fn add_buffer(
        &mut self,
        buffer: BufferId,
        seat: Seat,
        sent: &Sent<'_>,
        is_one_way: bool,
        target: Option<ObjectId>,
    ) {
        let sender = self.threads.get(seat).map_or(0, |it| it.process);
        let its = self.processes.get(sender);
        let new = Buffer {
            sender,
            sender_euid: its.map_or(0, |it| it.euid),
            sender_pid: its.map_or(0, |it| it.pid),
            sender_seat: seat,
            code: sent.record.code,
            flags: sent.record.flags,
            data: no_bytes(),
            offsets: no_bytes(),
            size: sent.record.data_size,
            needed: needed(sent.record.data_size, sent.record.offsets_size),
            is_one_way,
            is_handed: false,
            is_suspect: false,
            target,
            frame: None,
            answers: None,
            entries: Vec::new(),
            sent: self.current,
            key: 0,
            id: self.transaction,
        };
        let left_by = self.take_hole(buffer);
        self.process_mut(buffer.0, |it| it.buffers.insert(buffer.1, new));
        let uncounted = Some(buffer.1).filter(|_| self.does(Way::Uncounted) && left_by != Some(sender));
        let floods = is_one_way && self.floods(buffer.0, sender, uncounted);
        if let Some(it) = self.buffer_mut(buffer) {
            it.is_suspect = floods;
        }
    }

    /// A buffer's references, and its data as the receiver sees them.
    fn carry(&mut self, seat: Seat, buffer: BufferId, sent: &Sent<'_>, flats: &[Flat], found: &[(Kind, ObjectId)]) {
        let target = self.buffer(buffer).and_then(|it| it.target);
        let (data, offsets) = sent.parcel.filter(|_| self.keeps_bytes()).unwrap_or((&[], &[]));
        let mut data = data.to_vec();
        let by = By(Some(self.current));
        if let Some(it) = target.and_then(|it| self.objects.get_mut(it)) {
            it.local[STRONG] += 1;
            it.up.add(by);
        }
        let mut entries = Vec::new();
        for (flat, (kind, object)) in flats.iter().zip(found) {
            let strength = usize::from(kind.is_strong());
            let handle = self.carry_one(seat, buffer.0, flat, *object, strength);
            if self.keeps_bytes() {
                let cookie = self.objects.get(*object).map_or(0, |it| it.cookie);
                put_seen(&mut data, flat, strength, handle.ok_or((object.1, cookie)));
            }
            let sender = flat.kind.is_handle().then_some(flat.value as u32);
            entries.push(Entry { object: *object, strength, sender, receiver: handle });
        }
        if let Some(it) = self.buffer_mut(buffer) {
            it.data = data.into();
            it.offsets = offsets.into();
            it.entries = entries;
        }
    }

    /// A buffer's reference on one object: the number of the receiver's name for it, or None where it is its own.
    fn carry_one(
        &mut self,
        seat: Seat,
        receiver: ProcessId,
        flat: &Flat,
        object: ObjectId,
        strength: usize,
    ) -> Option<u32> {
        if object.0 == receiver {
            let by = By(Some(self.current));
            if let Some(it) = self.objects.get_mut(object) {
                it.local[strength] += 1;
                it.up.add(by);
            }
            self.touch(object);
            return None;
        }
        if !self.objects.has(object) {
            self.add_object(object, flat.cookie);
        }
        let handle = self.name_for(receiver, object);
        let sender = Some(seat).filter(|_| flat.kind.is_binder());
        self.count_up(receiver, handle, strength, Ground::Carried, sender);
        Some(handle)
    }

    /// A buffer begins where a hole begins: who had sent the buffer that was there before.
    fn take_hole(&mut self, buffer: BufferId) -> Option<ProcessId> {
        self.processes.get_mut(buffer.0)?.left_by.remove(&buffer.1)
    }

    /// A buffer becomes a hole, or a part of the one before it; the one behind it becomes a part of it.
    fn leave_hole(&mut self, buffer: BufferId, its: &Buffer) {
        if !self.does(Way::Uncounted) {
            return;
        }
        let sender = its.sender;
        let behind = buffer.1.saturating_add(its.needed);
        if let Some(process) = self.processes.get_mut(buffer.0) {
            let ends = process.buffers.iter().map(|(place, it)| (place, place.saturating_add(it.needed)));
            let before = ends.filter(|it| it.0 < buffer.1).map(|it| it.1).max().unwrap_or(0);
            process.left_by.remove(&behind);
            if before == buffer.1 {
                process.left_by.insert(buffer.1, sender);
            }
        }
    }

    /// Whether a one-way call that a process has sent is reported as flooding. It may not be counted itself yet.
    fn floods(&mut self, receiver: ProcessId, sender: ProcessId, uncounted: Option<u64>) -> bool {
        let goes_drivers_way = self.does(Way::Spam);
        let is_marked = self.processes.get(sender).map_or(false, |it| it.is_marked);
        let its = match self.processes.get_mut(receiver) {
            Some(it) => it,
            None => return false,
        };
        let one_way = || its.buffers.iter().filter(|it| it.1.is_one_way);
        let own = one_way().filter(|it| it.1.sender == sender && Some(it.0) != uncounted);
        let (count, own) = own.fold((0, 0), |sum, it| (sum.0 + 1, sum.1 + it.1.needed));
        let spent: u64 = one_way().map(|it| it.1.needed).sum();
        if !goes_drivers_way {
            return is_marked && own > its.window / 4;
        }
        if its.window / 2 - spent >= its.window / 10 {
            its.is_flooded = false;
            return false;
        }
        let was_flooded = its.is_flooded;
        its.is_flooded = was_flooded || count > 50 || own > its.window / 4;
        its.is_flooded && !was_flooded
    }

    /// A buffer ends: the next one-way call on its object is due, and what it held goes.
    pub(super) fn end_buffer(&mut self, buffer: BufferId) {
        let its = match self.processes.get_mut(buffer.0).and_then(|it| it.buffers.remove(buffer.1)) {
            Some(it) => it,
            None => return,
        };
        self.leave_hole(buffer, &its);
        if let Some(target) = its.target {
            self.end_turn(target, buffer);
            self.local_down(target, STRONG);
        }
        for Entry { object, strength, receiver, .. } in its.entries.iter().copied() {
            match receiver {
                None => {
                    self.local_down(object, strength);
                    self.lost(object, WEAK);
                }
                Some(handle) if self.does(Way::Counts) => {
                    if self.name(buffer.0, handle).map_or(false, |it| it.count(strength) > 0) {
                        self.count_down(buffer.0, handle, strength, Ground::Asked);
                    }
                }
                Some(handle) => self.count_down(buffer.0, handle, strength, Ground::Carried),
            }
        }
    }

    fn end_turn(&mut self, target: ObjectId, buffer: BufferId) {
        let by = By(Some(self.current));
        let its = match self.objects.get_mut(target) {
            Some(its) => its,
            None => return,
        };
        let at = match its.turns.iter().position(|it| *it == buffer.1) {
            Some(at) => at,
            None => return,
        };
        its.turns.remove(at);
        let next = its.turns.front().copied();
        if next.is_none() {
            its.turned.add(by);
        }
        if let (0, Some(next)) = (at, next) {
            self.queue(Item::Call((buffer.0, next)), List::Process(buffer.0));
            self.wake(buffer.0);
        }
    }

    /// Which of the receiver's own objects a buffer holds: the driver holds each weakly while it lets go of it.
    fn own_objects_in(&self, buffer: BufferId) -> Vec<(ObjectId, usize)> {
        let own = |it: &&Entry| it.receiver.is_none();
        let entries = self.buffer(buffer).map_or(&[][..], |it| &it.entries);
        entries.iter().filter(own).map(|it| (it.object, WEAK)).collect()
    }

    /// BC_FREE_BUFFER.
    pub(super) fn free(&mut self, seat: Seat, process: ProcessId, pointer: u64) -> Told {
        let place = pointer.wrapping_sub(FIRST_POINTER);
        match self.buffer((process, place)).map(|it| it.is_handed) {
            None => Told::Noted(5),
            Some(false) => Told::Noted(6),
            Some(true) => {
                if self.does(Way::Released) {
                    self.hold(seat, self.own_objects_in((process, place)));
                }
                self.end_buffer((process, place));
                Told::Accepted
            }
        }
    }
}
