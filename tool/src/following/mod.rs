// SPDX-License-Identifier: Apache-2.0 OR MIT
//! A journal that the rules follow: each of its steps is made on the rules' machine as the journal says that it was answered, and
//! what is known of it is told.
//!
//! The machine doesn't judge here. Of a lawful journal it comes to what the rules give, and so does what is told of it. Of any other
//! it comes to something: what is answered otherwise than the rules could is passed over.
mod commands;
mod reading;
mod sending;

pub use crate::rules::{Id as ObjectId, Space, STRONG, WEAK};

use crate::journal::{Answer, Entry, Step};
use crate::judge::Given;
use crate::rules::{Buffer, BufferId, Entry as Carry, ProcessId, Request, Seat, FIRST_POINTER};
use crate::times::Moment;
use crate::who::Person;

/// An object of a parcel, as both sides know it.
#[derive(Clone, Copy, Debug, PartialEq, Eq)]
pub struct Carried {
    pub object: ObjectId,
    /// Handles; None on the side that owns the object.
    pub sender: Option<u32>,
    pub receiver: Option<u32>,
}

/// A transaction or reply that was sent: who sent it, and what it says.
#[derive(Clone, Copy, Debug, PartialEq, Eq)]
pub struct Sent {
    /// The place of its command.
    pub made: u64,
    pub pid: u32,
    pub seat: u32,
    pub code: u32,
    pub flags: u32,
    pub size: u64,
    /// What was called; None of a reply.
    pub target: Option<ObjectId>,
    /// Of a reply, the call that it answers.
    pub answers: Option<u64>,
}

/// What a return, or a freed buffer, is about.
#[derive(Clone, Copy, Debug, PartialEq, Eq)]
pub enum About {
    Nothing,
    Sent(Sent),
    /// The failure of the call at a place.
    Call(u64),
    Object(ObjectId),
    /// The death notification asked for at a place.
    Death(u64, ObjectId),
}

/// What is known of an entry beside what it says itself.
#[derive(Clone, Debug, Default)]
pub struct Facts {
    /// The pid of the seat's process before the step, or else after it.
    pub pid: Option<u32>,
    /// What the command means by its handle, or by its ptr and cookie.
    pub object: Option<ObjectId>,
    /// To whom an accepted transaction or reply goes.
    pub receiver: Option<u32>,
    /// The call that a reply answers.
    pub answers: Option<u64>,
    /// The seat and the pid of that call's caller.
    pub caller: Option<(u32, u32)>,
    /// What stands at each offset of the parcel, sent or read.
    pub carried: Vec<Option<Carried>>,
    /// For each return that was read what it is about; of a BC_FREE_BUFFER what was in the buffer.
    pub about: Vec<About>,
    /// When the step was made, and by which thread; that lies beside the journal, or isn't known.
    pub time: Option<Moment>,
    pub person: Option<Person>,
    /// For each of `about` how many nanoseconds after the call was made, where that is known.
    pub ages: Vec<Option<u64>>,
    /// Where it was judged, and doesn't follow from the entries before it: what the rules give in its place.
    pub given: Option<Box<Given>>,
}

impl Facts {
    fn clear(&mut self) {
        self.carried.clear();
        self.about.clear();
        self.ages.clear();
        let (carried, about) = (std::mem::take(&mut self.carried), std::mem::take(&mut self.about));
        *self = Facts { carried, about, ages: std::mem::take(&mut self.ages), ..Facts::default() };
    }
}

/// Who makes a step, and where.
#[derive(Clone, Copy, Debug)]
struct Act {
    place: u64,
    seat: Seat,
    process: ProcessId,
}

impl Space {
    /// Makes a journal's step, and tells what is known of it.
    pub fn follow_entry(&mut self, entry: &Entry<'_>, facts: &mut Facts) {
        facts.clear();
        facts.pid = self.pid_of(entry.seat);
        self.steps.0 = entry.place;
        self.begin(entry.place);
        self.make(entry, facts);
        facts.pid = facts.pid.or_else(|| self.pid_of(entry.seat));
    }

    fn make(&mut self, entry: &Entry<'_>, facts: &mut Facts) {
        let seat = entry.seat;
        match (&entry.step, &entry.answer) {
            (Step::Open { pid, euid, window }, Answer::Opened) => {
                let process = self.made() as ProcessId;
                self.open_as(process, *pid, *euid, u64::from(*window));
                self.sit_down(seat, process);
            }
            (Step::Attach { pid }, Answer::Opened) => {
                let process = self.processes.iter().rev().find(|it| it.1.pid == *pid).map(|it| it.0);
                process.into_iter().for_each(|it| self.sit_down(seat, it));
            }
            _ => {}
        }
        let act = match self.threads.get(seat) {
            Some(it) => Act { place: entry.place, seat, process: it.process },
            None => return,
        };
        match (&entry.step, &entry.answer) {
            (Step::Manager, Answer::Set) => self.become_manager(act),
            (Step::Spam { on }, Answer::Set) => self.pass_over(act, Request::SetSpam(*on)),
            (Step::ExitThread, Answer::Exited) => self.pass_over(act, Request::ExitThread),
            (Step::ExitProcess, Answer::Exited) => self.pass_over(act, Request::ExitProcess),
            (Step::Read { .. }, Answer::Got { stream, parcel }) => self.read_as(act, stream, *parcel, facts),
            (Step::Command { command, parcel, .. }, answer) => {
                self.follow_command(act, command, parcel.unwrap_or_default(), answer, facts)
            }
            _ => {}
        }
    }

    /// Makes a request whose answer is known. One that the rules would refuse is passed over.
    fn pass_over(&mut self, act: Act, request: Request) {
        let _ = self.request(act.seat, request);
    }

    /// A seat has a thread of a process, and no other any more.
    fn sit_down(&mut self, seat: Seat, process: ProcessId) {
        if self.threads.has(seat) {
            self.exit_thread(seat);
        }
        self.attach(seat, process);
    }

    fn become_manager(&mut self, act: Act) {
        self.pass_over(act, Request::SetManager);
        let manager = self.manager.and_then(|it| self.id_of(it));
        if let Some(called) = manager.and_then(|it| self.called_mut(it)) {
            called.service.get_or_insert_with(|| "manager".into());
        }
    }

    // ------------------------------------------------------------ what there is

    pub fn pid_of(&self, seat: Seat) -> Option<u32> {
        self.processes.get(self.threads.get(seat)?.process).map(|it| it.pid)
    }

    /// Whether a seat has something to read.
    pub fn is_ready(&self, seat: Seat) -> bool {
        self.list_to_read(seat).is_some()
    }

    /// The object that a process means by a handle as an address: 0 is the manager, where there is one.
    pub fn addressed(&self, process: ProcessId, handle: u32) -> Option<ObjectId> {
        match self.manager {
            Some(manager) if handle == 0 => self.id_of(manager),
            _ => self.named(process, handle),
        }
    }

    /// The object that a process names by a handle.
    pub fn named(&self, process: ProcessId, handle: u32) -> Option<ObjectId> {
        self.id_of(self.name(process, handle)?.object)
    }

    /// A process's own objects, by their ptrs.
    pub fn objects_owned(&self, process: ProcessId) -> impl Iterator<Item = (u64, &crate::rules::Object)> + '_ {
        self.objects.from((process, 0)).take_while(move |it| it.0 .0 == process).map(|(it, object)| (it.1, object))
    }

    /// The open calls in which a thread takes part, the innermost last.
    pub fn calls_of(&self, seat: Seat) -> Vec<u64> {
        let is_its =
            |it: &crate::rules::Frame| it.caller == Some(seat) || it.server == crate::rules::Server::Seat(seat);
        let mut found: Vec<_> = self.frames.iter().filter(|it| is_its(it.1)).map(|it| (it.1.made, it.0)).collect();
        found.sort_unstable();
        found.into_iter().map(|it| it.1).collect()
    }

    /// All references on an object: weak, strong. That of the context manager is a strong one; the machine holds it by both, as the driver.
    pub fn references(&self, object: crate::rules::ObjectId) -> [u64; 2] {
        let its = match self.objects.get(object) {
            Some(its) => its,
            None => return [0; 2],
        };
        let [weak, strong] = [WEAK, STRONG].map(|strength| {
            let named = |it: &(ProcessId, u32)| self.name(it.0, it.1).map_or(0, |it| u64::from(it.count(strength)));
            u64::from(its.local[strength]) + its.names.iter().map(named).sum::<u64>()
        });
        [weak.saturating_sub(u64::from(self.manager == Some(object))), strong]
    }

    /// What was sent that lies in a buffer.
    pub fn sent(&self, buffer: &Buffer) -> Sent {
        Sent {
            made: buffer.sent,
            pid: buffer.sender_pid,
            seat: buffer.sender_seat,
            code: buffer.code,
            flags: buffer.flags,
            size: buffer.size,
            target: buffer.target.and_then(|it| self.id_of(it)),
            answers: buffer.answers,
        }
    }

    /// What stands at each offset of a buffer's parcel.
    fn carried(&self, buffer: BufferId) -> Vec<Option<Carried>> {
        let known =
            |it: &Carry| Some(Carried { object: self.id_of(it.object)?, sender: it.sender, receiver: it.receiver });
        self.buffer(buffer).map_or(Vec::new(), |it| it.entries.iter().map(known).collect())
    }

    /// What people may call an object: the name of its service, or else its interface.
    pub fn name_of(&self, object: ObjectId) -> Option<&str> {
        let called = self.called(object)?;
        called.service.as_deref().or(called.interface.as_deref())
    }
}

impl Buffer {
    /// The place at which it was read, if it was.
    pub fn read(&self) -> Option<u64> {
        self.key.checked_sub(1)
    }
}

/// The buffer of a process at which a pointer points.
fn pointed(process: ProcessId, pointer: u64) -> BufferId {
    (process, pointer.wrapping_sub(FIRST_POINTER))
}
