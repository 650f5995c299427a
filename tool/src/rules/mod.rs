// SPDX-License-Identifier: Apache-2.0 OR MIT
//! The rules of docs/RULES.md as a machine that makes steps and answers them, with a switch for each way in which Linux's driver
//! does otherwise ([`Ways`]). It is copied cheaply, since copies share what neither has changed, and two copies that have come to
//! the same by different orders of steps are equal.
//!
//! It was written apart from the engine: with no switch on it has to answer as the proved player does (tests/rules.rs), and it
//! decides nothing that the player or the library can be asked. Whoever looks at a journal has it follow the journal's answers
//! (`following`), for which it remembers more than it needs to answer by itself ([`Memory`]).
// The machine is whole: some of its halves of steps and of its switches no command asks for.
#![allow(dead_code, unused_imports)]
mod buffers;
mod calls;
mod deaths;
pub mod dialogue;
mod exits;
#[cfg(test)]
mod halves;
mod memory;
mod objects;
mod play;
mod reading;
pub mod script;
mod table;
mod ways;
mod writing;

pub use buffers::{Buffer, Entry, FIRST_POINTER};
pub use calls::{Half, What};
pub use memory::{Aside, Called, Gone, Id, Memory};
pub use reading::Got;
pub use table::Table;
pub use ways::{Way, Ways, WAYS};
pub use writing::Told;

use serde::{Deserialize, Serialize};
use std::cell::Cell;
use std::collections::{BTreeMap, VecDeque};

/// What of a pid is the process's own: who opens the device again has more in the bits above, so that no two have one pid.
pub const PID: u32 = 0x00ff_ffff;

pub const WEAK: usize = 0;
pub const STRONG: usize = 1;

/// A process by a number that no other ever has.
pub type ProcessId = u32;
pub type Seat = u32;
/// An object by its owner and its ptr: no two that stand have both.
pub type ObjectId = (ProcessId, u64);
/// A buffer by its receiver and where it starts in the window.
pub type BufferId = (ProcessId, u64);
/// A frame by the step that made it.
pub type FrameId = u64;

/// When a thing was made. It orders things, and tells none apart: what other steps were made before is of no account.
#[derive(Clone, Copy, Debug, Default, PartialOrd, Ord, Serialize, Deserialize)]
pub struct Made(pub u64, pub u32);

impl PartialEq for Made {
    fn eq(&self, _: &Made) -> bool {
        true
    }
}

impl Eq for Made {}

/// Which step has done something, for who looks for causes: it tells no two things apart.
#[derive(Clone, Copy, Debug, Default, Serialize, Deserialize)]
pub struct By(pub Option<u64>);

/// The same of the latest few steps, the last one first.
#[derive(Clone, Copy, Debug, Default)]
pub struct Past([Option<u64>; 6]);

impl Past {
    pub fn add(&mut self, step: By) {
        if self.0[0] != step.0 {
            self.0.rotate_right(1);
            self.0[0] = step.0;
        }
    }

    pub fn iter(&self) -> impl Iterator<Item = u64> + '_ {
        self.0.iter().filter_map(|it| *it)
    }
}

impl PartialEq for Past {
    fn eq(&self, _: &Past) -> bool {
        true
    }
}

impl Eq for Past {}

impl PartialEq for By {
    fn eq(&self, _: &By) -> bool {
        true
    }
}

impl Eq for By {}

/// On which switches something has depended by now, for who plays scripts: it tells no two things apart.
#[derive(Clone, Debug, Default)]
pub struct Asked(Cell<Ways>);

impl PartialEq for Asked {
    fn eq(&self, _: &Asked) -> bool {
        true
    }
}

impl Eq for Asked {}

#[derive(Clone, Copy, Debug, PartialEq, Eq, Serialize, Deserialize)]
pub enum List {
    Thread(Seat),
    Process(ProcessId),
}

/// A work item.
#[derive(Clone, Copy, Debug, PartialEq, Eq, Serialize, Deserialize)]
pub enum Item {
    Notice(ObjectId),
    /// Whether it reports flooding.
    Complete(bool),
    Refusal(u32),
    Call(BufferId),
    Reply(BufferId),
    Verdict(u32),
    /// Of the death notification with this number.
    Death(u64),
    Cleared(u64),
}

/// A work item on a list, and which step has put it there; of a Verdict, which had made the call.
#[derive(Clone, Copy, Debug, PartialEq, Eq, Serialize, Deserialize)]
pub struct Listed {
    pub item: Item,
    pub by: By,
    pub call: By,
}

pub type Todo = VecDeque<Listed>;

#[derive(Clone, Debug, PartialEq, Eq, Serialize, Deserialize)]
pub struct Process {
    pub pid: u32,
    pub euid: u32,
    pub by: By,
    pub window: u64,
    pub is_marked: bool,
    /// Whether it has begun to end (`Way::Ended`).
    #[serde(skip)]
    pub is_ending: bool,
    /// Where holes of its window begin: who had sent the buffer before (`Way::Uncounted`).
    #[serde(skip)]
    pub left_by: BTreeMap<u64, ProcessId>,
    /// Whether its window is being flooded, by the driver's measure.
    pub is_flooded: bool,
    pub todo: Todo,
    pub names: Table<u32, Name>,
    pub buffers: Table<u64, Buffer>,
    /// In the order in which they were asked for.
    pub deaths: Vec<Death>,
    /// The numbers of those that were told, in the order of telling.
    pub told: Vec<u64>,
    /// Names whose last reference has gone, and who have yet to go themselves (`Way::Released`), with whose command that was.
    #[serde(skip)]
    pub unnamed: Vec<(Seat, u32)>,
    /// Of a number that was taken away, which steps have taken references from its name last.
    #[serde(skip)]
    pub freed: BTreeMap<u32, Past>,
    /// Threads whose reads wait for whatever comes to the process, the latest first (`Way::Waiter`). Recordings have none: what a read
    /// has brought tells who waited.
    #[serde(skip)]
    pub waiters: Vec<Seat>,
}

#[derive(Clone, Debug, PartialEq, Eq, Serialize, Deserialize)]
pub struct Thread {
    pub process: ProcessId,
    pub by: By,
    pub is_looping: bool,
    /// Whether it has ever entered the loop.
    pub has_entered: bool,
    /// Whether something on its list ends a read that waits.
    pub is_due: bool,
    pub todo: Todo,
    /// A transaction or reply whose objects have their numbers, and that has yet to come to a list (`Way::Numbered`).
    #[serde(skip)]
    pub half: Option<calls::Half>,
    /// What the transaction or reply holds that has yet to give its objects their numbers (`Way::Held`).
    #[serde(skip)]
    pub held: Vec<(ObjectId, usize)>,
}

#[derive(Clone, Debug, PartialEq, Eq, Serialize, Deserialize)]
pub struct Object {
    pub cookie: u64,
    pub owner_pid: u32,
    pub owner_lives: bool,
    pub told: [bool; 2],
    pub handshake: [bool; 2],
    /// References for which nobody has a name: Target, Handshake, Manager, what the owner's window carries.
    pub local: [u32; 2],
    /// How many commands under way hold it (`Way::Held`).
    pub held: [u32; 2],
    /// Whose names lead to it, under which number.
    pub names: Vec<(ProcessId, u32)>,
    /// How many of them are strong.
    pub strong_names: u32,
    /// On whose list its Notice stands.
    pub notice: Option<List>,
    /// What it was like when a Notice was lost.
    pub lost_notice: Option<[bool; 2]>,
    /// Where the buffers of one-way calls on it start, the oldest first.
    pub turns: VecDeque<u64>,
    pub made: Made,
    /// Which steps have counted references up and down last, and which has read that it isn't held any more.
    #[serde(skip)]
    pub up: Past,
    #[serde(skip)]
    pub down: Past,
    /// .. and have ended a one-way call with no other behind it.
    #[serde(skip)]
    pub turned: Past,
    #[serde(skip)]
    pub untold: By,
}

impl Object {
    pub fn is_strong(&self) -> bool {
        self.local[STRONG] > 0 || self.strong_names > 0 || self.held[STRONG] > 0
    }

    pub fn is_weakly_held(&self) -> bool {
        self.local[WEAK] > 0 || !self.names.is_empty() || self.held[WEAK] > 0
    }

    pub fn is_held(&self) -> bool {
        self.is_weakly_held() || self.is_strong()
    }

    pub fn holds(&self) -> [bool; 2] {
        [self.is_held(), self.is_strong()]
    }
}

#[derive(Clone, Copy, Debug, PartialEq, Eq)]
pub enum Ground {
    Asked,
    Carried,
}

/// A process's name for another's object: how many references give it.
#[derive(Clone, Debug, PartialEq, Eq, Serialize, Deserialize)]
pub struct Name {
    pub object: ObjectId,
    pub asked: [u32; 2],
    pub carried: [u32; 2],
    /// The number of the death notification on it that isn't cleared.
    pub death: Option<u64>,
    pub by: By,
    /// Which steps have taken references from it last.
    #[serde(skip)]
    pub down: Past,
}

impl Name {
    pub fn count(&self, strength: usize) -> u32 {
        self.asked[strength] + self.carried[strength]
    }
}

#[derive(Clone, Copy, Debug, PartialEq, Eq, Serialize, Deserialize)]
pub enum Phase {
    Armed,
    Queued,
    Told,
    Done,
}

impl Phase {
    pub fn name(self) -> &'static str {
        match self {
            Phase::Armed => "armed",
            Phase::Queued => "queued",
            Phase::Told => "told",
            Phase::Done => "done",
        }
    }
}

#[derive(Clone, Debug, PartialEq, Eq, Serialize, Deserialize)]
pub struct Death {
    /// The step that asked for it.
    pub number: u64,
    pub handle: u32,
    /// When the object was made: its name may go before it.
    pub object: Made,
    pub cookie: u64,
    pub phase: Phase,
    pub is_cleared: bool,
}

#[derive(Clone, Copy, Debug, PartialEq, Eq, Serialize, Deserialize)]
pub enum Server {
    Pending,
    Gone,
    Seat(Seat),
}

#[derive(Clone, Copy, Debug, PartialEq, Eq, Serialize, Deserialize)]
pub struct Frame {
    pub caller: Option<Seat>,
    pub caller_pid: u32,
    pub server: Server,
    pub parent: Option<FrameId>,
    pub made: Made,
}

/// All processes with what they have, between two steps.
#[derive(Clone, Debug, PartialEq, Eq, Serialize, Deserialize)]
pub struct Space {
    pub ways: Ways,
    /// How many steps were made.
    pub steps: Made,
    /// Which step is being made, by a number that no other has.
    pub current: u64,
    /// The driver's number of the transaction that the step sends, where it is known; else 0.
    pub transaction: u64,
    pub processes: Table<ProcessId, Process>,
    pub threads: Table<Seat, Thread>,
    pub objects: Table<ObjectId, Object>,
    pub frames: Table<FrameId, Frame>,
    pub manager: Option<ObjectId>,
    /// Objects of which the step may have changed what keeps them or what their owner is owed. Empty between two steps.
    #[serde(skip)]
    touched: Vec<ObjectId>,
    /// How many things the step has made.
    things: u32,
    /// Threads that the driver has woken, and whose reads haven't come to their end yet.
    #[serde(skip)]
    pub woken: Vec<Seat>,
    #[serde(skip)]
    asked: Asked,
    /// How many calls have lost their server and aren't closed yet.
    orphans: u32,
    /// What is remembered of the past, where anybody asks for it.
    memory: Aside<Option<Box<Memory>>>,
}

/// A request but a write and a read, which are calls of their own.
#[derive(Clone, Copy, Debug, PartialEq, Eq)]
pub enum Request {
    Open { pid: u32, euid: u32, window: u32 },
    Attach { pid: u32 },
    SetManager,
    SetSpam(bool),
    ExitThread,
    ExitProcess,
}

/// Refused by the fault of this number.
pub type Fault = u8;

impl Space {
    pub fn new(ways: Ways) -> Space {
        Space {
            ways,
            steps: Made(0, 0),
            current: 0,
            transaction: 0,
            processes: Table::default(),
            threads: Table::default(),
            objects: Table::default(),
            frames: Table::default(),
            manager: None,
            touched: Vec::new(),
            things: 0,
            woken: Vec::new(),
            asked: Asked::default(),
            orphans: 0,
            memory: Aside::default(),
        }
    }

    pub fn does(&self, way: Way) -> bool {
        self.asked.0.set(self.asked.0.get().with(way));
        self.ways.has(way)
    }

    /// On which switches something has depended by now.
    pub fn asked(&self) -> Ways {
        self.asked.0.get()
    }

    /// Begins a step, which `number` tells from all others.
    pub fn begin(&mut self, number: u64) {
        self.steps.0 += 1;
        self.current = number;
        self.transaction = 0;
        self.things = 0;
        self.touched.clear();
    }

    /// How many steps were made.
    pub fn made(&self) -> u64 {
        self.steps.0
    }

    pub(super) fn new_thing(&mut self) -> Made {
        self.things += 1;
        Made(self.steps.0, self.things)
    }

    /// A request's one step, for a step that has begun.
    pub fn request(&mut self, seat: Seat, request: Request) -> Result<(), Fault> {
        match request {
            Request::Open { pid, euid, window } => return self.open(seat, pid, euid, window),
            Request::Attach { .. } if self.threads.has(seat) => return Err(5),
            Request::Attach { pid } => return self.attach_by_pid(seat, pid),
            _ => {}
        }
        let process = self.threads.get(seat).ok_or(4u8)?.process;
        match request {
            Request::SetManager => return self.set_manager(process),
            Request::SetSpam(on) => self.process_mut(process, |it| it.is_marked = on),
            Request::ExitThread => self.exit_thread(seat),
            _ => self.exit_process(process),
        }
        Ok(())
    }

    fn open(&mut self, seat: Seat, pid: u32, euid: u32, window: u32) -> Result<(), Fault> {
        if !(1..=0x7fff_ffff).contains(&pid) {
            return Err(7);
        }
        if window % 4096 != 0 || !(4096..=4_194_304).contains(&window) {
            return Err(8);
        }
        if self.threads.has(seat) {
            return Err(5);
        }
        if self.processes.iter().any(|(_, it)| it.pid == pid) {
            return Err(6);
        }
        let number = self.steps.0 as ProcessId;
        self.open_as(number, pid, euid, u64::from(window));
        self.attach(seat, number);
        Ok(())
    }

    /// A process with a number of its own, without a thread.
    pub fn open_as(&mut self, number: ProcessId, pid: u32, euid: u32, window: u64) {
        let process = Process {
            pid,
            euid,
            by: By(Some(self.current)),
            window,
            is_marked: false,
            is_ending: false,
            left_by: BTreeMap::new(),
            is_flooded: false,
            todo: VecDeque::new(),
            names: Table::default(),
            buffers: Table::default(),
            deaths: Vec::new(),
            told: Vec::new(),
            unnamed: Vec::new(),
            freed: BTreeMap::new(),
            waiters: Vec::new(),
        };
        self.processes.insert(number, process);
    }

    fn attach_by_pid(&mut self, seat: Seat, pid: u32) -> Result<(), Fault> {
        let number = self.processes.iter().find(|(_, it)| it.pid == pid).map(|(number, _)| number).ok_or(9u8)?;
        self.attach(seat, number);
        Ok(())
    }

    pub fn attach(&mut self, seat: Seat, process: ProcessId) {
        let thread = Thread {
            process,
            by: By(Some(self.current)),
            is_looping: false,
            has_entered: false,
            is_due: false,
            todo: VecDeque::new(),
            half: None,
            held: Vec::new(),
        };
        self.threads.insert(seat, thread);
    }

    fn set_manager(&mut self, process: ProcessId) -> Result<(), Fault> {
        let object = (process, 0);
        if self.manager.is_some() || self.objects.has(object) && !self.does(Way::Ptr0) {
            return Err(10);
        }
        if !self.objects.has(object) {
            self.add_object(object, 0);
        }
        if let Some(it) = self.objects.get_mut(object) {
            it.local = [it.local[WEAK] + 1, it.local[STRONG] + 1];
            it.told = [true; 2];
        }
        self.manager = Some(object);
        Ok(())
    }

    pub(super) fn process_mut(&mut self, process: ProcessId, change: impl FnOnce(&mut Process)) {
        if let Some(it) = self.processes.get_mut(process) {
            change(it);
        }
    }

    // ------------------------------------------------------------ todo lists

    pub fn list(&self, list: List) -> Option<&Todo> {
        match list {
            List::Thread(seat) => self.threads.get(seat).map(|it| &it.todo),
            List::Process(process) => self.processes.get(process).map(|it| &it.todo),
        }
    }

    fn list_mut(&mut self, list: List) -> Option<&mut Todo> {
        match list {
            List::Thread(seat) => self.threads.get_mut(seat).map(|it| &mut it.todo),
            List::Process(process) => self.processes.get_mut(process).map(|it| &mut it.todo),
        }
    }

    pub(super) fn queue(&mut self, item: Item, list: List) {
        let by = By(Some(self.current));
        if let Some(todo) = self.list_mut(list) {
            todo.push_back(Listed { item, by, call: By::default() });
        }
    }

    pub(super) fn unqueue(&mut self, item: Item, list: List) {
        if let Some(todo) = self.list_mut(list) {
            if let Some(at) = todo.iter().position(|it| it.item == item) {
                todo.remove(at);
            }
        }
    }

    /// An item of a thread's own. One that is deferred is no reason to end a read.
    pub(super) fn owe(&mut self, seat: Seat, item: Item, is_deferred: bool) {
        self.owe_of(seat, item, is_deferred, By::default());
    }

    /// What becomes of a call that gets no reply.
    pub(super) fn owe_verdict(&mut self, seat: Seat, code: u32, call: FrameId) {
        self.owe_of(seat, Item::Verdict(code), false, By(Some(call)));
    }

    fn owe_of(&mut self, seat: Seat, item: Item, is_deferred: bool, call: By) {
        let one_verdict = self.does(Way::Verdict) && matches!(item, Item::Verdict(_));
        let by = By(Some(self.current));
        if let Some(thread) = self.threads.get_mut(seat) {
            if one_verdict && thread.todo.iter().any(|it| matches!(it.item, Item::Verdict(_))) {
                return;
            }
            thread.todo.push_back(Listed { item, by, call });
            thread.is_due = thread.is_due || !is_deferred;
        }
    }

    // ------------------------------------------------------------ reads that wait

    /// A thread's read begins to wait: for whatever comes to its process, unless something of its own is under way.
    pub fn begin_to_wait(&mut self, seat: Seat) {
        let is_idle = self.threads.get(seat).map_or(false, |it| it.todo.is_empty()) && self.innermost(seat).is_none();
        if let (true, Some(process)) = (is_idle, self.threads.get(seat).map(|it| it.process)) {
            self.process_mut(process, |it| it.waiters.insert(0, seat));
        }
    }

    pub fn end_wait(&mut self, seat: Seat) {
        let process = self.threads.get(seat).map_or(0, |it| it.process);
        if self.processes.get(process).map_or(false, |it| it.waiters.contains(&seat)) {
            self.process_mut(process, |it| it.waiters.retain(|it| *it != seat));
        }
    }

    /// The driver wakes the thread that began to wait last.
    pub(super) fn wake(&mut self, process: ProcessId) -> Option<Seat> {
        let seat = self.processes.get(process)?.waiters.first().copied()?;
        if !self.does(Way::Waiter) {
            return None;
        }
        self.process_mut(process, |it| it.waiters.retain(|it| *it != seat));
        self.woken.push(seat);
        Some(seat)
    }

    // ------------------------------------------------------------ the end of a step

    /// What comes behind a step: objects go that nothing keeps, Notices go and come, calls close whose servers are gone.
    pub(super) fn follow(&mut self) {
        let mut touched = std::mem::take(&mut self.touched);
        if !self.does(Way::Notices) {
            touched.sort_unstable();
            touched.dedup();
            touched.sort_by_key(|it| self.objects.get(*it).map(|it| it.made));
            for object in &touched {
                self.follow_object(*object);
            }
        }
        touched.clear();
        self.touched = touched;
        self.settle();
    }
}
