// SPDX-License-Identifier: Apache-2.0 OR MIT
//! What a live engine's history has come to: processes, threads, objects, buffers, open calls, death notifications, and what is still to be
//! read. Processes, buffers, calls and death notifications are named by the place of the step that made them.
use crate::Live;
use hullpippin_sys as sys;
use std::iter;

/// The identity of an object: the place of the step that made it, and which of that step's objects it is, from 0.
#[derive(Clone, Copy, Debug, PartialEq, Eq, Hash, PartialOrd, Ord)]
pub struct ObjectId {
    /// The place of the step that made the object.
    pub place: u64,
    /// Which of the objects that this step made it is, from 0.
    pub index: u32,
}

impl ObjectId {
    fn told(told: sys::hullpippin_object_id) -> ObjectId {
        ObjectId { place: told.place, index: told.index }
    }
}

/// A live process, as it was opened.
#[derive(Clone, Copy, Debug, PartialEq, Eq, Hash)]
pub struct Process {
    /// The place of its Open.
    pub made: u64,
    /// The pid, which no other live process has.
    pub pid: u32,
    /// The effective user id.
    pub euid: u32,
    /// The size of its window in bytes.
    pub window: u32,
    /// Whether it is told of its own one-way flooding.
    pub spam_detection: bool,
}

/// The live thread of a seat.
#[derive(Clone, Copy, Debug, PartialEq, Eq, Hash)]
pub struct Thread {
    /// The place of its Open or Attach.
    pub made: u64,
    /// The process of the thread, by the place of its Open.
    pub process: u64,
    /// Whether the thread has entered the loop, in which it reads its process's list, too.
    pub looping: bool,
}

/// An object that a process offers to others (a node).
#[derive(Clone, Copy, Debug, PartialEq, Eq, Hash)]
pub struct Object {
    /// The process that owns it, live or not.
    pub owner: u64,
    /// The pointer by which its owner knows it.
    pub ptr: u64,
    /// The cookie that its owner gave with it.
    pub cookie: u64,
    /// Whether its owner was told that it is referred to.
    pub told_weak: bool,
    /// Whether its owner was told that it is referred to strongly.
    pub told_strong: bool,
}

/// A buffer that lives: the parcel of a transaction or reply, in its receiver's window.
#[derive(Clone, Copy, Debug, PartialEq, Eq, Hash)]
pub struct Buffer {
    /// The process whose window it lies in.
    pub receiver: u64,
    /// The process that sent it, live or not.
    pub sender: u64,
    /// Where it begins in the window, in bytes.
    pub start: u32,
    /// How many bytes of the window it takes.
    pub size: u32,
    /// Whether it is a one-way call's.
    pub one_way: bool,
    /// Whether it was handed out, by the reading of its call or reply.
    pub handed: bool,
    /// The object that a transaction goes to; a reply goes to none.
    pub target: Option<ObjectId>,
    /// The number of the method that is called, as the sender wrote it.
    pub code: u32,
    /// The flags, as the sender wrote them.
    pub flags: u32,
    /// The sender's effective user id.
    pub euid: u32,
    /// How many bytes of data the parcel has.
    pub data: usize,
    /// How many bytes of offsets the parcel has, eight for each object.
    pub offsets: usize,
}

/// The innermost open call that a thread is in.
#[derive(Clone, Copy, Debug, PartialEq, Eq, Hash)]
pub struct Frame {
    /// The place of its transaction.
    pub made: u64,
    /// Whether the thread serves it; else it made it.
    pub serves: bool,
}

/// How far a death notification is.
#[derive(Clone, Copy, Debug, PartialEq, Eq, Hash)]
pub enum Phase {
    /// The owner of the object lives.
    Armed,
    /// The owner has ended, and that is to be read.
    Queued,
    /// The process has read that the owner has ended.
    Told,
    /// The process has acknowledged that it read so.
    Acknowledged,
}

/// What one process asked to be told about the end of an object's owner.
#[derive(Clone, Copy, Debug, PartialEq, Eq, Hash)]
pub struct DeathNotification {
    /// The process that asked for it, by the place of its Open.
    pub process: u64,
    /// The object whose owner's death is told.
    pub object: ObjectId,
    /// The cookie that the process gave with it.
    pub cookie: u64,
    /// What has come of it so far.
    pub phase: Phase,
    /// Whether it was cleared while it was to be read, or read.
    pub cleared: bool,
}

/// Whose list of what is still to be read.
#[derive(Clone, Copy, Debug, PartialEq, Eq, Hash)]
pub enum TodoList {
    /// The list of this seat's thread.
    OfThread(u32),
    /// The list of the process that was opened at this place.
    OfProcess(u64),
}

/// What is still to be read.
#[derive(Clone, Copy, Debug, PartialEq, Eq, Hash)]
pub enum Work {
    /// The references to an own object have changed.
    Notice(ObjectId),
    /// A transaction or reply was accepted; whether it reports that its sender floods the receiver.
    Complete {
        /// Whether it is read as `BR_ONEWAY_SPAM_SUSPECT`.
        spam: bool,
    },
    /// What was written was refused: the code of the return.
    Refusal(u32),
    /// A call, by its buffer.
    Call(u64),
    /// A reply, by its buffer.
    Reply(u64),
    /// An accepted call has failed: the code of the return.
    Verdict(u32),
    /// The owner of an object has ended, by the notification.
    Death(u64),
    /// A death notification was cleared, by its cookie.
    Cleared(u64),
}

/// Where to look on behind a place.
fn place_after(place: u64) -> Option<u64> {
    place.checked_add(1)
}

impl Phase {
    fn told(number: u32) -> Phase {
        match number {
            sys::HULLPIPPIN_ARMED => Phase::Armed,
            sys::HULLPIPPIN_QUEUED => Phase::Queued,
            sys::HULLPIPPIN_TOLD => Phase::Told,
            sys::HULLPIPPIN_ACKNOWLEDGED => Phase::Acknowledged,
            number => panic!("the library tells phase {number}"),
        }
    }
}

impl Work {
    fn told(told: &sys::hullpippin_work) -> Work {
        match told.kind {
            sys::HULLPIPPIN_NOTICE => Work::Notice(ObjectId::told(told.object)),
            sys::HULLPIPPIN_COMPLETION => Work::Complete { spam: told.spam },
            sys::HULLPIPPIN_REFUSAL => Work::Refusal(told.code),
            sys::HULLPIPPIN_CALL => Work::Call(told.made),
            sys::HULLPIPPIN_REPLY => Work::Reply(told.made),
            sys::HULLPIPPIN_VERDICT => Work::Verdict(told.code),
            sys::HULLPIPPIN_DEATH => Work::Death(told.made),
            sys::HULLPIPPIN_CLEARED => Work::Cleared(told.cookie),
            kind => panic!("the library tells kind {kind} of what is to be read"),
        }
    }
}

/// Looks at what the history has come to.
///
/// ```
/// use hullpippin::{Live, ObjectId};
///
/// fn main() -> Result<(), hullpippin::Error> {
///     let mut live = Live::new(1)?;
///     live.open(0, 100, 1000, 4096)?;
///     live.manager(0)?;
///     let place = live.process_of_pid(100).expect("a process");
///     assert_eq!(live.process(place).map(|it| it.euid), Some(1000));
///     assert_eq!(live.manager_object(), Some(ObjectId { place: 1, index: 0 }));
///     assert_eq!(live.buffer(0), None);
///     Ok(())
/// }
/// ```
///
/// What there is can be gone through. An iterator has the engine as long as it lasts: gather what it tells before looking at each.
///
/// ```
/// use hullpippin::{Command, Live};
///
/// fn main() -> Result<(), hullpippin::Error> {
///     let mut live = Live::new(2)?;
///     live.open(0, 100, 1000, 4096)?;
///     live.manager(0)?;
///     live.open(1, 200, 2000, 4096)?;
///     live.command(1, &Command::Increfs(0))?;
///     let places: Vec<u64> = live.processes().collect();
///     let pids: Vec<_> = places.iter().filter_map(|place| live.process(*place)).map(|it| it.pid).collect();
///     assert_eq!(pids, [100, 200]);
///     assert!(live.handles(200).eq([0]));
///     assert_eq!(live.handles(100).count() + live.buffers(places[0]).count(), 0);
///     Ok(())
/// }
/// ```
impl Live {
    /// What a look fills, where it finds something.
    fn found<T: Default>(&mut self, look: impl FnOnce(*mut sys::hullpippin_live, *mut T) -> bool) -> Option<T> {
        let mut told = T::default();
        look(self.handle(), &mut told).then_some(told)
    }

    /// All that a look tells which has the first from a number on, one after the other.
    fn each<'a, T, F>(&'a mut self, after: fn(T) -> Option<T>, mut look: F) -> impl Iterator<Item = T> + 'a
    where
        T: Copy + Default + 'a,
        F: FnMut(*mut sys::hullpippin_live, T, *mut T) -> bool + 'a,
    {
        let mut from = Some(T::default());
        iter::from_fn(move || {
            let first = from?;
            let next = self.found(|live, next| look(live, first, next))?;
            from = after(next);
            Some(next)
        })
    }

    /// All that a look tells, from index 0 on.
    fn all<T: Default>(&mut self, mut look: impl FnMut(*mut sys::hullpippin_live, usize, *mut T) -> bool) -> Vec<T> {
        let mut all = Vec::new();
        while let Some(told) = self.found(|live, told| look(live, all.len(), told)) {
            all.push(told);
        }
        all
    }

    /// The live process that was opened at this place.
    pub fn process(&mut self, made: u64) -> Option<Process> {
        // SAFETY: here and in what follows the handle has an engine, and what is filled is there.
        let told = self.found(|live, told| unsafe { sys::hullpippin_live_process(live, made, told) })?;
        let sys::hullpippin_process { made, pid, euid, window, spam_detection } = told;
        Some(Process { made, pid, euid, window, spam_detection })
    }

    /// The live process with this pid, by the place of its Open.
    pub fn process_of_pid(&mut self, pid: u32) -> Option<u64> {
        self.found(|live, made| unsafe { sys::hullpippin_live_process_of_pid(live, pid, made) })
    }

    /// The live processes, each by the place of its Open, in the order in which they were opened.
    pub fn processes(&mut self) -> impl Iterator<Item = u64> + '_ {
        self.each(place_after, |live, from, place| unsafe { sys::hullpippin_live_next_process(live, from, place) })
    }

    /// The handles that name something for the live process with this pid, from the least on.
    pub fn handles(&mut self, pid: u32) -> impl Iterator<Item = u32> + '_ {
        let after = |handle: u32| handle.checked_add(1);
        self.each(after, move |live, from, handle| unsafe {
            sys::hullpippin_live_next_handle(live, pid, from, handle)
        })
    }

    /// The live buffers of a process, which is named by the place of its Open: where each was made, from the oldest on.
    pub fn buffers(&mut self, process: u64) -> impl Iterator<Item = u64> + '_ {
        self.each(place_after, move |live, from, made| unsafe {
            sys::hullpippin_live_next_buffer(live, process, from, made)
        })
    }

    /// The live thread of a seat, if it has one.
    pub fn thread(&mut self, seat: u32) -> Option<Thread> {
        let told = self.found(|live, told| unsafe { sys::hullpippin_live_thread(live, seat, told) })?;
        let sys::hullpippin_thread { made, process, looping } = told;
        Some(Thread { made, process, looping })
    }

    /// The identity of the context manager's object, if there is a manager.
    pub fn manager_object(&mut self) -> Option<ObjectId> {
        self.found(|live, told| unsafe { sys::hullpippin_live_manager_object(live, told) }).map(ObjectId::told)
    }

    /// The object with this identity, if it is still there.
    pub fn object(&mut self, id: ObjectId) -> Option<Object> {
        let ObjectId { place, index } = id;
        let told = self.found(|live, told| unsafe { sys::hullpippin_live_object(live, place, index, told) })?;
        let sys::hullpippin_object { owner, ptr, cookie, told_weak, told_strong } = told;
        Some(Object { owner, ptr, cookie, told_weak, told_strong })
    }

    /// The object that a handle names for the live process with this pid.
    pub fn named(&mut self, pid: u32, handle: u32) -> Option<ObjectId> {
        self.found(|live, told| unsafe { sys::hullpippin_live_named(live, pid, handle, told) }).map(ObjectId::told)
    }

    /// The live buffer that was made at this place.
    pub fn buffer(&mut self, made: u64) -> Option<Buffer> {
        let told = self.found(|live, told| unsafe { sys::hullpippin_live_buffer(live, made, told) })?;
        Some(Buffer {
            receiver: told.receiver,
            sender: told.sender,
            start: told.start,
            size: told.size,
            one_way: told.one_way,
            handed: told.handed,
            target: told.is_call.then_some(ObjectId::told(told.target)),
            code: told.code,
            flags: told.flags,
            euid: told.euid,
            data: told.data,
            offsets: told.offsets,
        })
    }

    /// The objects that the live buffer made at this place carries, one for each object of its parcel, in their order. The library finds
    /// each by going along those before it, so the time grows with the square of how many there are.
    pub fn carried(&mut self, made: u64) -> Vec<ObjectId> {
        let told = self.all(|live, index, told| unsafe { sys::hullpippin_live_carried(live, made, index, told) });
        told.into_iter().map(ObjectId::told).collect()
    }

    /// What is still to be read of a list, oldest first. The time grows with the square of how much that is, as with [`Live::carried`].
    pub fn unread(&mut self, list: TodoList) -> Vec<Work> {
        let told = self.all(|live, index, told| match list {
            TodoList::OfThread(seat) => unsafe { sys::hullpippin_live_unread_of_thread(live, seat, index, told) },
            TodoList::OfProcess(process) => unsafe {
                sys::hullpippin_live_unread_of_process(live, process, index, told)
            },
        });
        told.iter().map(Work::told).collect()
    }

    /// The innermost open call that a seat's thread is in.
    pub fn innermost(&mut self, seat: u32) -> Option<Frame> {
        let told = self.found(|live, told| unsafe { sys::hullpippin_live_innermost(live, seat, told) })?;
        let sys::hullpippin_frame { made, serves } = told;
        Some(Frame { made, serves })
    }

    /// The death notification that was asked for at this place.
    pub fn death(&mut self, made: u64) -> Option<DeathNotification> {
        let told = self.found(|live, told| unsafe { sys::hullpippin_live_death(live, made, told) })?;
        Some(DeathNotification {
            process: told.process,
            object: ObjectId::told(told.object),
            cookie: told.cookie,
            phase: Phase::told(told.phase),
            cleared: told.cleared,
        })
    }
}
