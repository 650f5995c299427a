// SPDX-License-Identifier: Apache-2.0 OR MIT
//! An engine that keeps no history.
use crate::answers::{note, Fetched};
use crate::status::checked;
use crate::{copied, Answer, Command, Error, Parcel, TodoList, TransactionData};
use hullpippin_sys as sys;
use std::fmt;

/// An engine that keeps no history: all seats' steps are made with it, by the seats' numbers, and it has the entry of the latest.
///
/// ```
/// use hullpippin::{verdict_on, Answer, Live, Verdict};
///
/// fn main() -> Result<(), hullpippin::Error> {
///     let mut live = Live::new(2)?;
///     let mut journal = live.heading(2)?;
///     assert_eq!(live.open(0, 100, 1000, 4096)?.answer, Answer::Opened);
///     journal.extend(live.entry()?);
///     assert_eq!(live.manager(0)?.answer, Answer::Set);
///     journal.extend(live.entry()?);
///     assert_eq!(verdict_on(&journal)?, Verdict::Lawful(2));
///     Ok(())
/// }
/// ```
pub struct Live {
    handle: sys::hullpippin_live,
}

// The library proves that what is behind a handle may go to another thread.
unsafe impl Send for Live {}

/// What a step came to, and its place in the history.
#[derive(Clone, Debug, PartialEq, Eq)]
pub struct Made {
    /// What the step came to: told as of a seat's request of that name, and of a command as of a write of it alone.
    pub answer: Answer,
    /// How many steps there were before.
    pub place: u64,
}

impl Live {
    /// A live engine for so many seats, 1 to 65536.
    pub fn new(seats: u32) -> Result<Live, Error> {
        Live::begun(|live| unsafe { sys::hullpippin_live_new(seats, live) })
    }

    /// What a call makes of an empty handle.
    pub(crate) fn begun(make: impl FnOnce(*mut sys::hullpippin_live) -> u32) -> Result<Live, Error> {
        let mut handle = sys::hullpippin_live::NONE;
        // SAFETY: the handle is empty.
        checked(make(&mut handle))?;
        Ok(Live { handle })
    }

    /// What was read for somebody who waits, by the latest step.
    pub(crate) fn read_for(&mut self, told: &sys::hullpippin_answer) -> Made {
        Made { answer: self.told(told, Vec::new(), 0), place: told.from }
    }

    /// Makes a step of a command of so many bytes, or of none, and fetches what it answered.
    fn made(
        &mut self,
        size: u32,
        step: impl FnOnce(*mut sys::hullpippin_live, *mut sys::hullpippin_answer) -> u32,
    ) -> Result<Made, Error> {
        let mut told = sys::hullpippin_answer::default();
        checked(step(&mut self.handle, &mut told))?;
        let notes = (0..told.notes).map(|_| (0, note(told.number))).collect();
        Ok(Made { answer: self.told(&told, notes, size), place: told.from })
    }

    /// Opens a process with one thread, the seat's: `pid` 1 to 2147483647, `window` a multiple of 4096 up to 4194304.
    pub fn open(&mut self, seat: u32, pid: u32, euid: u32, window: u32) -> Result<Made, Error> {
        // SAFETY: here and in what follows the handle has an engine until it is let go of, and `&mut self` keeps other
        // calls away.
        self.made(0, |live, told| unsafe { sys::hullpippin_live_open(live, seat, pid, euid, window, told) })
    }

    /// Makes the seat a further thread of a live process.
    pub fn attach(&mut self, seat: u32, pid: u32) -> Result<Made, Error> {
        self.made(0, |live, told| unsafe { sys::hullpippin_live_attach(live, seat, pid, told) })
    }

    /// Makes the seat's process the context manager.
    pub fn manager(&mut self, seat: u32) -> Result<Made, Error> {
        self.made(0, |live, told| unsafe { sys::hullpippin_live_manager(live, seat, told) })
    }

    /// Has the seat's process told of its own one-way flooding, or no longer.
    pub fn set_spam(&mut self, seat: u32, on: bool) -> Result<Made, Error> {
        self.made(0, |live, told| unsafe { sys::hullpippin_live_set_spam(live, seat, on.into(), told) })
    }

    /// Runs one command by its bytes, with its parcel if it is a transaction or reply: the data and the offsets of its objects.
    pub fn command_bytes(&mut self, seat: u32, command: &[u8], data: &[u8], offsets: &[u8]) -> Result<Made, Error> {
        // SAFETY: a slice's pointer isn't null and is aligned, and all live until the call is back.
        self.made(command.len() as u32, |live, told| unsafe {
            sys::hullpippin_live_command(
                live,
                seat,
                command.as_ptr(),
                command.len(),
                data.as_ptr(),
                data.len(),
                offsets.as_ptr(),
                offsets.len(),
                told,
            )
        })
    }

    /// Runs one command without a parcel.
    pub fn command(&mut self, seat: u32, command: &Command) -> Result<Made, Error> {
        self.command_bytes(seat, &command.to_bytes(), &[], &[])
    }

    /// Runs a transaction: calls what the process has under a handle, 0 for the context manager.
    pub fn transact(&mut self, seat: u32, handle: u32, code: u32, flags: u32, parcel: &Parcel) -> Result<Made, Error> {
        let record = TransactionData { target: handle.into(), code, flags, ..parcel.record() };
        self.command_bytes(seat, &Command::Transaction(record).to_bytes(), parcel.data(), &parcel.offset_bytes())
    }

    /// Runs a reply to the call that the thread serves.
    pub fn reply(&mut self, seat: u32, code: u32, flags: u32, parcel: &Parcel) -> Result<Made, Error> {
        let record = TransactionData { code, flags, ..parcel.record() };
        self.command_bytes(seat, &Command::Reply(record).to_bytes(), parcel.data(), &parcel.offset_bytes())
    }

    /// Reads returns of at most so many bytes, at least 72.
    pub fn read(&mut self, seat: u32, limit: u32) -> Result<Made, Error> {
        self.made(0, |live, told| unsafe { sys::hullpippin_live_read(live, seat, limit, told) })
    }

    /// Ends the seat's thread.
    pub fn exit_thread(&mut self, seat: u32) -> Result<Made, Error> {
        self.made(0, |live, told| unsafe { sys::hullpippin_live_exit_thread(live, seat, told) })
    }

    /// Ends the seat's process with all its threads.
    pub fn exit_process(&mut self, seat: u32) -> Result<Made, Error> {
        self.made(0, |live, told| unsafe { sys::hullpippin_live_exit_process(live, seat, told) })
    }

    /// Whether the seat has something to read.
    pub fn is_ready(&mut self, seat: u32) -> bool {
        unsafe { sys::hullpippin_live_ready(&mut self.handle, seat) }
    }

    /// How many steps were made.
    pub fn steps(&mut self) -> u64 {
        unsafe { sys::hullpippin_live_len(&mut self.handle) }
    }

    /// Where the buffers were made that ended by the latest step, each by the place of its step, oldest first.
    pub fn ended(&mut self) -> Vec<u64> {
        self.numbers(|live, out, room| unsafe { sys::hullpippin_live_ended(live, out, room) })
    }

    /// Looks at these seats, and says which of them have come to be ready or unready since they were last looked at so. At
    /// first none is ready.
    pub fn changed(&mut self, seats: &[u32]) -> Result<Vec<u32>, Error> {
        let mut count = 0;
        // SAFETY: the slice's pointer isn't null and is aligned.
        checked(unsafe { sys::hullpippin_live_poll(&mut self.handle, seats.as_ptr(), seats.len(), &mut count) })?;
        Ok(self.numbers(|live, out, room| unsafe { sys::hullpippin_live_changed(live, out, room) }))
    }

    /// Which todo lists were filled or emptied since this was last asked; `None` where they aren't known and any may have been: the
    /// first time, where more than 64 lists got or lost something, and after a step that took back what was to be read. Asked
    /// after a step, it tells whom to look at: besides the step's own seat only those have come to be ready or unready whose list
    /// is named, or the list of whose process, or whose thread has ended. A list that got more, or still has something, isn't named.
    ///
    /// ```
    /// use hullpippin::{Live, TodoList};
    ///
    /// # fn main() -> Result<(), hullpippin::Error> {
    /// let mut live = Live::new(2)?;
    /// assert_eq!(live.reached()?, None);
    /// live.open(0, 100, 1000, 4096)?;
    /// assert_eq!(live.reached()?, Some(vec![]));
    /// # Ok(())
    /// # }
    /// ```
    pub fn reached(&mut self) -> Result<Option<Vec<TodoList>>, Error> {
        let mut count = 0;
        // SAFETY: the count has a place.
        checked(unsafe { sys::hullpippin_live_ask_reached(&mut self.handle, &mut count) })?;
        Ok((0..count).map(|index| self.list(index)).collect())
    }

    /// The list of an index, unless it stands for any.
    fn list(&mut self, index: usize) -> Option<TodoList> {
        let mut told = sys::hullpippin_todo_list { kind: 0, number: 0 };
        // SAFETY: the list has a place.
        let found = unsafe { sys::hullpippin_live_reached(&mut self.handle, index, &mut told) };
        debug_assert!(found);
        match told.kind {
            sys::HULLPIPPIN_LIST_OF_THREAD => Some(TodoList::OfThread(seat_of(told.number))),
            sys::HULLPIPPIN_LIST_OF_PROCESS => Some(TodoList::OfProcess(told.number)),
            _ => None,
        }
    }

    /// The bytes of the latest step's entry, for a journal; none before the first step.
    pub fn entry(&mut self) -> Result<Vec<u8>, Error> {
        let live = &mut self.handle;
        // SAFETY: the bytes are so many.
        copied(|out, room, size| unsafe { sys::hullpippin_live_entry(live, out, room, size) })
    }

    /// What a journal of so many entries begins with.
    pub fn heading(&mut self, count: u64) -> Result<Vec<u8>, Error> {
        let live = &mut self.handle;
        // SAFETY: the bytes are so many.
        copied(|out, room, size| unsafe { sys::hullpippin_live_heading(live, count, out, room, size) })
    }

    /// The handle of the engine, for calls of other modules.
    pub(crate) fn handle(&mut self) -> *mut sys::hullpippin_live {
        &mut self.handle
    }

    /// All the numbers that a call copies, however many.
    fn numbers<T: Clone + Default>(&mut self, copy: impl Fn(*mut sys::hullpippin_live, *mut T, usize) -> usize) -> Vec<T> {
        let mut numbers = Vec::new();
        loop {
            let count = copy(&mut self.handle, numbers.as_mut_ptr(), numbers.len());
            if count <= numbers.len() {
                return numbers;
            }
            numbers.resize(count, T::default());
        }
    }
}

/// The seat whose thread's list is told: there are at most 65536.
fn seat_of(number: u64) -> u32 {
    number.try_into().expect("the library tells the list of a seat that it has")
}

impl Fetched for Live {
    unsafe fn copy(&mut self, part: u32, out: *mut u8, room: usize) -> usize {
        sys::hullpippin_live_bytes(&mut self.handle, part, out, room)
    }
}

impl fmt::Debug for Live {
    fn fmt(&self, f: &mut fmt::Formatter<'_>) -> fmt::Result {
        f.debug_struct("Live").finish_non_exhaustive()
    }
}

impl Drop for Live {
    fn drop(&mut self) {
        // SAFETY: the handle has an engine.
        unsafe { sys::hullpippin_free_live(&mut self.handle) }
    }
}
