// SPDX-License-Identifier: Apache-2.0 OR MIT
//! A driver, its seats, and its history.
use crate::answers::{note, Fetched};
use crate::status::{checked, Kept};
use crate::{copied, Answer, Command, Error, Note, Outcome, Parcel, Request, TransactionData, Why};
use hullpippin_sys as sys;
use std::collections::VecDeque;
use std::fmt;

/// One engine that several seats share.
///
/// ```
/// use hullpippin::{Answer, Driver, Error, Outcome};
///
/// fn main() -> Result<(), Error> {
///     let mut driver = Driver::new(2)?;
///     let mut seat = driver.take_seat()?;
///     let opened = seat.open(100, 1000, 4096)?;
///     assert_eq!(opened, Outcome::Done { answer: Answer::Opened, from: 0, to: 1 });
///     driver.return_seat(seat)?;
///     let journal = driver.finish()?.journal()?;
///     assert!(journal.starts_with(b"BNDJ0002"));
///     Ok(())
/// }
/// ```
pub struct Driver {
    handle: sys::hullpippin_driver,
    /// The seats that are there, the next to be taken first.
    numbers: VecDeque<u32>,
}

// The library proves that what is behind a handle may go to another thread.
unsafe impl Send for Driver {}

impl Driver {
    /// A driver with so many seats, 1 to 31.
    pub fn new(seats: u32) -> Result<Driver, Error> {
        let mut handle = sys::hullpippin_driver::NONE;
        // SAFETY: the handle is empty.
        checked(unsafe { sys::hullpippin_new(seats, &mut handle) })?;
        Ok(Driver { handle, numbers: (0..seats).collect() })
    }

    /// Takes the first seat that is there: of a new driver seat 0, then seat 1.
    pub fn take_seat(&mut self) -> Result<Seat, Error> {
        let mut handle = sys::hullpippin_seat::NONE;
        // SAFETY: the driver's handle has a driver until it is let go of, and the seat's is empty.
        checked(unsafe { sys::hullpippin_take_seat(&mut self.handle, &mut handle) })?;
        let number = self.numbers.pop_front().expect("a seat that was handed out was there");
        Ok(Seat { handle, number, spare: Default::default() })
    }

    /// Gives a seat back, behind those that are there. One of another driver comes back.
    pub fn return_seat(&mut self, mut seat: Seat) -> Result<(), Kept<Seat>> {
        // SAFETY: both handles have what they are for.
        let status = unsafe { sys::hullpippin_return_seat(&mut self.handle, &mut seat.handle) };
        // Neither handle is empty, nor has the driver ended.
        if status == sys::HULLPIPPIN_MISUSE {
            return Err(Kept { kept: seat, error: Error::OtherDriver });
        }
        match checked(status) {
            Ok(()) => {
                self.numbers.push_back(seat.number);
                Ok(())
            }
            Err(error) => Err(Kept { kept: seat, error }),
        }
    }

    /// The history, once all seats are back. If not, the driver goes on.
    pub fn finish(mut self) -> Result<History, Kept<Driver>> {
        // SAFETY: the handle has a driver.
        match checked(unsafe { sys::hullpippin_finish(&mut self.handle) }) {
            Ok(()) => Ok(History(self)),
            Err(error) => Err(Kept { kept: self, error }),
        }
    }
}

impl fmt::Debug for Driver {
    fn fmt(&self, f: &mut fmt::Formatter<'_>) -> fmt::Result {
        f.debug_struct("Driver").field("seats_there", &self.numbers).finish_non_exhaustive()
    }
}

impl Drop for Driver {
    fn drop(&mut self) {
        // SAFETY: the handle has a driver, or the history of one.
        unsafe { sys::hullpippin_free_driver(&mut self.handle) }
    }
}

/// The history of a driver that has ended.
#[derive(Debug)]
pub struct History(Driver);

impl History {
    /// The history as the bytes of a journal, which [`verdict_on`] judges.
    pub fn journal(&mut self) -> Result<Vec<u8>, Error> {
        let driver = &mut self.0.handle;
        // SAFETY: the driver has ended, and the bytes are so many.
        copied(|out, room, size| unsafe { sys::hullpippin_journal(driver, out, room, size) })
    }
}

/// A seat of a driver. It stands for one thread at a time, and may go from one to another.
///
/// Each request makes one call of the driver, tries to take the engine once, and never waits: where another seat has it, the
/// outcome is [`Outcome::Back`] with [`Why::Taken`](crate::Why::Taken), and nothing was run.
///
/// ```
/// use hullpippin::{Answer, Command, Driver, Fault, Parcel, Return};
///
/// fn main() -> Result<(), hullpippin::Error> {
///     let mut driver = Driver::new(2)?;
///     let (mut manager, mut client) = (driver.take_seat()?, driver.take_seat()?);
///     manager.open(100, 1000, 4096)?;
///     manager.manager()?;
///     manager.command(&Command::EnterLooper)?;
///     client.open(200, 2000, 4096)?;
///     client.transact(0, 7, hullpippin::ONE_WAY, &Parcel::from(&b"hi"[..]))?;
///     assert!(manager.is_ready());
///     let Some(answer @ Answer::Got { .. }) = manager.read(256)?.answer() else { panic!() };
///     // The first return is always BR_NOOP, and a call is always the last.
///     let Some(Ok(Return::Transaction(call))) = answer.returns().last() else { panic!() };
///     assert_eq!((call.code, call.sender_euid, call.data_size), (7, 2000, 2));
///     manager.command(&Command::FreeBuffer(call.buffer))?;
///     assert_eq!(manager.read(256)?.answer(), Some(Answer::Refused(Fault::Again)));
///     Ok(())
/// }
/// ```
pub struct Seat {
    handle: sys::hullpippin_seat,
    number: u32,
    // Memory for the parts of what is read next, by their numbers.
    spare: [Vec<u8>; 3],
}

// The library proves that what is behind a handle may go to another thread.
unsafe impl Send for Seat {}

impl Seat {
    /// The seat's number, from 0: its bit in what a page says of ready seats.
    pub fn number(&self) -> u32 {
        self.number
    }

    /// Makes a call, and fetches what it answered.
    fn asked(
        &mut self,
        call: impl FnOnce(*mut sys::hullpippin_seat, *mut sys::hullpippin_answer) -> u32,
    ) -> Result<Outcome, Error> {
        let mut answer = sys::hullpippin_answer::default();
        checked(call(&mut self.handle, &mut answer))?;
        Ok(self.outcome(&answer))
    }

    /// Opens a process with one thread, the seat's: `pid` 1 to 2147483647, `window` a multiple of 4096 up to 4194304.
    pub fn open(&mut self, pid: u32, euid: u32, window: u32) -> Result<Outcome, Error> {
        // SAFETY: here and in what follows a seat's handle has a seat until it is let go of, and `&mut self` keeps other
        // calls away.
        self.asked(|seat, answer| unsafe { sys::hullpippin_open(seat, pid, euid, window, answer) })
    }

    /// Makes the seat a further thread of a live process.
    pub fn attach(&mut self, pid: u32) -> Result<Outcome, Error> {
        self.asked(|seat, answer| unsafe { sys::hullpippin_attach(seat, pid, answer) })
    }

    /// Makes the seat's process the context manager.
    pub fn manager(&mut self) -> Result<Outcome, Error> {
        self.asked(|seat, answer| unsafe { sys::hullpippin_manager(seat, answer) })
    }

    /// Has the seat's process told of its own one-way flooding, or no longer.
    pub fn set_spam(&mut self, on: bool) -> Result<Outcome, Error> {
        self.asked(|seat, answer| unsafe { sys::hullpippin_set_spam(seat, on.into(), answer) })
    }

    /// Runs the commands of a stream of at most 4096 bytes, whose parcels are cut from the area.
    pub fn write(&mut self, stream: &[u8], area: &[u8]) -> Result<Outcome, Error> {
        // SAFETY: a slice's pointer isn't null and is aligned, and both live until the call is back.
        self.asked(|seat, answer| unsafe {
            sys::hullpippin_write(seat, stream.as_ptr(), stream.len(), area.as_ptr(), area.len(), answer)
        })
    }

    /// Writes one command without a parcel.
    pub fn command(&mut self, command: &Command) -> Result<Outcome, Error> {
        self.write(&command.to_bytes(), &[])
    }

    /// Writes a transaction: calls what the process has under a handle, 0 for the context manager.
    pub fn transact(&mut self, handle: u32, code: u32, flags: u32, parcel: &Parcel) -> Result<Outcome, Error> {
        let record = TransactionData { target: handle.into(), code, flags, ..parcel.record() };
        self.write(&Command::Transaction(record).to_bytes(), &parcel.area())
    }

    /// Writes a reply to the call that the thread serves.
    pub fn reply(&mut self, code: u32, flags: u32, parcel: &Parcel) -> Result<Outcome, Error> {
        let record = TransactionData { code, flags, ..parcel.record() };
        self.write(&Command::Reply(record).to_bytes(), &parcel.area())
    }

    /// Reads returns of at most so many bytes, at least 72. Where there is nothing to read, it is refused with
    /// [`Fault::Again`](crate::Fault::Again).
    pub fn read(&mut self, limit: u32) -> Result<Outcome, Error> {
        self.asked(|seat, answer| unsafe { sys::hullpippin_read(seat, limit, answer) })
    }

    /// Takes the memory of an answer that is no longer needed, for what the seat reads next. Else each read asks for new memory.
    ///
    /// ```
    /// use hullpippin::{Command, Driver, Parcel};
    ///
    /// fn main() -> Result<(), hullpippin::Error> {
    ///     let mut driver = Driver::new(2)?;
    ///     let (mut manager, mut client) = (driver.take_seat()?, driver.take_seat()?);
    ///     manager.open(100, 1000, 4096)?;
    ///     manager.manager()?;
    ///     manager.command(&Command::EnterLooper)?;
    ///     client.open(200, 2000, 4096)?;
    ///     for code in 0..3 {
    ///         client.transact(0, code, hullpippin::ONE_WAY, &Parcel::from(&b"hi"[..]))?;
    ///         let Some(answer) = client.read(256)?.answer() else { panic!() };
    ///         // What the answer tells is used here, and then its memory is the next one's.
    ///         client.reuse(answer);
    ///     }
    ///     Ok(())
    /// }
    /// ```
    pub fn reuse(&mut self, answer: Answer) {
        if let Answer::Got { stream, data, offsets } = answer {
            self.spare = [stream, data, offsets];
            self.spare.iter_mut().for_each(Vec::clear);
        }
    }

    /// Ends the seat's thread. The seat may open or attach again.
    pub fn exit_thread(&mut self) -> Result<Outcome, Error> {
        self.asked(|seat, answer| unsafe { sys::hullpippin_exit_thread(seat, answer) })
    }

    /// Ends the seat's process with all its threads.
    pub fn exit_process(&mut self) -> Result<Outcome, Error> {
        self.asked(|seat, answer| unsafe { sys::hullpippin_exit_process(seat, answer) })
    }

    /// Makes the request again that the seat's latest answer gave back ([`Outcome::Back`]), without another copy of its bytes.
    /// [`Error::NothingBack`] where it gave none back.
    pub fn again(&mut self) -> Result<Outcome, Error> {
        let outcome = self.asked(|seat, answer| unsafe { sys::hullpippin_again(seat, answer) });
        outcome.map_err(|error| if error == Error::Status(sys::HULLPIPPIN_NO_SUCH_REQUEST) { Error::NothingBack } else { error })
    }

    /// The page, by one load, whatever other seats do.
    pub fn look(&mut self) -> Page {
        let mut page = sys::hullpippin_page::default();
        unsafe { sys::hullpippin_look(&mut self.handle, &mut page) };
        Page { stamp: page.stamp, ready: page.ready, taken: page.taken }
    }

    /// The seats that have something to read, bit i for seat i.
    pub fn ready(&mut self) -> u32 {
        unsafe { sys::hullpippin_ready(&mut self.handle) }
    }

    /// Whether this seat has something to read.
    pub fn is_ready(&mut self) -> bool {
        self.ready() >> self.number & 1 == 1
    }

    /// Hands a request over to whoever serves next. Until it is answered or withdrawn, other requests of the seat are
    /// [`Error::Waiting`].
    ///
    /// ```
    /// use hullpippin::{Answer, Driver, Outcome, Request};
    ///
    /// fn main() -> Result<(), hullpippin::Error> {
    ///     let mut driver = Driver::new(2)?;
    ///     let (mut asks, mut serves) = (driver.take_seat()?, driver.take_seat()?);
    ///     asks.post(Request::Open { pid: 100, euid: 1000, window: 4096 })?;
    ///     assert_eq!(asks.collect()?, Outcome::Handed);
    ///     assert_eq!(serves.serve()?, 1);
    ///     assert_eq!(asks.collect()?.answer(), Some(Answer::Opened));
    ///     Ok(())
    /// }
    /// ```
    pub fn post(&mut self, request: Request<'_>) -> Result<(), Error> {
        let (request, stream, area) = request.given();
        // SAFETY: as in `write`.
        checked(unsafe {
            sys::hullpippin_post(&mut self.handle, &request, stream.as_ptr(), stream.len(), area.as_ptr(), area.len())
        })
    }

    /// Runs what all seats have posted, once each, and answers how many requests that were.
    pub fn serve(&mut self) -> Result<u32, Error> {
        let mut picked = 0;
        checked(unsafe { sys::hullpippin_serve(&mut self.handle, &mut picked) })?;
        Ok(picked)
    }

    /// The answer to what was handed over, if it is there.
    pub fn collect(&mut self) -> Result<Outcome, Error> {
        self.asked(|seat, answer| unsafe { sys::hullpippin_collect(seat, answer) })
    }

    /// Takes back what was handed over, if nobody has picked it.
    pub fn withdraw(&mut self) -> Result<Outcome, Error> {
        self.asked(|seat, answer| unsafe { sys::hullpippin_withdraw(seat, answer) })
    }

    /// The note at an index below the answer's `notes`.
    fn note(&mut self, index: usize) -> Option<(u32, Note)> {
        let mut told = sys::hullpippin_note::default();
        let is_there = unsafe { sys::hullpippin_answer_note(&mut self.handle, index, &mut told) };
        is_there.then(|| (told.command, note(told.number)))
    }

    fn outcome(&mut self, told: &sys::hullpippin_answer) -> Outcome {
        match told.kind {
            sys::HULLPIPPIN_HANDED => Outcome::Handed,
            sys::HULLPIPPIN_BACK => Outcome::Back(match told.why {
                sys::HULLPIPPIN_BACK_TAKEN => Why::Taken,
                sys::HULLPIPPIN_BACK_NO_MEMORY => Why::NoMemory,
                sys::HULLPIPPIN_BACK_HISTORY_FULL => Why::HistoryFull,
                _ => Why::Withdrawn,
            }),
            _ => {
                let notes = (0..told.notes).filter_map(|index| self.note(index)).collect();
                let answer: Answer = self.told(told, notes, told.consumed);
                Outcome::Done { answer, from: told.from, to: told.to }
            }
        }
    }
}

impl Fetched for Seat {
    unsafe fn copy(&mut self, part: u32, out: *mut u8, room: usize) -> usize {
        sys::hullpippin_answer_bytes(&mut self.handle, part, out, room)
    }

    fn spare(&mut self, part: u32) -> Vec<u8> {
        self.spare.get_mut(part as usize).map(std::mem::take).unwrap_or_default()
    }
}

impl fmt::Debug for Seat {
    fn fmt(&self, f: &mut fmt::Formatter<'_>) -> fmt::Result {
        f.debug_struct("Seat").field("number", &self.number).finish_non_exhaustive()
    }
}

impl Drop for Seat {
    fn drop(&mut self) {
        if !self.handle.at.is_null() {
            // SAFETY: the handle has a seat, which wasn't given back.
            unsafe { sys::hullpippin_free_seat(&mut self.handle) }
        }
    }
}

/// The page of a driver, as one look finds it.
#[derive(Clone, Copy, Debug, PartialEq, Eq, Hash)]
pub struct Page {
    /// How many steps the history has.
    pub stamp: u32,
    /// The seats that have something to read, bit i for seat i.
    pub ready: u32,
    /// Whether a seat has the engine.
    pub taken: bool,
}

/// What is said of a journal.
#[derive(Clone, Copy, Debug, PartialEq, Eq, Hash)]
pub enum Verdict {
    /// Its entries, so many, are a history.
    Lawful(usize),
    /// So many of its entries are a history, and with the next one they aren't.
    Unlawful(usize),
}

impl fmt::Display for Verdict {
    fn fmt(&self, f: &mut fmt::Formatter<'_>) -> fmt::Result {
        match self {
            Verdict::Lawful(entries) => write!(f, "lawful {entries}"),
            Verdict::Unlawful(entries) => write!(f, "unlawful {entries}"),
        }
    }
}

/// Judges the bytes of a journal, by playing its entries again.
///
/// ```
/// use hullpippin::{verdict_on, Driver, Error, Verdict};
///
/// assert_eq!(verdict_on(b"no journal"), Err(Error::NoJournal));
/// let mut history = Driver::new(1)?.finish()?;
/// assert_eq!(verdict_on(&history.journal()?), Ok(Verdict::Lawful(0)));
/// # Ok::<(), Error>(())
/// ```
pub fn verdict_on(journal: &[u8]) -> Result<Verdict, Error> {
    let mut told = sys::hullpippin_verdict_on::default();
    // SAFETY: the slice's pointer isn't null, and it lives until the call is back.
    checked(unsafe { sys::hullpippin_verdict(journal.as_ptr(), journal.len(), &mut told) })?;
    Ok(if told.lawful { Verdict::Lawful(told.entries) } else { Verdict::Unlawful(told.entries) })
}
