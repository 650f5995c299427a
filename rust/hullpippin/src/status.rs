// SPDX-License-Identifier: Apache-2.0 OR MIT
//! Why a call wasn't made.
use hullpippin_sys as sys;
use std::fmt;

/// Why a call wasn't made. Nothing was done.
#[derive(Clone, Copy, Debug, PartialEq, Eq, Hash)]
#[non_exhaustive]
pub enum Error {
    /// Memory was refused.
    NoMemory,
    /// A request of the seat is handed over.
    Waiting,
    /// No request of the seat is handed over.
    NotWaiting,
    /// Another seat has the engine.
    Taken,
    /// The number of seats isn't 1 to 31, or for a live engine 1 to 65536.
    SeatCount,
    /// The seat's latest answer gave no request back.
    NothingBack,
    /// No seat can be taken: the driver has none left.
    NoSeatLeft,
    /// The driver can't end, since a seat of it isn't back.
    SeatsAway,
    /// The bytes are no journal, or there is no journal of so many seats.
    NoJournal,
    /// The journal's entries aren't a history.
    Unlawful,
    /// The live engine has no such seat.
    NoSuchSeat,
    /// The live engine's history can take no more.
    HistoryFull,
    /// The bytes aren't one command.
    NoCommand,
    /// The seat is one of another driver.
    OtherDriver,
    /// Another status of the library, by its number.
    Status(u32),
}

impl fmt::Display for Error {
    fn fmt(&self, f: &mut fmt::Formatter<'_>) -> fmt::Result {
        f.write_str(match self {
            Error::NoMemory => "out of memory",
            Error::Waiting => "a request is handed over",
            Error::NotWaiting => "no request is handed over",
            Error::Taken => "another seat has the engine",
            Error::SeatCount => "the number of seats is out of range",
            Error::NothingBack => "no request came back",
            Error::NoSeatLeft => "all seats are taken",
            Error::SeatsAway => "a seat isn't back",
            Error::NoJournal => "there is no journal",
            Error::Unlawful => "the journal is of no history",
            Error::NoSuchSeat => "there is no such seat",
            Error::HistoryFull => "the history is full",
            Error::NoCommand => "the bytes aren't one command",
            Error::OtherDriver => "the seat is one of another driver",
            Error::Status(number) => return write!(f, "the library answers status {number}"),
        })
    }
}

impl std::error::Error for Error {}

/// Whether the call was made whose status this is, or why not.
pub(crate) fn checked(status: u32) -> Result<(), Error> {
    Err(match status {
        sys::HULLPIPPIN_DONE => return Ok(()),
        sys::HULLPIPPIN_NO_MEMORY => Error::NoMemory,
        sys::HULLPIPPIN_WAITING => Error::Waiting,
        sys::HULLPIPPIN_NOT_WAITING => Error::NotWaiting,
        sys::HULLPIPPIN_TAKEN => Error::Taken,
        sys::HULLPIPPIN_SEAT_COUNT => Error::SeatCount,
        sys::HULLPIPPIN_NO_SEAT_LEFT => Error::NoSeatLeft,
        sys::HULLPIPPIN_SEATS_AWAY => Error::SeatsAway,
        sys::HULLPIPPIN_NO_JOURNAL => Error::NoJournal,
        sys::HULLPIPPIN_UNLAWFUL => Error::Unlawful,
        sys::HULLPIPPIN_NO_SUCH_SEAT => Error::NoSuchSeat,
        sys::HULLPIPPIN_HISTORY_FULL => Error::HistoryFull,
        sys::HULLPIPPIN_NO_COMMAND => Error::NoCommand,
        other => Error::Status(other),
    })
}

/// A call that wasn't made, and what it would have taken, which is still there.
#[derive(Debug)]
pub struct Kept<T> {
    /// What the call would have taken.
    pub kept: T,
    /// Why it wasn't made.
    pub error: Error,
}

impl<T> fmt::Display for Kept<T> {
    fn fmt(&self, f: &mut fmt::Formatter<'_>) -> fmt::Result {
        self.error.fmt(f)
    }
}

impl<T: fmt::Debug> std::error::Error for Kept<T> {}

/// Lets go of what was kept.
impl<T> From<Kept<T>> for Error {
    fn from(it: Kept<T>) -> Error {
        it.error
    }
}
