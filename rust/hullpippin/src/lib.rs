// SPDX-License-Identifier: Apache-2.0 OR MIT
//! Hullpippin's library as safe Rust: the transaction engine of Android's Binder driver.
//!
//! A [`Driver`] has up to 31 [`Seat`]s, each of which may go to a thread of its own; the [`Outcome`] of a seat's request
//! is exactly that of one history, which is a journal in the end. A [`Live`] engine keeps no history, and has up to 65536
//! seats.
//!
//! ```
//! use hullpippin::{verdict_on, Command, Driver, Parcel, Verdict};
//! use std::thread;
//!
//! fn main() -> Result<(), hullpippin::Error> {
//!     let mut driver = Driver::new(2)?;
//!     let seats = [driver.take_seat()?, driver.take_seat()?];
//!     let threads = seats.map(|mut seat| thread::spawn(move || {
//!         // Whom another thread keeps away is answered with `Back`. `insist` then makes the request again.
//!         seat.insist(|seat| seat.open(100 + seat.number(), 1000, 4096)).expect("a call");
//!         seat
//!     }));
//!     for seat in threads {
//!         driver.return_seat(seat.join().expect("no thread panics"))?;
//!     }
//!     let journal = driver.finish()?.journal()?;
//!     assert_eq!(verdict_on(&journal)?, Verdict::Lawful(2));
//!     Ok(())
//! }
//! ```
//!
//! # What is proved
//!
//! The library behind the header `hullpippin.h`, where the archive that is linked is one that was proved: the file
//! `libhullpippin.proved` that is installed with it says so. This crate isn't proved. What the header asks of its callers
//! is kept by the types: a handle is owned by one value, whose calls take `&mut self`; a seat goes back to the driver that
//! it came from. [`Command`], [`Return`] and [`Objects`] have the library spell and read their bytes.
#![warn(missing_docs, missing_debug_implementations, unreachable_pub, rust_2018_idioms)]

mod answers;
mod bridges;
mod certificates;
mod commands;
mod driver;
mod live;
mod parcels;
mod refusals;
mod returns;
mod rings;
mod sendings;
mod space;
mod status;
mod tickets;
mod waiting;

pub use answers::{Answer, Outcome, Request, Stop, Why};
pub use bridges::{Defers, Signal};
pub use certificates::{call_of_reply, chain_of, turns_of, Turn};
pub use commands::{Command, TransactionData, ACCEPT_FDS, CLEAR_BUF, ONE_WAY, ROOT_OBJECT, STATUS_CODE, UPDATE_TXN};
pub use driver::{verdict_on, Driver, History, Page, Seat, Verdict};
pub use live::{Live, Made};
pub use parcels::{BadParcel, FlatObject, ObjectKind, Objects, Parcel};
pub use refusals::{Cause, Fault, Note};
pub use returns::{Return, Returns};
pub use rings::Rings;
pub use sendings::{Sending, Sendings};
pub use space::{Buffer, DeathNotification, Frame, Object, ObjectId, Phase, Process, Thread, TodoList, Work};
pub use status::{Error, Kept};
pub use tickets::Tickets;

/// The version of the library that is linked: its three numbers.
///
/// ```
/// let told = hullpippin::library_version().map(|it| it.to_string()).join(".");
/// assert_eq!(told, env!("CARGO_PKG_VERSION"));
/// ```
pub fn library_version() -> [u8; 3] {
    // SAFETY: it is given nothing.
    let [_, version @ ..] = unsafe { hullpippin_sys::hullpippin_version() }.to_be_bytes();
    version
}

/// All bytes that a call copies, of whatever size.
fn copied(mut copy: impl FnMut(*mut u8, usize, *mut usize) -> u32) -> Result<Vec<u8>, Error> {
    let (mut bytes, mut size) = (Vec::new(), 0);
    loop {
        status::checked(copy(bytes.as_mut_ptr(), bytes.len(), &mut size))?;
        if size <= bytes.len() {
            return Ok(bytes);
        }
        bytes.resize(size, 0);
    }
}
