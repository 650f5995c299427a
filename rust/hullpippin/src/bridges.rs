// SPDX-License-Identifier: Apache-2.0 OR MIT
//! Who waits for a live engine, and whom to wake.
use crate::status::checked;
use crate::{Error, Live, Made};
use hullpippin_sys as sys;

/// What a thread that waits in a read need not be told before the reply to a call of its own: that its call was taken, and what it is told of
/// the objects that it has sent along.
#[derive(Clone, Copy, Debug, PartialEq, Eq)]
pub enum Defers {
    /// It is told of all.
    Nothing,
    /// Such may be read for it meanwhile, and it waits on.
    ReadsAhead,
    /// The same; and that its call was taken is left alone, to be read along with what comes behind it.
    Leaves,
}

impl Defers {
    fn number(self) -> u32 {
        match self {
            Defers::Nothing => sys::HULLPIPPIN_TELLS_ALL,
            Defers::ReadsAhead => sys::HULLPIPPIN_READS_AHEAD,
            Defers::Leaves => sys::HULLPIPPIN_LEAVES,
        }
    }
}

/// What somebody who waits is told.
#[derive(Clone, Debug, PartialEq, Eq)]
pub enum Signal {
    /// This was read for a thread that waits in a read.
    Read {
        /// The thread's seat.
        seat: u32,
        /// It is woken, and waits no more: its read is answered with this and with whatever was read for it since it was woken last.
        wakes: bool,
        /// What came of the step, or why it wasn't made.
        made: Result<Made, Error>,
    },
    /// A doorbell is to ring from now on, or to be silent.
    Bell {
        /// The seat whose doorbell it is.
        seat: u32,
        /// It rings.
        rings: bool,
    },
}

/// A bridge is a live engine that also knows who waits for something to read. It is told that a thread begins to wait and that it has stopped,
/// and says after each step whom to wake. Nobody is forgotten: while somebody waits in a read who has something to read,
/// `settle` says that somebody is left.
///
/// ```
/// use hullpippin::{Defers, Live, Parcel, Signal, ONE_WAY};
///
/// # fn main() -> Result<(), hullpippin::Error> {
/// let mut live = Live::bridge(2)?;
/// live.open(0, 100, 1000, 4096)?;
/// live.manager(0)?;
/// live.command(0, &hullpippin::Command::EnterLooper)?;
/// live.wait(0, 256, Defers::Nothing)?;
/// assert_eq!(live.settle(8), (None, false));
/// live.open(1, 200, 1000, 4096)?;
/// live.transact(1, 0, 7, ONE_WAY, &Parcel::new())?;
/// assert!(matches!(live.settle(8), (Some(Signal::Read { seat: 0, wakes: true, .. }), _)));
/// # Ok(())
/// # }
/// ```
impl Live {
    /// A bridge of so many seats, 1 to 65536. Nobody waits at first.
    pub fn bridge(seats: u32) -> Result<Live, Error> {
        Live::begun(|live| unsafe { sys::hullpippin_bridge_new(seats, live) })
    }

    /// The seat's thread waits in a read from now on, with room for so many bytes, at least 72.
    pub fn wait(&mut self, seat: u32, room: u32, defers: Defers) -> Result<(), Error> {
        // SAFETY: here and in what follows the handle has an engine.
        checked(unsafe { sys::hullpippin_bridge_wait(self.handle(), seat, room, defers.number()) })
    }

    /// The seat's thread has a doorbell from now on, which is silent.
    pub fn give_doorbell(&mut self, seat: u32) -> Result<(), Error> {
        checked(unsafe { sys::hullpippin_bridge_give_doorbell(self.handle(), seat) })
    }

    /// The seat's thread waits no more in a read. Its doorbell stays.
    pub fn stop_reading(&mut self, seat: u32) -> Result<(), Error> {
        checked(unsafe { sys::hullpippin_bridge_stop_reading(self.handle(), seat) })
    }

    /// The seat's thread waits no more, neither in a read nor by a doorbell: so does whoever ends it.
    pub fn stop_waiting(&mut self, seat: u32) -> Result<(), Error> {
        checked(unsafe { sys::hullpippin_bridge_stop_waiting(self.handle(), seat) })
    }

    /// Looks at so many at most of those who wait, until one of them is to be told something: that, and whether somebody is still to be looked
    /// at. What was read for somebody is the latest step, as of `Live::read`.
    pub fn settle(&mut self, looks: u32) -> (Option<Signal>, bool) {
        let mut told = sys::hullpippin_signal::default();
        // SAFETY: the signal has a place.
        let status = unsafe { sys::hullpippin_bridge_settle(self.handle(), looks, &mut told) };
        debug_assert_eq!(status, sys::HULLPIPPIN_DONE);
        let signal = match told.kind {
            sys::HULLPIPPIN_SIGNAL_READ => {
                let made = checked(told.status).map(|()| self.read_for(&told.answer));
                Some(Signal::Read { seat: told.seat, wakes: told.wakes, made })
            }
            sys::HULLPIPPIN_SIGNAL_BELL => Some(Signal::Bell { seat: told.seat, rings: told.rings }),
            _ => None,
        };
        (signal, told.is_left)
    }

    /// How many threads are still to be looked at, some perhaps twice.
    pub fn suspects(&mut self) -> usize {
        unsafe { sys::hullpippin_bridge_suspects(self.handle()) }
    }
}
