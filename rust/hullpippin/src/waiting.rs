// SPDX-License-Identifier: Apache-2.0 OR MIT
//! Waiting for the engine, as hullpippin_wait.h does in C. No call of the library waits, and nothing that is proved stands on this.
use std::thread;
use std::time::Duration;

use crate::{Error, Outcome, Request, Seat, Why};

/// How long a pause is, in turns of a loop that rests the processor: twice as long behind each look, up to the most.
const FEWEST_TURNS: u32 = 16;
const MOST_TURNS: u32 = 256;
/// One of so many pauses lets other threads have the processor.
const YIELDS: u32 = 8;
/// Behind so many looks a thread sleeps, at first for the shortest time, and never for longer than the longest.
const LOOKS: u32 = 48;
const SHORTEST: Duration = Duration::from_micros(2);
const LONGEST: Duration = Duration::from_millis(1);

/// Pauses before another look, the longer the more looks there were. Each look takes the page's cache line from the seat at work, and
/// whoever has the engine's tables in its own cache goes on fastest. So who waits looks seldom.
fn pause(looks: u32) {
    if looks >= LOOKS {
        let doublings = (looks - LOOKS).min(9);
        thread::sleep((SHORTEST * (1 << doublings)).min(LONGEST));
    } else if looks % YIELDS == YIELDS - 1 {
        thread::yield_now();
    } else {
        let turns = (FEWEST_TURNS << looks.min(4)).min(MOST_TURNS);
        (0..turns).for_each(|_| std::hint::spin_loop());
    }
}

impl Seat {
    /// Makes a request, and while another seat has the engine makes it again: the outcome is anything but [`Why::Taken`]. The bytes are
    /// copied only once ([`Seat::again`]).
    ///
    /// The thread waits in here, and calls only after a look has found the engine free, since a call that comes back takes the page's
    /// cache line from the seat at work. Its pauses between two looks grow to a millisecond.
    ///
    /// ```
    /// use hullpippin::{Answer, Driver};
    ///
    /// fn main() -> Result<(), hullpippin::Error> {
    ///     let mut driver = Driver::new(2)?;
    ///     let mut seat = driver.take_seat()?;
    ///     assert_eq!(seat.insist(|seat| seat.open(100, 1000, 4096))?.answer(), Some(Answer::Opened));
    ///     Ok(())
    /// }
    /// ```
    pub fn insist(&mut self, request: impl FnOnce(&mut Seat) -> Result<Outcome, Error>) -> Result<Outcome, Error> {
        let mut outcome = request(self)?;
        let mut looks = 0_u32;
        while matches!(outcome, Outcome::Back(Why::Taken)) {
            loop {
                pause(looks);
                looks = looks.saturating_add(1);
                if !self.look().taken {
                    break;
                }
            }
            outcome = self.again()?;
        }
        Ok(outcome)
    }

    /// The answer to what this seat has handed over, however long that takes. Where no other seat has the engine, it serves all seats; until
    /// then it looks only whether its own answer is there.
    ///
    /// ```
    /// use hullpippin::{Answer, Driver, Request};
    ///
    /// fn main() -> Result<(), hullpippin::Error> {
    ///     let mut driver = Driver::new(2)?;
    ///     let mut seat = driver.take_seat()?;
    ///     seat.post(Request::Open { pid: 100, euid: 1000, window: 4096 })?;
    ///     assert_eq!(seat.awaited()?.answer(), Some(Answer::Opened));
    ///     Ok(())
    /// }
    /// ```
    pub fn awaited(&mut self) -> Result<Outcome, Error> {
        let mut looks = 0_u32;
        loop {
            let served = if self.look().taken { Err(Error::Taken) } else { self.serve() };
            let outcome = self.collect()?;
            if !matches!(outcome, Outcome::Handed) {
                return Ok(outcome);
            }
            match served {
                Ok(_) | Err(Error::Taken) => pause(looks),
                Err(error) => return Err(error),
            }
            looks = looks.saturating_add(1);
        }
    }

    /// Has a request run, and answers what it came to, however long that takes. Where no other seat has the engine this is a call; where one
    /// has, the request is posted, and whoever serves runs it.
    ///
    /// A posted request and its answer go from one processor's cache to another's and back, which takes longer than a step. So a thread that
    /// finds the engine free doesn't post.
    ///
    /// ```
    /// use hullpippin::{Answer, Driver, Request};
    ///
    /// fn main() -> Result<(), hullpippin::Error> {
    ///     let mut driver = Driver::new(2)?;
    ///     let mut seat = driver.take_seat()?;
    ///     let opened = seat.hand_over(Request::Open { pid: 100, euid: 1000, window: 4096 })?;
    ///     assert_eq!(opened.answer(), Some(Answer::Opened));
    ///     Ok(())
    /// }
    /// ```
    pub fn hand_over(&mut self, request: Request<'_>) -> Result<Outcome, Error> {
        if !self.look().taken {
            let outcome = self.call(request)?;
            if !matches!(outcome, Outcome::Back(Why::Taken)) {
                return Ok(outcome);
            }
        }
        self.post(request)?;
        self.awaited()
    }

    // Makes the call that this request is.
    fn call(&mut self, request: Request<'_>) -> Result<Outcome, Error> {
        match request {
            Request::Open { pid, euid, window } => self.open(pid, euid, window),
            Request::Attach { pid } => self.attach(pid),
            Request::Manager => self.manager(),
            Request::SetSpam { on } => self.set_spam(on),
            Request::Write { stream, area } => self.write(stream, area),
            Request::Read { limit } => self.read(limit),
            Request::ExitThread => self.exit_thread(),
            Request::ExitProcess => self.exit_process(),
        }
    }
}
