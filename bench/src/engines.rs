// SPDX-License-Identifier: Apache-2.0 OR MIT
//! What an engine is for the bench, and how lists of requests are played on it.
use crate::commands;
use crate::steps::{Ask, Op, SEATS, Wants};
use hullpippin::{Answer, Driver, Error, History, Outcome, Request, Seat, Why};

/// What a request came to.
#[derive(Debug)]
pub enum Told {
    /// It is done, and nothing was noted.
    Done,
    /// Returns of so many bytes, and the buffer that they tell.
    Got { size: usize, buffer: Option<u64> },
    /// Another seat has the engine.
    Taken,
    /// Any other answer, which no workload wants, in words.
    Otherwise(String),
}

/// An engine with the requests of several seats.
pub trait Engine {
    /// The form in which it takes requests, which is made ahead.
    type Form;
    fn new(seats: u32) -> Self;
    fn form(ask: &Ask) -> Self::Form;
    fn ask(&mut self, seat: u32, form: &Self::Form, buffer: u64) -> Told;
    fn is_ready(&mut self, seat: u32) -> bool;
    /// How many steps were made.
    fn steps(&mut self) -> u32;
    fn journal(self) -> Vec<u8>;
}

/// A list of requests in the form that an engine takes.
pub fn formed<E: Engine>(ops: &[Op]) -> Vec<Op<E::Form>> {
    ops.iter().map(|op| Op { seat: op.seat, ask: E::form(&op.ask), wants: op.wants, slot: op.slot }).collect()
}

/// The slots that lists of requests use.
pub fn slots<'a>(lists: impl IntoIterator<Item = &'a [Op]>) -> Vec<u64> {
    let last = lists.into_iter().flatten().map(|op| op.slot + 1).max();
    vec![0; last.unwrap_or(0).max(SEATS)]
}

/// Plays a list of requests. Ends the bench where an answer isn't the one that is wanted.
pub fn play<E: Engine>(engine: &mut E, ops: &[Op<E::Form>], slots: &mut [u64]) {
    for op in ops {
        loop {
            let told = engine.ask(op.seat, &op.ask, slots[op.slot]);
            settle(op, told, slots);
            if op.wants != Wants::Drained || !engine.is_ready(op.seat) {
                break;
            }
        }
    }
}

/// Sees that an answer is the one that is wanted, and keeps the buffer that it tells.
#[inline]
pub fn settle<A>(op: &Op<A>, told: Told, slots: &mut [u64]) {
    match (op.wants, told) {
        (Wants::Done, Told::Done) => (),
        (wants, Told::Got { size, buffer }) if wants == Wants::Got(size) || wants == Wants::Drained => {
            slots[op.slot] = buffer.unwrap_or(slots[op.slot]);
        }
        (wants, Told::Otherwise(why)) => panic!("seat {} wants {wants:?} and is told {why}", op.seat),
        (wants, told) => panic!("seat {} wants {wants:?} and is told {told:?}", op.seat),
    }
}

/// What an answer of the library is for the bench. A write must be run to its end.
pub fn told(outcome: &Result<Outcome, hullpippin::Error>) -> Told {
    match outcome {
        Ok(Outcome::Done { answer: Answer::Got { stream, .. }, .. }) => {
            Told::Got { size: stream.len(), buffer: commands::buffer_of(stream) }
        }
        Ok(Outcome::Done { answer: Answer::Opened | Answer::Set, .. }) => Told::Done,
        Ok(Outcome::Done { answer: Answer::Wrote { notes, stop: None, .. }, .. }) if notes.is_empty() => Told::Done,
        Ok(Outcome::Back(Why::Taken)) => Told::Taken,
        other => Told::Otherwise(format!("{other:?}")),
    }
}

/// What a request comes to, by a call of its own.
pub fn outcome(seat: &mut Seat, ask: &Ask, buffer: u64) -> Result<Outcome, Error> {
    match ask {
        Ask::Open { pid, euid, window } => seat.open(*pid, *euid, *window),
        Ask::Manager => seat.manager(),
        Ask::Write { stream, area } => seat.write(stream, area),
        Ask::Read(limit) => seat.read(*limit),
        Ask::Free => seat.write(&commands::free(buffer), &[]),
    }
}

/// What was told. The memory of the answer is the next one's, as a program in C would have it.
pub fn kept(seat: &mut Seat, outcome: Result<Outcome, Error>) -> Told {
    let told = told(&outcome);
    if let Ok(Outcome::Done { answer, .. }) = outcome {
        seat.reuse(answer);
    }
    told
}

/// Makes a request by a call of its own.
pub fn call(seat: &mut Seat, ask: &Ask, buffer: u64) -> Told {
    let outcome = outcome(seat, ask, buffer);
    kept(seat, outcome)
}

/// A request to be posted; `free` is the command for a free.
pub fn posted<'a>(ask: &'a Ask, free: &'a [u8]) -> Request<'a> {
    match ask {
        Ask::Open { pid, euid, window } => Request::Open { pid: *pid, euid: *euid, window: *window },
        Ask::Manager => Request::Manager,
        Ask::Write { stream, area } => Request::Write { stream, area },
        Ask::Read(limit) => Request::Read { limit: *limit },
        Ask::Free => Request::Write { stream: free, area: &[] },
    }
}

/// Makes a request that is handed over, served by the seat itself, and fetched.
pub fn hand_over(seat: &mut Seat, ask: &Ask, buffer: u64) -> Told {
    let free = commands::free(buffer);
    let served = seat.post(posted(ask, &free)).and_then(|()| seat.serve());
    told(&served.and_then(|_| seat.collect()))
}

/// A journal of ours as it was spelled before there were reports of flooding, which nothing here asks for: as the other
/// engines spell and read it.
pub fn earlier(mut journal: Vec<u8>) -> Vec<u8> {
    assert!(journal.starts_with(b"BNDJ0002"), "the library writes another version of journals");
    journal[7] = b'1';
    journal
}

/// Hullpippin's library: a driver, all of whose seats are used by one thread.
pub struct Library {
    driver: Driver,
    seats: Vec<Seat>,
}

impl Library {
    /// Lends all seats to the work, which gives them back with the steps that it made and the seconds that it took.
    pub fn in_hands(self, work: impl FnOnce(Vec<Seat>) -> (Vec<Seat>, u64, f64)) -> (Library, u64, f64) {
        let (seats, steps, seconds) = work(self.seats);
        (Library { driver: self.driver, seats }, steps, seconds)
    }

    /// Gives the seats back to the driver and ends it.
    pub fn finish(self) -> History {
        let Library { mut driver, seats } = self;
        seats.into_iter().for_each(|seat| driver.return_seat(seat).expect("a seat of the driver's"));
        driver.finish().unwrap_or_else(|it| panic!("{it}"))
    }
}

impl Engine for Library {
    type Form = Ask;

    fn new(seats: u32) -> Library {
        let mut driver = Driver::new(seats).expect("a driver");
        let seats = (0..seats).map(|_| driver.take_seat().expect("a seat")).collect();
        Library { driver, seats }
    }

    fn form(ask: &Ask) -> Ask {
        ask.clone()
    }

    #[inline]
    fn ask(&mut self, seat: u32, ask: &Ask, buffer: u64) -> Told {
        call(&mut self.seats[seat as usize], ask, buffer)
    }

    fn is_ready(&mut self, seat: u32) -> bool {
        self.seats[0].ready() >> seat & 1 == 1
    }

    fn steps(&mut self) -> u32 {
        self.seats[0].look().stamp
    }

    fn journal(self) -> Vec<u8> {
        earlier(self.finish().journal().expect("a journal"))
    }
}

/// The same, each of whose requests is handed over.
pub struct HandedOver(Library);

impl Engine for HandedOver {
    type Form = Ask;

    fn new(seats: u32) -> HandedOver {
        HandedOver(Library::new(seats))
    }

    fn form(ask: &Ask) -> Ask {
        ask.clone()
    }

    #[inline]
    fn ask(&mut self, seat: u32, ask: &Ask, buffer: u64) -> Told {
        hand_over(&mut self.0.seats[seat as usize], ask, buffer)
    }

    fn is_ready(&mut self, seat: u32) -> bool {
        self.0.is_ready(seat)
    }

    fn steps(&mut self) -> u32 {
        self.0.steps()
    }

    fn journal(self) -> Vec<u8> {
        self.0.journal()
    }
}
