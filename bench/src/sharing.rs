// SPDX-License-Identifier: Apache-2.0 OR MIT
//! Seats in threads of their own: a pair in each thread, or a seat in each.
use crate::engines::{self, Engine, Library, Told};
use crate::steps::{Ask, Op, SEATS, Wants};
use crate::workloads;
use hullpippin::Seat;
use std::sync::Barrier;
use std::thread;
use std::time::{Duration, Instant};

/// A seat by which requests are made from a thread.
pub trait Hand: Send {
    fn ask(&mut self, ask: &Ask, buffer: u64) -> Told;
    fn is_ready(&mut self) -> bool;
}

/// A seat of the library's, by its number.
pub struct Numbered {
    seat: Seat,
    number: usize,
}

/// Each request is a call, which is made again, as `Seat::insist` does, while another seat has the engine.
pub struct ByCall(Numbered);

/// Each request is posted, and whoever finds the engine free serves, as `Seat::awaited` does.
pub struct ByPost(Numbered);

/// Each request is a call where the engine is free, and else posted, as `Seat::hand_over` does.
pub struct ByEither(Numbered);

impl From<Numbered> for ByCall {
    fn from(seat: Numbered) -> ByCall {
        ByCall(seat)
    }
}

impl From<Numbered> for ByPost {
    fn from(seat: Numbered) -> ByPost {
        ByPost(seat)
    }
}

impl From<Numbered> for ByEither {
    fn from(seat: Numbered) -> ByEither {
        ByEither(seat)
    }
}

impl Numbered {
    fn is_ready(&mut self) -> bool {
        self.seat.ready() >> self.number & 1 == 1
    }
}

impl Hand for ByCall {
    fn ask(&mut self, ask: &Ask, buffer: u64) -> Told {
        let seat = &mut self.0.seat;
        let outcome = seat.insist(|seat| engines::outcome(seat, ask, buffer));
        engines::kept(seat, outcome)
    }

    fn is_ready(&mut self) -> bool {
        self.0.is_ready()
    }
}

impl Hand for ByPost {
    fn ask(&mut self, ask: &Ask, buffer: u64) -> Told {
        let seat = &mut self.0.seat;
        let free = crate::commands::free(buffer);
        let outcome = seat.post(engines::posted(ask, &free)).and_then(|()| seat.awaited());
        engines::kept(seat, outcome)
    }

    fn is_ready(&mut self) -> bool {
        self.0.is_ready()
    }
}

impl Hand for ByEither {
    fn ask(&mut self, ask: &Ask, buffer: u64) -> Told {
        let seat = &mut self.0.seat;
        let free = crate::commands::free(buffer);
        let outcome = seat.hand_over(engines::posted(ask, &free));
        engines::kept(seat, outcome)
    }

    fn is_ready(&mut self) -> bool {
        self.0.is_ready()
    }
}

impl From<ByCall> for Seat {
    fn from(hand: ByCall) -> Seat {
        hand.0.seat
    }
}

impl From<ByPost> for Seat {
    fn from(hand: ByPost) -> Seat {
        hand.0.seat
    }
}

impl From<ByEither> for Seat {
    fn from(hand: ByEither) -> Seat {
        hand.0.seat
    }
}

/// Waits a little, and now and then lets another thread have the processor.
pub fn pause(turn: &mut u32) {
    *turn += 1;
    if turn.is_multiple_of(64) { thread::yield_now() } else { std::hint::spin_loop() }
}

/// How the threads of a run share the seats.
#[derive(Clone, Copy, PartialEq, Eq)]
pub enum Shape {
    /// Both seats of a pair are one thread's.
    PairEach,
    /// Each seat is a thread's, which waits until it is ready before it reads.
    SeatEach,
}

/// What a run came to.
pub struct Ran<H> {
    pub hands: Vec<H>,
    pub steps: u64,
    pub seconds: f64,
}

/// The most rounds that a thread plays, so that the history stays small.
const MOST_ROUNDS: usize = 20_000;

/// Lets so many threads work for so long. The hands are all of an engine's, in the order of their seats.
pub fn run<H: Hand>(hands: Vec<H>, shape: Shape, threads: u32, time: Duration) -> Ran<H> {
    let gate = Barrier::new(threads as usize + 1);
    let each = if shape == Shape::PairEach { 2 } else { 1 };
    let (mut ran, mut start) = (Vec::new(), Instant::now());
    let mut hands = hands.into_iter();
    thread::scope(|scope| {
        let gate = &gate;
        let workers = (0..threads).map(|number| {
            let mine = hands.by_ref().take(each).collect::<Vec<_>>();
            scope.spawn(move || worked(mine, number, gate, time))
        });
        let workers = workers.collect::<Vec<_>>();
        gate.wait();
        start = Instant::now();
        ran.extend(workers.into_iter().map(|worker| worker.join().expect("a thread of the bench panicked")));
    });
    let seconds = start.elapsed().as_secs_f64();
    let steps = ran.iter().map(|(_, steps)| steps).sum();
    Ran { hands: ran.into_iter().flat_map(|(mine, _)| mine).chain(hands).collect(), steps, seconds }
}

// One thread's part: with two hands a pair's calls and replies, with one those of its side.
fn worked<H: Hand>(mut mine: Vec<H>, number: u32, gate: &Barrier, time: Duration) -> (Vec<H>, u64) {
    let pair = if mine.len() == 2 { number } else { number / 2 };
    let (_, mut bodies) = workloads::pairs(pair + 1);
    let body = bodies.pop().expect("a body for each pair").0;
    gate.wait();
    let end = Instant::now() + time;
    let steps = match &mut mine[..] {
        [server, client] => both(&mut [server, client], &body, end),
        [hand] if number % 2 == 1 => one(hand, &side(&body, number), end, true),
        [hand] => one(hand, &side(&body, number), end, false),
        _ => 0,
    };
    (mine, steps)
}

// The requests of one seat. A server's last read, of its completion, comes before its next call.
fn side(body: &[Op], seat: u32) -> Vec<Op> {
    body.iter().filter(|op| op.seat == seat).cloned().collect()
}

fn both<H: Hand>(pair: &mut [&mut H; 2], body: &[Op], end: Instant) -> u64 {
    let mut slots = [0; SEATS];
    let mut steps = 0;
    for round in 0..MOST_ROUNDS {
        for op in body {
            let told = pair[op.seat as usize % 2].ask(&op.ask, slots[op.slot]);
            engines::settle(op, told, &mut slots);
        }
        steps += body.len() as u64;
        if round % 8 == 0 && Instant::now() > end {
            break;
        }
    }
    steps
}

fn one<H: Hand>(hand: &mut H, side: &[Op], end: Instant, is_client: bool) -> u64 {
    let mut slots = [0; SEATS];
    let mut steps = 0;
    for _ in 0..MOST_ROUNDS {
        if is_client && Instant::now() > end {
            break;
        }
        for op in side.iter().filter(|op| !matches!(op.wants, Wants::Got(workloads::COMPLETE))) {
            let Some(made) = waited(hand, op, &mut slots, end) else { return steps };
            steps += made;
        }
    }
    steps
}

// Makes a request, a read when the seat is ready and until it has told a buffer. None where the time is up.
fn waited<H: Hand>(hand: &mut H, op: &Op, slots: &mut [u64], end: Instant) -> Option<u64> {
    if !matches!(op.ask, Ask::Read(_)) {
        let told = hand.ask(&op.ask, slots[op.slot]);
        engines::settle(op, told, slots);
        return Some(1);
    }
    for made in 1.. {
        let mut turn = 0;
        while !hand.is_ready() {
            pause(&mut turn);
            if turn.is_multiple_of(1024) && Instant::now() > end {
                return None;
            }
        }
        match hand.ask(&op.ask, 0) {
            Told::Got { buffer: Some(buffer), .. } => {
                slots[op.slot] = buffer;
                return Some(made);
            }
            Told::Got { .. } => (),
            told => panic!("seat {} is told {told:?}", op.seat),
        }
    }
    None
}

/// An engine with all seats of so many pairs, which are introduced.
pub fn introduced<E: Engine>(pairs: u32) -> E {
    let mut engine = E::new(SEATS as u32);
    let (setup, _) = workloads::pairs(pairs);
    let mut slots = engines::slots([&setup.0[..]]);
    engines::play(&mut engine, &engines::formed::<E>(&setup.0), &mut slots);
    engine
}

/// The library's seats as hands, whatever they are of, and back.
pub fn through<H: Hand + From<Numbered> + Into<Seat>>(
    library: Library,
    shape: Shape,
    threads: u32,
    time: Duration,
) -> (Library, u64, f64) {
    library.in_hands(|seats| {
        let numbered = seats.into_iter().enumerate().map(|(number, seat)| Numbered { seat, number }.into());
        let ran = run::<H>(numbered.collect(), shape, threads, time);
        (ran.hands.into_iter().map(H::into).collect(), ran.steps, ran.seconds)
    })
}
