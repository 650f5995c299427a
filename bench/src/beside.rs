// SPDX-License-Identifier: Apache-2.0 OR MIT
//! The engine beside ours: an ordinary one in unverified Rust, whose crate `bench/run --beside FOLDER` names. Twice:
//! asked as ours is, with bytes that it takes a copy of, and with steps that were made ahead.
use crate::commands;
use crate::engines::{Engine, Told};
use crate::sharing::pause;
use crate::steps::Ask;
use baseline::engine::{self, replay};
use baseline::hist::VecHist;
use baseline::types::{self, Answer, Got, RunAnswer, Step};
use baseline::{journal, types::Wrote};
use std::ffi::c_void;
use std::marker::PhantomData;
use std::sync::atomic::{AtomicU32, Ordering};
use std::sync::{Arc, Mutex};

/// Whether there is an engine beside ours.
pub const IS_THERE: bool = true;

type Inner = engine::Engine<VecHist>;

/// The engine, asked in a way.
pub struct Beside<A>(Inner, PhantomData<A>);

/// A way in which it is asked.
pub trait Asking {
    type Form;
    fn form(ask: &Ask) -> Self::Form;
    fn ask(engine: &mut Inner, seat: u32, form: &Self::Form, buffer: u64) -> Told;
}

/// The engine is asked as ours is: by requests, whose bytes it copies.
pub struct Requests;

/// The engine is asked with steps that were made ahead.
pub struct Steps;

pub type ByRequests = Beside<Requests>;
pub type BySteps = Beside<Steps>;

fn told_of_got(got: &Got) -> Told {
    Told::Got { size: got.stream().len(), buffer: commands::buffer_of(got.stream()) }
}

fn told_of_step(answer: &Answer) -> Told {
    match answer {
        Answer::Got(got) => told_of_got(got),
        Answer::Opened | Answer::Set | Answer::Accepted => Told::Done,
        other => Told::Otherwise(format!("{other:?}")),
    }
}

fn told(answer: &RunAnswer) -> Told {
    match answer {
        RunAnswer::One(answer) => told_of_step(answer),
        RunAnswer::Wrote(Wrote { notes, stop: None, .. }) if notes.is_empty() => Told::Done,
        other => Told::Otherwise(format!("{other:?}")),
    }
}

fn asked(ask: &Ask, buffer: u64) -> types::Request {
    types::Request::One(match ask {
        Ask::Open { pid, euid, window } => Step::Open { pid: *pid, euid: *euid, window: *window },
        Ask::Manager => Step::SetManager,
        Ask::Read(limit) => Step::Read(*limit),
        Ask::Write { stream, area } => return types::Request::Write { stream: stream.clone(), area: area.clone() },
        Ask::Free => return types::Request::Write { stream: commands::free(buffer).to_vec(), area: Vec::new() },
    })
}

impl<A: Asking> Engine for Beside<A> {
    type Form = A::Form;

    fn new(seats: u32) -> Beside<A> {
        Beside(Inner::new(seats).expect("1 to 16 seats"), PhantomData)
    }

    fn form(ask: &Ask) -> A::Form {
        A::form(ask)
    }

    #[inline]
    fn ask(&mut self, seat: u32, form: &A::Form, buffer: u64) -> Told {
        A::ask(&mut self.0, seat, form, buffer)
    }

    fn is_ready(&mut self, seat: u32) -> bool {
        self.0.ready() >> seat & 1 == 1
    }

    fn steps(&mut self) -> u32 {
        self.0.len()
    }

    fn journal(self) -> Vec<u8> {
        let Beside(engine, _) = self;
        let mut bytes = Vec::new();
        journal::write_entries(engine.seats, engine.len() as usize, engine.hist.iter(), |some| {
            bytes.extend_from_slice(some);
            true
        });
        bytes
    }
}

impl Asking for Requests {
    type Form = Ask;

    fn form(ask: &Ask) -> Ask {
        ask.clone()
    }

    #[inline]
    fn ask(engine: &mut Inner, seat: u32, ask: &Ask, buffer: u64) -> Told {
        told(&engine.run(seat, asked(ask, buffer)).0)
    }
}

impl Asking for Steps {
    /// None is a free, whose buffer isn't known ahead.
    type Form = Option<Step>;

    fn form(ask: &Ask) -> Option<Step> {
        match (ask, asked(ask, 0)) {
            (Ask::Free, _) => None,
            (_, types::Request::One(step)) => Some(step),
            (_, types::Request::Write { stream, area }) => {
                Some(types::read_command(&stream, Some(&area)).expect("a command").0)
            }
        }
    }

    #[inline]
    fn ask(engine: &mut Inner, seat: u32, step: &Option<Step>, buffer: u64) -> Told {
        told_of_step(&engine.step(seat, step.clone().unwrap_or(Step::Free(buffer))))
    }
}

/// The engine as ours is behind its header: what a request answered is kept until the next one, and the page beside it.
pub struct Kept {
    engine: Inner,
    latest: Option<RunAnswer>,
    page: (u32, u32),
}

/// The name under which a tool finds `Kept`'s requests.
pub const ASKS: &str = "bench_asks_beside";

pub fn asks() -> *const c_void {
    kept as *const c_void
}

/// One request, whose bytes are copied, with the page behind it.
#[unsafe(export_name = "bench_asks_beside")]
#[inline(never)]
fn kept(it: &mut Kept, seat: u32, ask: &Ask, buffer: u64) {
    it.latest = Some(it.engine.run(seat, asked(ask, buffer)).0);
    it.page = (it.engine.len(), it.engine.ready());
}

impl Engine for Kept {
    type Form = Ask;

    fn new(seats: u32) -> Kept {
        Kept { engine: Inner::new(seats).expect("1 to 16 seats"), latest: None, page: (0, 0) }
    }

    fn form(ask: &Ask) -> Ask {
        ask.clone()
    }

    fn ask(&mut self, seat: u32, ask: &Ask, buffer: u64) -> Told {
        kept(self, seat, ask, buffer);
        self.latest.as_ref().map_or_else(|| Told::Otherwise("nothing".into()), told)
    }

    fn is_ready(&mut self, seat: u32) -> bool {
        self.page.1 >> seat & 1 == 1
    }

    fn steps(&mut self) -> u32 {
        self.page.0
    }

    fn journal(self) -> Vec<u8> {
        Beside(self.engine, PhantomData::<Requests>).journal()
    }
}

/// Whether the engine beside calls a journal lawful.
pub fn is_lawful(bytes: &[u8]) -> bool {
    journal::read(bytes).is_some_and(|(seats, entries)| replay(seats, entries).is_none())
}

/// Reads a journal, and says how many entries it has.
pub fn read(bytes: &[u8]) -> usize {
    journal::read(bytes).expect("a journal").1.len()
}

/// A number in a cache line of its own.
#[derive(Default)]
#[repr(align(64))]
struct Counter(AtomicU32);

/// An engine behind a mutex, and the seats that are ready. By tickets each request waits for its turn first.
struct Shared {
    engine: Mutex<Inner>,
    ready: AtomicU32,
    /// The number of the next ticket.
    next: Counter,
    /// The number whose turn it is.
    called: Counter,
}

impl Shared {
    fn of(engine: ByRequests) -> Arc<Shared> {
        let ready = AtomicU32::new(engine.0.ready());
        Arc::new(Shared { engine: Mutex::new(engine.0), ready, next: Counter::default(), called: Counter::default() })
    }

    fn ask(&self, seat: u32, request: types::Request) -> RunAnswer {
        let mut engine = self.engine.lock().expect("no thread panics");
        let answer = engine.run(seat, request).0;
        self.ready.store(engine.ready(), Ordering::Release);
        answer
    }

    fn is_ready(&self, seat: u32) -> bool {
        self.ready.load(Ordering::Acquire) >> seat & 1 == 1
    }
}

/// A seat of an engine behind a mutex, which wakes whom it likes.
pub struct ByMutex {
    shared: Arc<Shared>,
    seat: u32,
}

/// A seat of an engine behind tickets: who asks first is answered first, and looks until then, as a seat of ours does.
pub struct ByTicket {
    shared: Arc<Shared>,
    seat: u32,
}

impl ByMutex {
    /// All seats of an engine.
    pub fn seats(engine: ByRequests) -> Vec<ByMutex> {
        let (seats, shared) = (engine.0.seats, Shared::of(engine));
        (0..seats).map(|seat| ByMutex { shared: shared.clone(), seat }).collect()
    }
}

impl ByTicket {
    /// All seats of an engine.
    pub fn seats(engine: ByRequests) -> Vec<ByTicket> {
        let (seats, shared) = (engine.0.seats, Shared::of(engine));
        (0..seats).map(|seat| ByTicket { shared: shared.clone(), seat }).collect()
    }
}

impl crate::sharing::Hand for ByMutex {
    fn ask(&mut self, ask: &Ask, buffer: u64) -> Told {
        told(&self.shared.ask(self.seat, asked(ask, buffer)))
    }

    fn is_ready(&mut self) -> bool {
        self.shared.is_ready(self.seat)
    }
}

impl crate::sharing::Hand for ByTicket {
    fn ask(&mut self, ask: &Ask, buffer: u64) -> Told {
        let request = asked(ask, buffer);
        let ticket = self.shared.next.0.fetch_add(1, Ordering::Relaxed);
        let mut turn = 0;
        while self.shared.called.0.load(Ordering::Acquire) != ticket {
            pause(&mut turn);
        }
        let answer = self.shared.ask(self.seat, request);
        self.shared.called.0.store(ticket.wrapping_add(1), Ordering::Release);
        told(&answer)
    }

    fn is_ready(&mut self) -> bool {
        self.shared.is_ready(self.seat)
    }
}
