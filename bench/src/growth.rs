// SPDX-License-Identifier: Apache-2.0 OR MIT
//! The workloads that grow: one engine with n of something, and bodies that are played on it one after the other.
use crate::commands::{ONE_WAY, Object, Parcel};
use crate::steps::{SEATS, Steps};
use crate::workloads::{
    CALL, COMPLETE, COMPLETE_AND_CALL, LARGE_WINDOW, TWO_NOTICES, TWO_NOTICES_AND_COMPLETE, two_processes,
};

/// A list of requests that is played on a grown engine and timed.
pub struct Body {
    pub name: &'static str,
    /// What is played once before it.
    pub before: Steps,
    pub steps: Steps,
    /// Whether it changes what the engine holds, and so is played once only.
    pub once: bool,
    /// Through how many the time is divided, if not the steps.
    pub units: Option<usize>,
}

/// An engine with n of something.
pub struct Growth {
    pub setup: Steps,
    pub bodies: Vec<Body>,
}

/// A thing of which there are more and more, and how an engine with n of it is made.
pub struct Kind {
    /// The name of its journal for ten of it.
    pub journal: &'static str,
    pub make: fn(u32) -> Growth,
    /// The sizes at which it is measured.
    pub sizes: &'static [u32],
}

/// All things that the bench lets grow.
pub const KINDS: [Kind; 4] = [
    Kind { journal: "w5_names_10", make: names, sizes: &[100, 1000, 10_000, 100_000] },
    Kind { journal: "w5_buffers_10", make: buffers, sizes: &[100, 1000, 10_000] },
    Kind { journal: "w5_dues_10", make: unread_calls, sizes: &[100, 1000, 10_000] },
    Kind { journal: "w5_notices_10", make: notices, sizes: &[100, 1000, 10_000] },
];

impl Body {
    fn new(name: &'static str, make: impl FnOnce(&mut Steps)) -> Body {
        let mut steps = Steps::default();
        make(&mut steps);
        Body { name, before: Steps::default(), steps, once: false, units: None }
    }

    fn once(self) -> Body {
        Body { once: true, ..self }
    }
}

/// A simple linear congruential generator, so that each engine meets the same numbers.
struct Random(u64);

impl Random {
    fn below(&mut self, n: u32) -> u32 {
        self.0 = self.0.wrapping_mul(6_364_136_223_846_793_005).wrapping_add(1_442_695_040_888_963_407);
        ((self.0 >> 33) % u64::from(n)) as u32
    }
}

fn names(n: u32) -> Growth {
    let mut setup = two_processes(LARGE_WINDOW);
    setup.objects(n, true);
    let (middle, new) = (n / 2 + 1, Object { ptr: 16 * u64::from(n + 1), cookie: 8 });
    let mut random = Random(n.into());
    let bodies = vec![
        Body::new("ping, n names", |steps| steps.ping(64)),
        Body::new("object again, n names", |steps| steps.object_again(Object::number(middle), middle)),
        Body::new("object first time, n names", |steps| steps.object_first(new, n + 1)),
        Body::new("acquire and release at random, n names", |steps| {
            for k in (0..8192).map(|_| random.below(n) + 1) {
                steps.acquire(0, k);
                steps.release(0, k);
            }
        }),
        Body::new("name gone and come anew at random, n names", |steps| {
            (0..1024).map(|_| random.below(n) + 1).for_each(|k| steps.gone_and_anew(k));
        }),
    ];
    Growth { setup, bodies }
}

fn buffers(n: u32) -> Growth {
    let mut setup = two_processes(LARGE_WINDOW);
    let slots = SEATS..SEATS + n as usize;
    slots.clone().for_each(|slot| setup.call_that_stays(slot));
    let mut holes = Steps::default();
    slots.step_by(2).for_each(|slot| holes.free_from(0, slot));
    let mut random = Random(n.into());
    let bodies = vec![
        Body::new("ping, n live buffers", |steps| steps.ping(64)),
        Body { before: holes, ..Body::new("ping of 64, n/2 holes of 64", |steps| steps.ping(64)) },
        Body::new("ping of 128, past n/2 holes of 64", |steps| steps.ping(128)),
        Body::new("a buffer freed, its hole taken, n/2 holes", |steps| {
            for slot in (0..1024).map(|_| SEATS + 2 * random.below(n / 2) as usize + 1) {
                steps.free_from(0, slot);
                steps.call_that_stays(slot);
            }
        })
        .once(),
    ];
    Growth { setup, bodies }
}

fn unread_calls(n: u32) -> Growth {
    let mut setup = two_processes(LARGE_WINDOW);
    setup.objects(n, true);
    (1..=n).for_each(|k| setup.call_to_object(k));
    let body = Body::new("one call more, the oldest read, n calls unread", |steps| {
        for k in 1..=n {
            steps.call_to_object(k);
            steps.read(1, CALL);
            steps.free(1);
        }
    });
    Growth { setup, bodies: vec![body] }
}

fn notices(n: u32) -> Growth {
    const SENT: usize = 1000;
    let mut setup = two_processes(LARGE_WINDOW);
    setup.objects(n, false);
    let mut random = Random(n.into());
    let sent = Body::new("object sent again, n notices unread", |steps| {
        for k in (0..SENT).map(|_| random.below(n) + 1) {
            steps.call(1, 0, 3, ONE_WAY, Parcel::beginning_with(Object::number(k)));
            steps.read(0, CALL);
            steps.free(0);
        }
    });
    // the notices, and the completions of the parcels that made them and of the calls above
    let units = Some(n as usize + n.div_ceil(64) as usize + SENT);
    let drained = Body::new("n notices drained, for each return", |steps| steps.drain(1));
    Growth { setup, bodies: vec![sent.once(), Body { units, ..drained.once() }] }
}

impl Steps {
    // A name of the manager's goes, its object with it, and both come back.
    fn gone_and_anew(&mut self, k: u32) {
        self.release(0, k);
        self.read(1, TWO_NOTICES);
        self.call(1, 0, 3, ONE_WAY, Parcel::beginning_with(Object::number(k)));
        self.read(0, CALL);
        self.acquire(0, k);
        self.free(0);
        self.read(1, TWO_NOTICES_AND_COMPLETE);
        self.handshakes(1, Object::number(k));
    }

    // A call to the manager with its reply; the manager keeps the buffer.
    fn call_that_stays(&mut self, slot: usize) {
        self.call(1, 0, 2, 0, Parcel::counting(64));
        self.read_into(0, CALL, slot);
        self.reply(0, Parcel::default());
        self.read(0, COMPLETE);
        self.read(1, COMPLETE_AND_CALL);
        self.free(1);
    }

    // A one-way call of the manager's to an object of seat 1's.
    fn call_to_object(&mut self, handle: u32) {
        self.call(0, handle, 1, ONE_WAY, Parcel::counting(64));
        self.read(0, COMPLETE);
    }
}
