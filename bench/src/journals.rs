// SPDX-License-Identifier: Apache-2.0 OR MIT
//! A journal spelled, read and judged.
use crate::beside::{self, ByRequests};
use crate::clock;
use crate::engines::{self, Engine, Library};
use crate::table::{Key, Table, Whose};
use crate::workloads;
use hullpippin::{Verdict, verdict_on};

// An engine after so many steps of three workloads by turns.
fn played<E: Engine>(steps: usize) -> E {
    let base = workloads::object_again();
    let mut engine = E::new(base.seats);
    let mut slots = engines::slots([&base.setup.0[..]]);
    engines::play(&mut engine, &engines::formed::<E>(&base.setup.0), &mut slots);
    let bodies = [workloads::ping().body, workloads::call_and_reply().body, base.body];
    let body = engines::formed::<E>(&bodies.map(|it| it.0).concat());
    (0..steps / body.len()).for_each(|_| engines::play(&mut engine, &body, &mut slots));
    engine
}

/// Where the answer of the first entry stands, an `open`: behind the journal's 16 bytes the seat's 4, the step's length
/// and 13 bytes, and the answer's length.
const FIRST_ANSWER: usize = 16 + 4 + 4 + 13 + 4;

/// Nanoseconds an entry of what is done.
fn timed<T>(entries: usize, work: impl FnOnce() -> T) -> (f64, T) {
    let (time, done) = clock::timed(work);
    (time / entries as f64, done)
}

/// Measures once, on each engine.
pub fn measure(steps: usize, table: &mut Table) {
    let mut engine = played::<Library>(steps);
    let entries = engine.steps() as usize;
    let mut add = |name: &str, whose, figure| table.add(Key::plain(name), whose, figure);
    let mut history = engine.finish();
    // the wrapper asks twice, for the size and for the bytes, and each time the journal is spelled
    let (spelled, journal) = timed(entries, || history.journal().expect("a journal"));
    add(SPELLED, Whose::Ours, spelled / 2.0);
    let (judged, verdict) = timed(entries, || verdict_on(&journal));
    assert!(verdict == Ok(Verdict::Lawful(entries)), "the journal is {verdict:?}");
    add(JUDGED, Whose::Ours, judged);
    // where the first entry is unlawful, all is read and only that one judged
    let mut unlawful = journal.clone();
    unlawful[FIRST_ANSWER] = 1;
    let (read, verdict) = timed(entries, || verdict_on(&unlawful));
    assert!(verdict == Ok(Verdict::Unlawful(0)), "a journal that begins with a wrong answer is {verdict:?}");
    add(READ, Whose::Ours, read);
    if beside::IS_THERE {
        let engine = played::<ByRequests>(steps);
        let (spelled, theirs) = timed(entries, || engine.journal());
        assert!(theirs == engines::earlier(journal), "the two engines' journals differ");
        add(SPELLED, Whose::Beside, spelled);
        add(JUDGED, Whose::Beside, timed(entries, || assert!(beside::is_lawful(&theirs))).0);
        add(READ, Whose::Beside, timed(entries, || beside::read(&theirs)).0);
    }
}

const SPELLED: &str = "journal spelled, an entry";
const JUDGED: &str = "journal read and judged, an entry";
const READ: &str = "journal read, an entry";
