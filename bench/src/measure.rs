// SPDX-License-Identifier: Apache-2.0 OR MIT
//! Times of the workloads, each on a new engine, and the journals that they leave.
use crate::beside::{self, ByRequests, BySteps};
use crate::clock;
use crate::engines::{self, Engine, Library};
use crate::growth::{Body, Growth};
use crate::steps::{Op, Steps};
use crate::table::{Key, Table, Whose};
use crate::workloads::Workload;

/// What a run of a workload or of a growing engine came to: figures, and the journal.
type Ran<F> = (F, Vec<u8>);

/// Nanoseconds of the processor a step, of so many rounds of a list.
fn timed<E: Engine>(engine: &mut E, ops: &[Op<E::Form>], slots: &mut [u64], rounds: usize) -> f64 {
    let from = engine.steps();
    let (time, ()) = clock::timed(|| (0..rounds).for_each(|_| engines::play(engine, ops, slots)));
    time / f64::from(engine.steps() - from)
}

fn of_workload<E: Engine>(workload: &Workload, steps: usize) -> Ran<f64> {
    let mut engine = E::new(workload.seats);
    let mut slots = engines::slots([&workload.setup.0[..], &workload.body.0]);
    engines::play(&mut engine, &engines::formed::<E>(&workload.setup.0), &mut slots);
    let body = engines::formed::<E>(&workload.body.0);
    let rounds = (steps / body.len()).max(1);
    timed(&mut engine, &body, &mut slots, rounds / 10);
    let figure = timed(&mut engine, &body, &mut slots, rounds);
    (figure, engine.journal())
}

fn of_growth<E: Engine>(growth: &Growth, steps: usize) -> Ran<Vec<f64>> {
    let mut engine = E::new(2);
    let lists = growth.bodies.iter().flat_map(|body| [&body.before, &body.steps]);
    let mut slots = engines::slots(lists.chain([&growth.setup]).map(|it| &it.0[..]));
    let play = |engine: &mut E, list: &Steps, slots: &mut [u64]| {
        engines::play(engine, &engines::formed::<E>(&list.0), slots);
    };
    play(&mut engine, &growth.setup, &mut slots);
    let figures = growth.bodies.iter().map(|body| {
        play(&mut engine, &body.before, &mut slots);
        of_body(&mut engine, body, &mut slots, steps)
    });
    let figures = figures.collect();
    (figures, engine.journal())
}

fn of_body<E: Engine>(engine: &mut E, body: &Body, slots: &mut [u64], steps: usize) -> f64 {
    let ops = engines::formed::<E>(&body.steps.0);
    let rounds = if body.once { 1 } else { (steps / ops.len()).max(1) };
    if !body.once {
        timed(engine, &ops, slots, (rounds / 10).max(1));
    }
    let from = engine.steps();
    let figure = timed(engine, &ops, slots, rounds);
    match body.units {
        Some(units) => figure * f64::from(engine.steps() - from) / units as f64,
        None => figure,
    }
}

/// The same measurement on each engine, in an order that turns from run to run. Ends the bench where their journals
/// aren't the same bytes.
fn on_each<I: ?Sized, F>(
    name: &str,
    input: &I,
    [ours, beside, by_steps]: [fn(&I, usize) -> Ran<F>; 3],
    steps: usize,
    run: usize,
) -> Vec<(Whose, F)> {
    let mut engines = vec![(Whose::Ours, ours), (Whose::Beside, beside), (Whose::BesideBySteps, by_steps)];
    engines.truncate(if beside::IS_THERE { 3 } else { 1 });
    let count = engines.len();
    engines.rotate_left(run % count);
    let ran = engines.into_iter().map(|(whose, measured)| (whose, measured(input, steps))).collect::<Vec<_>>();
    assert!(ran.windows(2).all(|pair| pair[0].1.1 == pair[1].1.1), "{name}: the two engines' journals differ");
    ran.into_iter().map(|(whose, (figure, _))| (whose, figure)).collect()
}

/// Measures a workload once on each engine.
pub fn workload(workload: &Workload, steps: usize, run: usize, table: &mut Table) {
    let measured = [of_workload::<Library>, of_workload::<ByRequests>, of_workload::<BySteps>];
    for (whose, figure) in on_each(workload.name, workload, measured, steps, run) {
        table.add(Key::plain(workload.name), whose, figure);
    }
}

/// Measures what grows once on each engine.
pub fn growth(kind: &'static str, n: u32, growth: &Growth, steps: usize, run: usize, table: &mut Table) {
    let measured = [of_growth::<Library>, of_growth::<ByRequests>, of_growth::<BySteps>];
    for (whose, figures) in on_each(kind, growth, measured, steps, run) {
        for (body, figure) in growth.bodies.iter().zip(figures) {
            table.add(Key { kind: Some(kind), name: body.name.into(), n: Some(n) }, whose, figure);
        }
    }
}
