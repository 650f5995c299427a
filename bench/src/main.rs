// SPDX-License-Identifier: Apache-2.0 OR MIT
//! The library's speed, measured through its header: see README.md.
#[cfg_attr(beside, path = "beside.rs")]
#[cfg_attr(not(beside), path = "alone.rs")]
mod beside;
mod clock;
mod commands;
mod counted;
mod engines;
mod expected;
mod growth;
mod journals;
mod measure;
mod memory;
mod picture;
mod settings;
mod sharing;
mod steps;
mod table;
mod workloads;

use beside::{ByMutex, ByRequests, BySteps, ByTicket};
use engines::{HandedOver, Library};
use hullpippin::{Verdict, verdict_on};
use settings::Settings;
use sharing::{ByCall, ByEither, ByPost, Shape};
use std::process::ExitCode;
use std::time::Duration;
use table::{Key, Shown, Table, Whose};

/// The parts that `--only` chooses from.
const WORKLOADS: &str = "workloads";
const GROWTH: &str = "growth";
const THREADS: &str = "threads";
const JOURNALS: &str = "journals";
const MEMORY: &str = "memory";

fn main() -> ExitCode {
    let Some(settings) = Settings::read(std::env::args().skip(1)) else {
        eprintln!("{}", settings::USAGE);
        return ExitCode::from(2);
    };
    let done = match &settings.counted {
        Some(words) => counted::play(words),
        None => checked().and_then(|count| measured(&settings, count)),
    };
    match done {
        Ok(()) => ExitCode::SUCCESS,
        Err(why) => {
            eprintln!("bench: {why}");
            ExitCode::FAILURE
        }
    }
}

/// Sees that all workloads come to the journals that they must.
fn checked() -> Result<usize, String> {
    if beside::IS_THERE {
        expected::check::<ByRequests>().map_err(|why| format!("beside, {why}"))?;
        expected::check::<BySteps>().map_err(|why| format!("beside, by steps, {why}"))?;
    }
    expected::check::<HandedOver>().map_err(|why| format!("handed over, {why}"))?;
    expected::check::<Library>()
}

fn measured(settings: &Settings, journals: usize) -> Result<(), String> {
    println!("{journals} journals are as they must be, byte for byte.\n");
    if settings.check {
        return Ok(());
    }
    let before = settings::load();
    let (mut times, mut bytes) = (Table::default(), Table::default());
    for run in 0..=settings.runs {
        eprintln!("run {run} of {}", settings.runs);
        // the first meets memory that the system has yet to give, and doesn't count
        if run == 1 {
            times = Table::default();
        }
        once(settings, run, &mut times);
    }
    if settings.wants(MEMORY) {
        memory::measure(settings.steps(), &mut bytes);
    }
    let load = format!("load {before} before and {} after", settings::load());
    let runs = settings.runs;
    println!("{}; {load}; {runs} runs, {}.\n", settings::machine(), settings::today());
    let beside = beside::IS_THERE;
    print!("{}", Shown { table: &times, beside, unit: "ns a step", rates: true });
    if !bytes.rows.is_empty() {
        print!("\n{}", Shown { table: &bytes, beside, unit: "bytes an entry", rates: false });
    }
    match &settings.picture {
        Some(path) => std::fs::write(path, picture::drawn(&times, CAPTION)).map_err(|error| format!("{path}: {error}")),
        None => Ok(()),
    }
}

const CAPTION: &str =
    "Nanoseconds a step against n: Hullpippin (lines) and an ordinary engine of the same rules (dashes)";

/// Measures each part that is wanted once.
fn once(settings: &Settings, run: usize, table: &mut Table) {
    let steps = settings.steps();
    if settings.wants(WORKLOADS) {
        workloads::all().iter().for_each(|it| measure::workload(it, steps, run, table));
    }
    if settings.wants(GROWTH) {
        for kind in growth::KINDS {
            for n in kind.sizes.iter().filter(|n| !settings.quick || **n <= 1000) {
                measure::growth(kind.journal, *n, &(kind.make)(*n), steps, run, table);
            }
        }
    }
    if settings.wants(THREADS) {
        threads(settings, table);
    }
    if settings.wants(JOURNALS) {
        journals::measure(steps, table);
    }
}

/// How a thread has its requests run, and what runs it so.
type Through = fn(Library, Shape, u32, Duration) -> (Library, u64, f64);
const WAYS: [(&str, Through); 3] = [
    ("by call", sharing::through::<ByCall>),
    ("by post and serve", sharing::through::<ByPost>),
    ("by call, or posted where another has the engine", sharing::through::<ByEither>),
];

/// Pairs in 1 to 8 threads, and single seats in 2 to 16.
fn threads(settings: &Settings, table: &mut Table) {
    for (shape, counts, name) in [
        (Shape::PairEach, [1, 2, 4, 8], "a pair in each of n threads"),
        (Shape::SeatEach, [2, 4, 8, 16], "a seat in each of n threads"),
    ] {
        for count in counts {
            let key = |way: &str| Key { kind: None, name: format!("{name}, {way}"), n: Some(count) };
            let pairs = if shape == Shape::PairEach { count } else { count / 2 };
            for (way, through) in WAYS {
                let ran = through(sharing::introduced(pairs), shape, count, settings.time());
                table.add(key(way), Whose::Ours, lawful(ran));
            }
            if beside::IS_THERE {
                let nanoseconds = |seconds: f64, steps: u64| 1e9 * seconds / steps as f64;
                let ran = sharing::run(ByMutex::seats(sharing::introduced(pairs)), shape, count, settings.time());
                let by_mutex = nanoseconds(ran.seconds, ran.steps);
                let ran = sharing::run(ByTicket::seats(sharing::introduced(pairs)), shape, count, settings.time());
                let by_ticket = nanoseconds(ran.seconds, ran.steps);
                for (way, _) in WAYS {
                    table.add(key(way), Whose::Beside, by_mutex);
                    table.add(key(way), Whose::BesideByTicket, by_ticket);
                }
            }
        }
    }
}

/// The nanoseconds a step, of a history that must be lawful.
fn lawful((library, steps, seconds): (Library, u64, f64)) -> f64 {
    let journal = library.finish().journal().expect("a journal");
    let verdict = verdict_on(&journal);
    assert!(matches!(verdict, Ok(Verdict::Lawful(entries)) if entries as u64 >= steps), "threads left {verdict:?}");
    assert!(beside::is_lawful(&engines::earlier(journal)), "the engine beside calls what threads left unlawful");
    1e9 * seconds / steps as f64
}
