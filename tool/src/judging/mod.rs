// SPDX-License-Identifier: Apache-2.0 OR MIT
//! Recordings of a real driver, judged by the rules.
mod absent;
pub mod files;
mod lessons;
mod machine;
mod matching;
mod order;
pub mod recorder;
mod search;
mod steps;
mod told;
mod trace;

use crate::arguments::{self, Judge};
use crate::rules::{Way, Ways, WAYS};
use anyhow::{bail, Result};
use nix::time::{clock_gettime, ClockId};
use search::{Outcome, Search};
use std::io::Write;
use std::time::Duration;
use steps::Recording;

/// Of how few steps a recording has to be for all its orders to be tried; how many steps are tried then, and how many orders of equally
/// many steps may be followed at once.
const SMALL: usize = 1500;
const EXHAUSTED: u64 = 300_000;
const AT_ONCE: usize = 6000;
/// Where the driver makes one step in parts.
const HALVES: [Way; 5] = [Way::Pieces, Way::Released, Way::Ended, Way::Numbered, Way::Held];
/// How many sets of switches have more tries than the others.
const GO_ON: usize = 3;
/// Seconds of a processor for a recording, ..
const SECONDS: f64 = 5.0;

/// In which the driver does otherwise also to one thread; the freedom of the order does what the others would. What newer drivers alone do
/// has to be named.
fn plain_ways() -> Ways {
    let free = [Way::Room, Way::Looper, Way::Deferred, Way::Stuck, Way::Long, Way::Uncounted];
    let others = WAYS.iter().filter(|it| it.2 && it.0 != Way::Waiter && !free.contains(&it.0)).map(|it| it.0);
    others.fold(Ways::NONE.with(Way::OwnPid), Ways::with)
}

/// The sets of switches that are tried, the likeliest first: each half that is possible makes the search longer.
fn sets() -> [Ways; 7] {
    let with = |ways: &[Way]| ways.iter().fold(plain_ways(), |sum, it| sum.with(*it));
    [
        with(&[Way::Waiter, Way::Pieces]),
        with(&[Way::Waiter, Way::Pieces, Way::Released, Way::Ended]),
        with(&[Way::Pieces, Way::Released, Way::Ended]),
        with(&[Way::Pieces, Way::Numbered]),
        with(&HALVES),
        with(&HALVES).with(Way::Waiter),
        with(&[Way::Waiter]),
    ]
}

/// .. and as many more for each so many steps that it has.
const OF_SECONDS: usize = 10_000;
/// Which part of them is left for finding out which differences aren't needed.
const LEFT_OUT: f64 = 0.25;

/// The time that the program has had of a processor: a busy machine doesn't make it end sooner.
fn worked() -> Duration {
    clock_gettime(ClockId::CLOCK_PROCESS_CPUTIME_ID).map_or(Duration::ZERO, Duration::from)
}

/// When a search gives up: after so many tries, and at a time of the processor.
#[derive(Clone, Copy, Debug)]
pub struct Bound {
    tries: u64,
    until: Duration,
}

impl Bound {
    fn is_late(&self) -> bool {
        worked() >= self.until
    }
}

/// What a recording came to.
struct Verdict {
    recording: Recording,
    ways: Ways,
    outcome: Outcome,
    tries: u64,
    /// Whether all its switches are needed, as far as is known.
    is_least: bool,
}

impl Verdict {
    /// The same, where it is better: an order, or a longer one.
    fn or(&mut self, other: Verdict) {
        let tries = self.tries + other.tries;
        let is_found = other.outcome.order.is_some();
        if is_found || self.outcome.order.is_none() && other.outcome.most > self.outcome.most {
            *self = other;
        }
        self.tries = tries;
    }

    /// Whether the order that was found is one without some of its switches too.
    fn holds_with(&mut self, whole: &Recording, ways: Ways) -> bool {
        let order = match &self.outcome.order {
            Some(order) => order,
            None => return false,
        };
        let recording = whole.taken_apart(ways);
        let held = [true, false].iter().find_map(|at_first| {
            let order = order::carried(&self.recording, order, &recording, *at_first);
            Some(order).filter(|it| order::holds(&recording, ways, it))
        });
        if let Some(order) = held {
            self.outcome.order = Some(order);
            self.recording = recording;
            self.ways = ways;
            return true;
        }
        false
    }
}

/// A recording as it was read, for one search after the other.
struct Trial<'a> {
    given: &'a Judge,
    whole: Recording,
    /// How much of the processor's time there is in all.
    seconds: f64,
}

impl Trial<'_> {
    /// So many tries at most, up to a part of the time.
    fn bound(&self, tries: u64, part: f64) -> Bound {
        Bound { tries: tries.min(self.given.tries), until: Duration::from_secs_f64(self.seconds * part) }
    }

    fn sought(&self, ways: Ways, bound: Bound) -> Verdict {
        let recording = self.whole.taken_apart(ways);
        let outcome = Search::new(&recording, ways, bound).run();
        Verdict { tries: outcome.tries, recording, ways, outcome, is_least: true }
    }

    /// Tries all orders there are with each of some sets of switches, where they aren't too many: so it is known where there is none.
    fn exhaust(&self, found: &mut Verdict, sets: &[Ways]) {
        let mut are_none = true;
        for ways in sets.iter().copied() {
            if found.outcome.order.is_some() {
                return;
            }
            let recording = self.whole.taken_apart(ways);
            let outcome = Search::new(&recording, ways, self.bound(EXHAUSTED, 1.0)).exhaust(AT_ONCE);
            are_none &= outcome.is_none;
            found.or(Verdict { tries: outcome.tries, recording, ways, outcome, is_least: true });
        }
        // Where others took part, another stand-in may do.
        found.outcome.is_none = are_none && self.whole.is_whole();
    }

    fn verdict(&self) -> Result<Verdict> {
        let (mut found, sets) = match &self.given.ways {
            Some(names) => {
                let ways = Ways::named(names.split(',').filter(|it| !it.is_empty()))
                    .map_err(|name| anyhow::anyhow!("{name} is none of the differences in docs/DIFFERENCES.md"))?;
                (self.sought(ways, self.bound(self.given.tries, 1.0)), vec![ways])
            }
            None => (self.verdict_of_all(), std::iter::once(Ways::NONE).chain(sets()).collect()),
        };
        if found.outcome.order.is_none() && self.whole.size() < SMALL {
            self.exhaust(&mut found, &sets);
        }
        if self.given.ways.is_none() {
            self.leave_out(&mut found);
        }
        Ok(found)
    }

    /// Seeks an order without a switch, then with one set of them after the other, first with few tries. Those that came furthest have
    /// more of them then.
    fn verdict_of_all(&self) -> Verdict {
        let few = 10_000 + 4 * self.whole.size() as u64;
        let mut sets = sets().to_vec();
        let mut found = self.sought(Ways::NONE, self.bound(few, 1.0));
        for limit in [few, (5 * few).min(self.given.tries / 6), self.given.tries / 2] {
            let mut reached = Vec::new();
            for ways in std::mem::take(&mut sets) {
                let bound = self.bound(limit, 1.0 - LEFT_OUT);
                if found.outcome.order.is_some() || bound.is_late() {
                    return found;
                }
                let next = self.sought(ways, bound);
                reached.push((next.outcome.most * 1000 / next.recording.size().max(1), ways));
                found.or(next);
            }
            reached.sort_by_key(|it| std::cmp::Reverse(it.0));
            sets.extend(reached.into_iter().take(GO_ON).map(|it| it.1));
        }
        found
    }

    /// Leaves out the switches that aren't needed: those that seldom are at once, then one after the other. Where the order that was
    /// found is none without one, another may be.
    fn leave_out(&self, found: &mut Verdict) {
        if found.outcome.order.is_none() {
            return;
        }
        let often = [Way::Notices, Way::Cleared, Way::Order, Way::Waiter];
        let often = often.iter().chain(&HALVES).fold(Ways::NONE, |ways, it| ways.with(*it));
        let each = WAYS.iter().map(|it| Ways::NONE.with(it.0));
        // An order with fewer switches takes about as many tries, if there is one; but there mostly is none.
        let limit = (5_000 + 2 * self.whole.size() as u64).max(found.outcome.tries.min(60_000));
        for left in std::iter::once(found.ways.minus(often)).chain(each) {
            let ways = found.ways.minus(left);
            if ways != found.ways && !found.holds_with(&self.whole, ways) {
                let bound = self.bound(limit, 1.0);
                let is_least = found.is_least && !bound.is_late();
                if is_least {
                    found.or(self.sought(ways, bound));
                }
                found.is_least = is_least && !bound.is_late();
            }
        }
    }
}

/// Where an order was found: writes it, and what the proved library says of it where no switch was needed.
fn write_order(given: &Judge, found: &Verdict, order: &[u32], out: &mut Vec<u8>) -> Result<()> {
    let path = match &given.journal {
        Some(path) => path,
        None => return Ok(()),
    };
    let written = order::Written::of(&found.recording, found.ways, order)?;
    written.save(&found.recording, found.ways, path)?;
    writeln!(out, "the order is written to {path}, {} entries", written.count)?;
    if found.ways == Ways::NONE {
        match crate::judge::first_other(path) {
            Ok(None) => writeln!(out, "the library says so too: it answers each of them as the driver did")?,
            Ok(Some(place)) => writeln!(out, "but the library answers entry {place} otherwise")?,
            Err(why) => writeln!(out, "not judged by the library: {why:#}")?,
        }
    }
    writeln!(out, "next: hullpippin calls {path}; so with show, leaks, holders, stats, diagram")?;
    Ok(())
}

/// Who took part and wasn't recorded.
fn tell_absent(recording: &Recording, is_found: bool, out: &mut Vec<u8>) -> Result<()> {
    let pid = absent::ABSENT;
    match recording.absent {
        0 if !is_found && !recording.has_manager() => writeln!(
            out,
            "nobody who was recorded is the context manager: others took part, and what they sent isn't known; record them too"
        )?,
        0 => {}
        calls => writeln!(
            out,
            "{calls} calls went to processes that weren't recorded: pid {pid} stands in for all of them, and its answers are taken as they came"
        )?,
    }
    Ok(())
}

/// The journal that a recording is shown by, where it is one: its order, which is sought where it isn't there. None of another file.
pub fn shown_by(path: &str) -> Result<Option<String>> {
    if path == "-" || !files::is_recording(path) {
        return Ok(None);
    }
    let (order, is_new) = files::order_of(path);
    if is_new {
        return Ok(Some(order));
    }
    let given = Judge {
        recording: path.into(),
        device: None,
        journal: Some(order.clone()),
        ways: None,
        tries: arguments::TRIES,
        seconds: None,
        most: 0,
    };
    let mut told = Vec::new();
    let status = judge(&given, &mut told)?;
    let told = String::from_utf8_lossy(&told);
    let verdict = told.lines().next().unwrap_or_default();
    if status > 0 {
        bail!(
            "{path}: {verdict}; without an order nothing is shown of it: hullpippin judge {path} tells where that ends"
        );
    }
    eprintln!("hullpippin: {path}: {verdict}; its order is in {order}");
    Ok(Some(order))
}

/// Judges a recording: the status with which the program ends.
pub fn judge(given: &Judge, out: &mut Vec<u8>) -> Result<u8> {
    let whole = Recording::read(&given.recording, given.device.as_deref())?;
    let seconds = given.seconds.unwrap_or(SECONDS) * (1 + whole.size() / OF_SECONDS) as f64;
    let found = Trial { given, whole, seconds }.verdict()?;
    let Verdict { recording, ways, outcome, tries, is_least } = &found;
    let (processes, threads) = (recording.processes.len(), recording.threads());
    write!(out, "{processes} processes, {threads} threads, {} steps: ", recording.size())?;
    match &outcome.order {
        Some(_) if *ways == Ways::NONE => writeln!(out, "lawful")?,
        Some(_) if *is_least => writeln!(out, "lawful, with {ways}")?,
        Some(_) => writeln!(out, "lawful, with {ways} (not all of them may be needed: there was no time left to see)")?,
        None if outcome.is_none => {
            writeln!(out, "unlawful: no order goes beyond {} steps, and all were tried", outcome.most)?
        }
        None => writeln!(out, "unknown: no order was found beyond {} steps", outcome.most)?,
    }
    writeln!(
        out,
        "{tries} tries, {} times back, {} lessons, {:.1} s",
        outcome.backs,
        outcome.lessons,
        worked().as_secs_f64()
    )?;
    for (what, count) in &recording.left_out {
        writeln!(out, "left out: {what}, {count} times")?;
    }
    tell_absent(recording, outcome.order.is_some(), out)?;
    match &outcome.order {
        Some(order) => write_order(given, &found, order, out)?,
        None => {
            for line in outcome.stuck.iter().take(given.most) {
                writeln!(out, "  {line}")?;
            }
        }
    }
    Ok(if outcome.order.is_some() { 0 } else { 1 })
}
