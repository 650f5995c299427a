// SPDX-License-Identifier: Apache-2.0 OR MIT
//! What there is how often, and which calls took longest: by the clock where the journal has times beside it, else in entries.
use crate::calls::{Call, Calls, Doing, Event, Objects, Why};
use crate::codes::Returns;
use crate::following::{Facts, Space};
use crate::journal::{Answer, Entry};
use crate::kernel;
use crate::kernel::trace::{Seen, Trace};
use crate::play::{Player, Range};
use crate::refusals::Reason;
use crate::show::method_code_words;
use crate::times::{duration_words, Moment};
use crate::who::Comms;
use anyhow::Result;
use std::cmp::Reverse;
use std::collections::{BTreeMap, BinaryHeap, HashMap};
use std::io::{self, Write};

/// In what one tells how long something took.
#[derive(Clone, Copy, Debug, Default, PartialEq, Eq)]
enum Measure {
    #[default]
    Entries,
    Nanoseconds,
}

impl Measure {
    fn of(player: &Player) -> Measure {
        if player.beside.has_times() {
            Measure::Nanoseconds
        } else {
            Measure::Entries
        }
    }

    /// How long it was; None where it is to be told in times and one of them isn't known.
    fn between(self, from: Doing, to: Doing) -> Option<u64> {
        match self {
            Measure::Entries => Some(to.place - from.place),
            Measure::Nanoseconds => to.since(from),
        }
    }

    fn told(self, took: u64) -> String {
        match self {
            Measure::Entries => took.to_string(),
            Measure::Nanoseconds => duration_words(took),
        }
    }

    /// The value with its unit, for people.
    fn words(self, took: u64) -> String {
        match self {
            Measure::Entries => format!("{took} entries"),
            Measure::Nanoseconds => duration_words(took),
        }
    }

    fn what(self) -> &'static str {
        match self {
            Measure::Entries => "how many entries lie",
            Measure::Nanoseconds => "how much time lies",
        }
    }
}

/// Calls that are counted together.
#[derive(Clone, Debug, PartialEq, Eq, Hash)]
struct Pair {
    from: u32,
    to: u32,
    code: u32,
    one_way: bool,
}

#[derive(Clone, Debug, Default)]
struct Sums {
    /// The object that was called, and the code with its method.
    object: String,
    code: String,
    calls: u64,
    bytes: u64,
    reply_bytes: u64,
    failed: u64,
    /// How long each took: a two-way call until its reply was read, a one-way call until it was.
    took: Vec<u64>,
}

impl Sums {
    /// The value that so many hundredths of all don't exceed.
    fn share(&mut self, hundredths: usize) -> Option<u64> {
        self.took.sort_unstable();
        let last = self.took.len().checked_sub(1)?;
        self.took.get(last * hundredths / 100).copied()
    }
}

/// All that is counted of a recording.
#[derive(Debug, Default)]
pub struct Stats {
    entries: u64,
    commands: BTreeMap<&'static str, u64>,
    returns: BTreeMap<&'static str, u64>,
    refusals: BTreeMap<Reason, u64>,
    /// What a kernel has refused, by its return.
    refused: BTreeMap<&'static str, u64>,
    pairs: HashMap<Pair, Sums>,
    calls: Calls,
    measure: Measure,
    comms: Comms,
    /// When the first entry was, and the last.
    period: Option<(Moment, Moment)>,
}

impl Stats {
    fn add(&mut self, entry: &Entry<'_>, space: &Space, facts: &Facts) {
        self.entries += 1;
        self.comms.learn(facts);
        self.period = facts.time.map(|now| (self.period.map_or(now, |it| it.0), now)).or(self.period);
        *self.commands.entry(entry.step.name()).or_insert(0) += 1;
        match &entry.answer {
            Answer::Refused(reason) => *self.refusals.entry(*reason).or_insert(0) += 1,
            Answer::Got { stream, .. } => {
                for message in Returns(stream).flatten() {
                    *self.returns.entry(message.code.name).or_insert(0) += 1;
                }
            }
            _ => {}
        }
        for event in self.calls.events(entry, facts) {
            self.count(&event, space);
        }
    }

    /// What a kernel's trace tells.
    fn see(&mut self, seen: Seen<'_>, objects: &dyn Objects) {
        match seen {
            Seen::Line(time) => {
                self.entries += 1;
                self.period = time.map(|now| (self.period.map_or(now, |it| it.0), now)).or(self.period);
            }
            Seen::Verb(name) => {
                let counts = if name.starts_with("BC_") { &mut self.commands } else { &mut self.returns };
                *counts.entry(name).or_insert(0) += 1;
            }
            Seen::Event(Event::Refused(_, Why::Returned(name)) | Event::Failed(_, _, name)) => {
                *self.refused.entry(name).or_insert(0) += 1;
            }
            Seen::Event(_) => {}
        }
        if let Seen::Event(event) = seen {
            self.count(event, objects);
        }
    }

    fn count(&mut self, event: &Event, objects: &dyn Objects) {
        let (call, ended) = match event {
            Event::Made(call) | Event::Taken(call) => (call, call.taken.filter(|_| call.one_way)),
            Event::Done(call, doing) | Event::Failed(call, doing, _) => (call, Some(*doing)),
            Event::Replied(_) | Event::Refused(..) | Event::Freed(..) | Event::Died(..) => return,
        };
        let pair = Pair { from: call.made.pid, to: call.to, code: call.code, one_way: call.one_way };
        let sums = self.pairs.entry(pair).or_default();
        match event {
            Event::Made(call) => {
                sums.calls += 1;
                sums.bytes = sums.bytes.saturating_add(call.size.unwrap_or(0));
                if sums.code.is_empty() {
                    sums.code = method_code_words(call.object.and_then(|it| objects.interface(it)), call.code);
                    sums.object = call.object.map_or(String::new(), |it| objects.words(it));
                }
            }
            Event::Failed(..) => sums.failed += 1,
            _ => {}
        }
        if let (Some(ended), false) = (ended, matches!(event, Event::Failed(..))) {
            sums.took.extend(self.measure.between(call.made, ended));
            sums.reply_bytes = sums.reply_bytes.saturating_add(call.replied.and_then(|it| it.1.size()).unwrap_or(0));
        }
    }

    pub fn put(mut self, to: &mut Vec<u8>, what: &str) -> io::Result<()> {
        write!(to, "{} {what}", self.entries)?;
        if let Some((first, last)) = self.period {
            let took = duration_words(last.clock.saturating_sub(first.clock));
            write!(to, ", from {} to {}, {took}", first.with_date(), last.with_date())?;
        }
        to.push(b'\n');
        for (title, counts) in [("commands and requests", &self.commands), ("returns", &self.returns)] {
            writeln!(to, "\n{title}")?;
            for (name, count) in counts {
                writeln!(to, "{count:>10}  {name}")?;
            }
        }
        writeln!(to, "\nrefused, stopped or noted")?;
        for (reason, count) in &self.refusals {
            writeln!(to, "{count:>10}  {} {}: {}", reason.name(), reason.word(), reason.text())?;
        }
        for (name, count) in &self.refused {
            writeln!(to, "{count:>10}  {name}")?;
        }
        write!(to, "\ncalls, and {} between a call and the reading of its reply, ", self.measure.what())?;
        writeln!(to, "or of itself where it is one-way")?;
        writeln!(
            to,
            "{:>10} {:>10} {:>10} {:>8} {:>8} {:>8} {:>8}  from, to, code, object",
            "calls", "bytes", "of replies", "failed", "median", "p99", "most"
        )?;
        let mut pairs: Vec<_> = self.pairs.drain().collect();
        pairs.sort_by_key(|(pair, sums)| (Reverse(sums.calls), pair.from, pair.to, pair.code, pair.one_way));
        pairs.iter_mut().try_for_each(|(pair, sums)| put_pair(to, pair, sums, self.measure, &self.comms))
    }
}

fn put_pair(to: &mut Vec<u8>, pair: &Pair, sums: &mut Sums, measure: Measure, comms: &Comms) -> io::Result<()> {
    let told = |it: Option<u64>| it.map_or("-".into(), |it| measure.told(it));
    let [median, p99, most] = [50, 99, 100].map(|it| told(sums.share(it)));
    let Sums { calls, bytes, reply_bytes, failed, object, code, .. } = sums;
    let one_way = if pair.one_way { " one-way" } else { "" };
    let (caller, server) = (comms.words(pair.from), comms.words(pair.to));
    write!(to, "{calls:>10} {bytes:>10} {reply_bytes:>10} {failed:>8} {median:>8} {p99:>8} {most:>8}  ")?;
    writeln!(to, "{caller} -> {server} {code}{one_way} {object}")
}

pub fn stats(player: &mut Player, range: Range, to: &mut Vec<u8>) -> Result<()> {
    let mut stats = Stats { measure: Measure::of(player), ..Stats::default() };
    player.each(range, |entry, space, facts| {
        stats.add(entry, space, facts);
        Ok(())
    })?;
    Ok(stats.put(to, "entries")?)
}

/// The same of a kernel's trace.
pub fn stats_of_trace(trace: &mut Trace, range: Range, to: &mut Vec<u8>) -> Result<()> {
    let mut stats = Stats { measure: Measure::Nanoseconds, ..Stats::default() };
    let done = trace.each(range, |seen, following| {
        stats.see(seen, following);
        Ok(())
    });
    stats.comms = std::mem::take(&mut trace.reader.following.threads.comms);
    if stats.entries > 0 {
        stats.put(to, "events of Binder's")?;
    }
    done
}

/// A call that took long; the order is by how long, then by place.
#[derive(Debug, PartialEq, Eq, PartialOrd, Ord)]
struct Slow {
    took: u64,
    made: Reverse<u64>,
    line: String,
}

/// The calls that took longest.
struct Slowest {
    most: usize,
    measure: Measure,
    /// The least of those that are kept is the first.
    kept: BinaryHeap<Reverse<Slow>>,
}

/// What is known of whom and what a call is about.
#[derive(Clone, Copy)]
struct Known<'a> {
    objects: &'a dyn Objects,
    comms: &'a Comms,
}

impl Slowest {
    fn new(most: usize, measure: Measure) -> Slowest {
        Slowest { most, measure, kept: BinaryHeap::new() }
    }

    /// Keeps a call that took so long until something was done, unless others took longer.
    fn keep(&mut self, call: &Call, ended: Doing, how: impl FnOnce() -> String, known: Known<'_>) {
        let took = match self.measure.between(call.made, ended) {
            Some(took) => took,
            None => return,
        };
        let made = Reverse(call.made.place);
        let is_full = self.kept.len() >= self.most;
        if is_full && self.kept.peek().map_or(true, |least| (least.0.took, least.0.made) > (took, made)) {
            return;
        }
        let line = self.line(call, &how(), known);
        self.kept.push(Reverse(Slow { took, made, line }));
        if self.kept.len() > self.most {
            self.kept.pop();
        }
    }

    fn line(&self, call: &Call, how: &str, known: Known<'_>) -> String {
        let object = call.object.map_or(String::new(), |it| format!(" on {}", known.objects.words(it)));
        let unread = match call.taken.map(|it| self.measure.between(call.made, it)) {
            Some(Some(took)) if self.measure == Measure::Entries => format!("unread {took} of them"),
            Some(Some(took)) => format!("unread {} of that", self.measure.told(took)),
            Some(None) => "read at a time that isn't known".into(),
            None => "never read".into(),
        };
        let one_way = if call.one_way { " one-way" } else { "" };
        let Doing { place, seat, pid, .. } = call.made;
        let (caller, server) = (known.comms.words(pid), known.comms.words(call.to));
        let thread = if call.object.map_or(false, kernel::is_node) { "thread" } else { "seat" };
        let code = method_code_words(call.object.and_then(|it| known.objects.interface(it)), call.code);
        format!("{place}: {caller} {thread} {seat} -> {server}{object} code {code}{one_way}: {how}, {unread}")
    }

    fn event(&mut self, event: &Event, known: Known<'_>) {
        let (call, ended, how) = match event {
            Event::Done(call, doing) => (call, *doing, "its reply was read"),
            Event::Failed(call, doing, _) => (call, *doing, "its failure was read"),
            Event::Taken(call) if call.one_way => (call, call.taken.unwrap_or(call.made), "it was read"),
            _ => return,
        };
        self.keep(call, ended, || format!("{how} at {}", ended.place), known);
    }

    /// Prints them, the longest first.
    fn put(self, to: &mut Vec<u8>) -> io::Result<()> {
        let mut slowest: Vec<_> = self.kept.into_iter().map(|it| it.0).collect();
        slowest.sort_by(|left, right| right.cmp(left));
        slowest.iter().try_for_each(|it| writeln!(to, "{} from {}", self.measure.words(it.took), it.line))
    }
}

/// The calls that took longest, and those that never ended.
pub fn slow(player: &mut Player, range: Range, most: usize, to: &mut Vec<u8>) -> Result<()> {
    let mut calls = Calls::default();
    let mut comms = Comms::default();
    let mut slowest = Slowest::new(most, Measure::of(player));
    let mut latest = None;
    player.each(range, |entry, space, facts| {
        comms.learn(facts);
        latest = facts.time.or(latest);
        let known = Known { objects: space, comms: &comms };
        calls.events(entry, facts).iter().for_each(|it| slowest.event(it, known));
        Ok(())
    })?;
    let end = player.source.place();
    let is_open = |it: &Call| !it.one_way || it.taken.is_none();
    for call in calls.left().filter(is_open) {
        let ended = Doing { place: end, time: latest, ..call.made };
        slowest.keep(&call, ended, || "still open".into(), Known { objects: &player.space, comms: &comms });
    }
    Ok(slowest.put(to)?)
}

/// The same of a kernel's trace.
pub fn slow_of_trace(trace: &mut Trace, range: Range, most: usize, to: &mut Vec<u8>) -> Result<()> {
    let mut slowest = Slowest::new(most, Measure::Nanoseconds);
    let mut latest = None;
    let done = trace.each(range, |seen, following| {
        match seen {
            Seen::Line(time) => latest = time.or(latest),
            Seen::Verb(_) => {}
            Seen::Event(event) => slowest.event(event, Known { objects: following, comms: &following.threads.comms }),
        }
        Ok(())
    });
    let following = &trace.reader.following;
    let known = Known { objects: following, comms: &following.threads.comms };
    for call in following.left() {
        let ended = Doing { time: latest, ..call.made };
        slowest.keep(call, ended, || "still open".into(), known);
    }
    slowest.put(to)?;
    done
}
