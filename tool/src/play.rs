// SPDX-License-Identifier: Apache-2.0 OR MIT
//! A journal that is gone through, entry by entry, with what its steps come to.
use crate::beside::{self, Beside};
use crate::following::{Facts, Space};
use crate::index;
use crate::journal::Entry;
use crate::judge::Judge;
use crate::kernel;
use crate::progress::Progress;
use crate::source::{End, Source};
use crate::times::TimeWord;
use anyhow::{bail, Context, Result};
use clap::Args;
use std::error::Error;
use std::fmt;
use std::str::FromStr;

/// A range of places, and of times where these lie beside the journal.
#[derive(Args, Clone, Copy, Debug, Default)]
pub struct Range {
    /// From this place on
    #[arg(long, value_name = "PLACE", default_value_t = 0)]
    pub from: u64,
    /// Up to and without this place
    #[arg(long, value_name = "PLACE")]
    pub to: Option<u64>,
    /// From this time on: 12:03:07.5, 2026-11-28T12:03:07.5, or +1.5 for seconds after the first entry
    #[arg(long, value_name = "TIME")]
    pub since: Option<TimeWord>,
    /// Up to and without this time
    #[arg(long, value_name = "TIME")]
    pub until: Option<TimeWord>,
}

impl Range {
    /// Whether it leaves anything out.
    pub fn is_any(&self) -> bool {
        self.from > 0 || self.to.is_some() || self.since.is_some() || self.until.is_some()
    }
}

/// That a choice leaves nothing to be told of.
#[derive(Debug)]
pub struct Nothing {
    /// Of what: a file, or a device.
    pub path: String,
    /// What there is none of: `entry`, `event`, `call`.
    pub what: &'static str,
}

impl fmt::Display for Nothing {
    fn fmt(&self, to: &mut fmt::Formatter<'_>) -> fmt::Result {
        write!(to, "{}: no {} is as chosen", name(&self.path), self.what)
    }
}

impl Error for Nothing {}

/// A place, or the time from which on it is sought.
#[derive(Clone, Copy, Debug, PartialEq, Eq)]
pub enum Spot {
    Place(u64),
    Time(TimeWord),
}

impl FromStr for Spot {
    type Err = String;

    fn from_str(word: &str) -> Result<Spot, String> {
        match word.parse() {
            Ok(place) => Ok(Spot::Place(place)),
            Err(_) => word.parse().map(Spot::Time).map_err(|it| format!("neither a place, nor a time: {it}")),
        }
    }
}

/// A range whose times are those of the monotonic clock.
#[derive(Clone, Copy, Debug)]
pub struct Bounds {
    range: Range,
    /// The first place that may be wanted.
    pub from: u64,
    since: Option<u64>,
    until: Option<u64>,
}

/// Where an entry lies, seen from the range that is wanted.
#[derive(Clone, Copy, Debug, PartialEq, Eq)]
pub enum Lies {
    Before,
    Within,
    Behind,
}

impl Bounds {
    /// Whether the next entry may be wanted.
    fn go_on(&self, place: u64) -> bool {
        self.range.to.map_or(true, |to| place < to)
    }

    fn lies(&self, place: u64, facts: &Facts) -> Lies {
        let clock = facts.time.map(|it| it.clock);
        let is_by = |bound: Option<u64>, is: fn(u64, u64) -> bool| match (bound, clock) {
            (Some(bound), Some(clock)) => is(clock, bound),
            // Nobody knows when that was, so it is in no period.
            (Some(_), None) => false,
            (None, _) => true,
        };
        if self.until.is_some() && clock.is_some() && !is_by(self.until, |clock, until| clock < until) {
            return Lies::Behind;
        }
        let is_within = place >= self.from
            && is_by(self.since, |clock, since| clock >= since)
            && is_by(self.until, |clock, until| clock < until);
        if is_within {
            Lies::Within
        } else {
            Lies::Before
        }
    }
}

/// An entry with what its step has come to.
pub type Seen<'a> = (&'a Entry<'a>, &'a Space, &'a Facts);

pub struct Player {
    pub path: String,
    pub source: Source,
    pub space: Space,
    pub beside: Beside,
    /// Says of each entry whether it follows, until one doesn't.
    pub judge: Option<Judge>,
    /// The place of the first entry that doesn't follow, once one was found.
    pub unlawful: Option<u64>,
    /// How many entries lay within the bounds that were asked for.
    within: u64,
    progress: Option<Progress>,
    facts: Facts,
}

impl Player {
    pub fn open(path: &str, follows: bool) -> Result<Player> {
        let source = Source::open(path, follows);
        let source = source.with_context(|| name(path)).map_err(|it| kernel::explain_fault(path, it))?;
        let beside = Beside::open(path, follows);
        let (space, facts) = (Space::remembering(beside::ways(path).followed()), Facts::default());
        Ok(Player {
            path: path.into(),
            source,
            space,
            beside,
            judge: None,
            unlawful: None,
            within: 0,
            progress: Progress::new(),
            facts,
        })
    }

    /// Has all entries judged. Then each is played, whatever an index knows.
    pub fn judge(&mut self) -> Result<()> {
        self.judge = Some(Judge::new(self.source.heading())?);
        Ok(())
    }

    /// Sees that no entry was found that doesn't follow.
    pub fn check_lawful(&self) -> Result<()> {
        match self.unlawful {
            Some(place) => bail!(
                "{}: unlawful: entry {place} doesn't follow from those before it; what is behind it wasn't judged",
                name(&self.path)
            ),
            None => Ok(()),
        }
    }

    /// What a range comes to in this journal.
    pub fn bounds(&mut self, range: Range) -> Result<Bounds> {
        match range.to {
            Some(to) if to < range.from => bail!("--to {to} lies before --from {}", range.from),
            _ => {}
        }
        let since = range.since.map(|it| self.clock(it)).transpose()?;
        let until = range.until.map(|it| self.clock(it)).transpose()?;
        let first = match since {
            Some(since) => self.beside.times(&self.path)?.first_at(since),
            None => 0,
        };
        Ok(Bounds { range, from: range.from.max(first), since, until })
    }

    fn clock(&mut self, word: TimeWord) -> Result<u64> {
        self.beside.times(&self.path)?.clock(word)
    }

    /// The place that a word means: of a time how many entries there were before.
    pub fn place(&mut self, spot: Spot) -> Result<u64> {
        match spot {
            Spot::Place(place) => Ok(place),
            Spot::Time(word) => {
                let clock = self.clock(word)?;
                Ok(self.beside.times(&self.path)?.first_at(clock))
            }
        }
    }

    /// Sees that threads have names, where one chooses by them.
    pub fn check_names(&self) -> Result<()> {
        self.beside.check_names(&self.path)
    }

    /// Goes to the nearest place before this one that an index beside the file knows.
    pub fn jump(&mut self, place: u64) -> Result<()> {
        if place == 0 || self.judge.is_some() || !self.source.is_file() {
            return Ok(());
        }
        match index::nearest(&self.path, place) {
            Ok(Some(found)) => {
                self.space = found.space;
                self.source.seek(found.place, found.at)
            }
            Ok(None) => Ok(()),
            Err(error) => {
                eprintln!("hullpippin: {}: not used: {error:#}", index::path_of(&self.path));
                Ok(())
            }
        }
    }

    /// Makes the next step. None behind the last.
    pub fn next(&mut self, idle: impl FnMut() -> Result<()>) -> Result<Option<(Entry<'_>, &Space, &Facts)>> {
        let Player { path, source, space, beside, judge, unlawful, progress, facts, .. } = self;
        let count = source.heading().count;
        let entry = match source.next_or(idle).with_context(|| name(path))? {
            Some(entry) => entry,
            None => return Ok(None),
        };
        space.follow_entry(&entry, facts);
        beside.tell(entry.place, entry.seat, facts);
        if let Some(it) = progress {
            it.step(count);
        }
        if let Some(it) = judge {
            facts.given = it.judged(&entry)?.map(Box::new);
            if facts.given.is_some() {
                *unlawful = Some(entry.place);
                *judge = None;
            }
        }
        Ok(Some((entry, &*space, &*facts)))
    }

    /// Calls this for each entry within bounds, and with None before each wait for more and at the end of the journal.
    pub fn each_within(&mut self, bounds: &Bounds, mut call: impl FnMut(Option<Seen<'_>>) -> Result<()>) -> Result<()> {
        while bounds.go_on(self.source.place()) {
            match self.next(|| call(None))? {
                Some((entry, space, facts)) => match bounds.lies(entry.place, facts) {
                    Lies::Before => {}
                    Lies::Within => {
                        call(Some((&entry, space, facts)))?;
                        self.within += 1;
                    }
                    Lies::Behind => return Ok(()),
                },
                None => {
                    call(None)?;
                    return self.ended(bounds.range);
                }
            }
        }
        Ok(())
    }

    /// Calls this for each entry up to the end of the bounds, with where it lies. Within them there has to be one.
    pub fn each_lying(&mut self, bounds: &Bounds, mut call: impl FnMut(Lies, Seen<'_>) -> Result<()>) -> Result<()> {
        while bounds.go_on(self.source.place()) {
            match self.next(|| Ok(()))? {
                Some((entry, space, facts)) => match bounds.lies(entry.place, facts) {
                    Lies::Behind => return self.check_any(bounds.range),
                    lies => {
                        call(lies, (&entry, space, facts))?;
                        self.within += u64::from(lies == Lies::Within);
                    }
                },
                None => {
                    self.ended(bounds.range)?;
                    break;
                }
            }
        }
        self.check_any(bounds.range)
    }

    /// Calls this for each entry of the range, which has to have one.
    pub fn each(&mut self, range: Range, mut call: impl FnMut(&Entry<'_>, &Space, &Facts) -> Result<()>) -> Result<()> {
        let bounds = self.bounds(range)?;
        self.each_within(&bounds, |seen| match seen {
            Some((entry, space, facts)) => call(entry, space, facts),
            None => Ok(()),
        })?;
        self.check_any(range)
    }

    /// Sees that there was an entry within a range, where one was asked for.
    fn check_any(&self, range: Range) -> Result<()> {
        if range.is_any() && self.within == 0 {
            return Err(Nothing { path: self.path.clone(), what: "entry" }.into());
        }
        Ok(())
    }

    /// Makes the steps before a place, as far as there are any; at the end of the journal it says how that ends.
    pub fn play(&mut self, place: u64) -> Result<()> {
        while self.source.place() < place {
            if self.next(|| Ok(()))?.is_none() {
                return self.ended(Range::default());
            }
        }
        Ok(())
    }

    /// Makes all steps before a place, which has to be one, from the nearest on that an index knows.
    pub fn until(&mut self, place: u64) -> Result<()> {
        self.jump(place)?;
        while self.source.place() < place {
            if self.next(|| Ok(()))?.is_none() {
                return self.ended(Range { from: place, ..Range::default() });
            }
        }
        Ok(())
    }

    /// At the end of the journal: whether it was cut off, and whether the range had its places.
    pub fn ended(&self, range: Range) -> Result<()> {
        let (path, count) = (name(&self.path), self.source.place());
        if let End::CutOff { entries, at, rest } = self.source.end() {
            let part = match rest {
                0 => String::new(),
                _ => format!(", and {rest} bytes from byte {at} on are of no whole entry"),
            };
            eprintln!("hullpippin: {path}: cut off, or still being written: {entries} entries are whole{part}");
        }
        let places = [Some(range.from), range.to];
        if let Some(place) = places.into_iter().flatten().find(|it| *it > count) {
            let last = count.saturating_sub(1);
            bail!("{path}: there is no place {place}: it has {count} entries, at places 0 to {last}");
        }
        Ok(())
    }
}

/// What a journal is called in messages.
pub fn name(path: &str) -> String {
    if path == "-" {
        "standard input".into()
    } else {
        path.into()
    }
}
