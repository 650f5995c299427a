// SPDX-License-Identifier: Apache-2.0 OR MIT
//! What lies beside a journal, and isn't in it: when each step was made, and by which thread.
use crate::following::{About, Facts};
use crate::rules::Ways;
use crate::times::{self, Moment, Times};
use crate::who::{self, Person, Who};
use anyhow::{bail, Context, Result};
use std::cell::Cell;
use std::io::ErrorKind;
use std::rc::Rc;

pub struct Beside {
    times: Option<Times>,
    who: Option<Who>,
    /// Whether it was said where the times end, and whether they may still go on.
    has_said: bool,
    follows: bool,
    /// Whether names were found to make no sense, and whether one was ever of the daemon's own seat.
    is_broken: bool,
    is_zero_named: bool,
    /// Whether the entry that was told of last is the daemon's own; who goes through entries has a copy.
    is_own: Rc<Cell<bool>>,
}

/// By which the daemon begins and ends processes, and on which no thread sits.
const DAEMONS_SEAT: u32 = 0;

/// What is wrong with such a file is said, and it isn't used: the journal is there all the same.
fn usable<T>(opened: Result<Option<T>>) -> Option<T> {
    opened.unwrap_or_else(|error| {
        eprintln!("hullpippin: {error:#}; so it isn't used");
        None
    })
}

/// What the file begins with that tells in what the driver does otherwise whose run a journal is.
const WAYS: &str = "HPWAYS 1 ";

fn ways_in(path: &str) -> Result<Option<Ways>> {
    let text = match std::fs::read_to_string(path) {
        Ok(text) => text,
        Err(error) if error.kind() == ErrorKind::NotFound => return Ok(None),
        Err(error) => return Err(error).context(path.to_string()),
    };
    let names = text.strip_prefix(WAYS).with_context(|| format!("{path}: it doesn't begin as differences do"))?;
    let names = names.trim_end().split(',').filter(|it| !it.is_empty());
    let ways = Ways::named(names).map_err(|name| anyhow::anyhow!("{path}: {name:?} is no difference"))?;
    Ok(Some(ways))
}

/// In what the driver does otherwise whose run a journal is (`judge --journal`); of the rules' own runs in nothing.
pub fn ways(journal: &str) -> Ways {
    let is_file = journal != "-";
    is_file.then(|| usable(ways_in(&format!("{journal}.ways")))).flatten().unwrap_or(Ways::NONE)
}

/// Lays them beside a journal, or takes away what lies there of another one.
pub fn put_ways(journal: &str, ways: Ways) -> Result<()> {
    let path = format!("{journal}.ways");
    if ways != Ways::NONE {
        let names: Vec<String> = ways.iter().map(|it| it.to_string()).collect();
        return std::fs::write(&path, format!("{WAYS}{}\n", names.join(","))).context(path);
    }
    match std::fs::remove_file(&path) {
        Err(error) if error.kind() != ErrorKind::NotFound => Err(error).context(path),
        _ => Ok(()),
    }
}

impl Beside {
    /// What lies beside a file; nothing lies beside standard input.
    pub fn open(journal: &str, follows: bool) -> Beside {
        let is_file = journal != "-";
        let times = is_file.then(|| usable(Times::open(journal))).flatten();
        let who = is_file.then(|| usable(Who::open(journal, follows))).flatten();
        Beside { times, who, has_said: false, follows, is_broken: false, is_zero_named: false, is_own: Rc::default() }
    }

    pub fn has_times(&self) -> bool {
        self.times.is_some()
    }

    /// Says of each entry that is told of whether it is the daemon's own: beside its recordings lie names, and its seat has none.
    pub fn own(&self) -> Rc<Cell<bool>> {
        self.is_own.clone()
    }

    /// The times, for who can't do without.
    pub fn times(&mut self, journal: &str) -> Result<&mut Times> {
        match &mut self.times {
            Some(times) => Ok(times),
            None => bail!("entries have no times to choose by: there is no {} to be used", times::path_of(journal)),
        }
    }

    /// Sees that there are names, for who can't do without.
    pub fn check_names(&self, journal: &str) -> Result<()> {
        match self.who {
            Some(_) => Ok(()),
            None => bail!("threads have no names to choose by: there is no {} to be used", who::path_of(journal)),
        }
    }

    /// Who sits where after the entry that was told of last.
    pub fn sitting(&self, seat: u32) -> Option<&Person> {
        self.who.as_ref()?.sitting.get(&seat)
    }

    /// Adds what is known of an entry.
    pub fn tell(&mut self, place: u64, seat: u32, facts: &mut Facts) {
        facts.time = self.time(place);
        facts.person = self.person(place, seat);
        let is_known = self.who.is_some() && !self.is_broken && !self.is_zero_named;
        self.is_own.set(seat == DAEMONS_SEAT && is_known);
        facts.ages.clear();
        if let (Some(now), Some(times)) = (facts.time, &mut self.times) {
            let begun = |about: &About| match about {
                About::Sent(sent) => Some(sent.answers.unwrap_or(sent.made)),
                About::Call(place) => Some(*place),
                About::Nothing | About::Object(_) | About::Death(..) => None,
            };
            let age = |then: Moment| now.clock.saturating_sub(then.clock);
            facts.ages.extend(facts.about.iter().map(|it| times.at(begun(it)?).map(age)));
        }
    }

    fn time(&mut self, place: u64) -> Option<Moment> {
        let is_over = self.has_said && !self.follows;
        let times = self.times.as_mut().filter(|_| !is_over)?;
        let time = times.at(place);
        if time.is_none() && !self.has_said {
            eprintln!("hullpippin: {}: it ends here; entries from place {place} on have no time", times.path());
            self.has_said = true;
        }
        time
    }

    fn person(&mut self, place: u64, seat: u32) -> Option<Person> {
        let who = self.who.as_mut()?;
        if let Err(error) = who.advance(place) {
            eprintln!("hullpippin: {error:#}; who sits where isn't known from there on");
            who.sitting.clear();
            self.is_broken = true;
        }
        self.is_zero_named |= who.sitting.contains_key(&DAEMONS_SEAT);
        who.sitting.get(&seat).cloned()
    }
}
