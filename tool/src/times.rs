// SPDX-License-Identifier: Apache-2.0 OR MIT
//! Times beside a journal. JOURNAL.times begins with `HPTIMES1`, and has numbers of eight bytes: how far the real time's clock was
//! ahead of the monotonic one, and then for each entry what the monotonic one said just after its step, all in nanoseconds.
use anyhow::{bail, ensure, Context, Result};
use chrono::{DateTime, Local, LocalResult, NaiveDate, NaiveDateTime, NaiveTime, TimeZone, Utc};
use std::fs::File;
use std::io::ErrorKind;
use std::os::unix::fs::FileExt;
use std::str::FromStr;

use crate::record::u64_at;

const MARK: &[u8; 8] = b"HPTIMES1";
const HEAD: u64 = 16;
/// How many bytes one entry's time has.
const SIZE: u64 = 8;
/// How many entries' times are read together.
const TOGETHER: u64 = 8192;
const SECOND: u64 = 1_000_000_000;

/// When a step was made.
#[derive(Clone, Copy, Debug, PartialEq, Eq)]
pub struct Moment {
    /// The monotonic clock's time, in nanoseconds.
    pub clock: u64,
    /// How many nanoseconds the clock of real time was ahead of that; None where nobody knows.
    ahead: Option<u64>,
}

impl Moment {
    pub fn new(clock: u64, ahead: u64) -> Moment {
        Moment { clock, ahead: Some(ahead) }
    }

    /// A time of a machine's own clock, of which nobody knows the day.
    pub fn of_machine(clock: u64) -> Moment {
        Moment { clock, ahead: None }
    }

    /// As kernels print it: seconds and millionths, `5.911656`.
    fn seconds(self) -> String {
        format!("{}.{:06}", self.clock / SECOND, self.clock % SECOND / 1000)
    }

    /// Nanoseconds since 1970.
    pub fn since_epoch(self) -> u64 {
        self.clock.wrapping_add(self.ahead.unwrap_or(0))
    }

    fn utc(self) -> DateTime<Utc> {
        let (seconds, rest) = (self.since_epoch() / SECOND, self.since_epoch() % SECOND);
        // A count of 64 bits ends in the year 2554, which the calendar has.
        Utc.timestamp_opt(seconds as i64, rest as u32).single().unwrap_or_default()
    }

    /// As a clock on the wall shows it: `12:03:07.120345`; of a machine's own clock its seconds.
    pub fn of_day(self) -> String {
        match self.ahead {
            Some(_) => self.utc().with_timezone(&Local).format("%H:%M:%S%.6f").to_string(),
            None => self.seconds(),
        }
    }

    /// As a clock on the wall shows it, with the date before it.
    pub fn with_date(self) -> String {
        match self.ahead {
            Some(_) => self.utc().with_timezone(&Local).format("%Y-%m-%d %H:%M:%S%.6f").to_string(),
            None => self.seconds(),
        }
    }

    /// As programs exchange it, of no zone: `2026-11-28T11:03:07.120345678Z`.
    pub fn universal(self) -> String {
        self.utc().format("%Y-%m-%dT%H:%M:%S%.9fZ").to_string()
    }
}

/// How long something took, to as many digits as one reads at a glance: `950 ns`, `13.1 us`, `1.2 ms`, `2.5 s`.
pub fn duration_words(nanoseconds: u64) -> String {
    let units = [(SECOND, "s"), (1_000_000, "ms"), (1_000, "us")];
    match units.iter().find(|it| nanoseconds >= it.0) {
        Some((unit, name)) => format!("{:.1} {name}", nanoseconds as f64 / *unit as f64),
        None => format!("{nanoseconds} ns"),
    }
}

/// A time as one gives it on the command line.
#[derive(Clone, Copy, Debug, PartialEq, Eq)]
pub enum TimeWord {
    /// Nanoseconds from the first entry.
    SinceFirst(u64),
    /// On the day on which the recording begins, where this machine is.
    OfDay(NaiveTime),
    Dated(NaiveDateTime),
}

impl FromStr for TimeWord {
    type Err = String;

    fn from_str(word: &str) -> Result<TimeWord, String> {
        let known = match word.strip_prefix('+') {
            Some(seconds) => nanoseconds(seconds).map(TimeWord::SinceFirst),
            None => of_day(word).map(TimeWord::OfDay).or_else(|| dated(word).map(TimeWord::Dated)),
        };
        known.ok_or_else(|| {
            "a time is 12:03 or 12:03:07.5 of the day on which the recording begins, 2026-11-28T12:03:07.5 of any, \
             or +1.5 for seconds after the first entry"
                .into()
        })
    }
}

fn nanoseconds(seconds: &str) -> Option<u64> {
    let seconds: f64 = seconds.parse().ok()?;
    (seconds.is_finite() && seconds >= 0.0).then(|| (seconds * SECOND as f64).round() as u64)
}

fn of_day(word: &str) -> Option<NaiveTime> {
    ["%H:%M:%S%.f", "%H:%M"].iter().find_map(|form| NaiveTime::parse_from_str(word, form).ok())
}

fn dated(word: &str) -> Option<NaiveDateTime> {
    let (date, time) = word.split_once(['T', ' '])?;
    Some(NaiveDate::parse_from_str(date, "%Y-%m-%d").ok()?.and_time(of_day(time)?))
}

impl TimeWord {
    /// What the monotonic clock says then, in a recording with this first entry.
    pub fn clock(self, first: Moment) -> Result<u64> {
        if first.ahead.is_none() && !matches!(self, TimeWord::SinceFirst(_)) {
            bail!("its clock knows no day: times are +1.5, for seconds after the first event");
        }
        let named = match self {
            TimeWord::SinceFirst(later) => return Ok(first.clock.saturating_add(later)),
            TimeWord::OfDay(time) => first.utc().with_timezone(&Local).date_naive().and_time(time),
            TimeWord::Dated(time) => time,
        };
        let there = match Local.from_local_datetime(&named) {
            LocalResult::None => bail!("there is no {named} where this machine is: its clocks were set forward then"),
            LocalResult::Single(it) | LocalResult::Ambiguous(it, _) => it,
        };
        let seconds = u64::try_from(there.timestamp()).unwrap_or(0);
        let since_epoch = seconds.saturating_mul(SECOND).saturating_add(u64::from(there.timestamp_subsec_nanos()));
        // What was before the machine started is no time of this clock.
        let started = first.since_epoch().saturating_sub(first.clock);
        Ok(since_epoch.saturating_sub(started))
    }
}

/// The file with the times of a journal's entries.
pub struct Times {
    path: String,
    file: File,
    ahead: u64,
    /// Times that follow one another, from this place on.
    held: Vec<u8>,
    from: u64,
}

pub fn path_of(journal: &str) -> String {
    format!("{journal}.times")
}

impl Times {
    /// The times beside a journal; None where there are none.
    pub fn open(journal: &str) -> Result<Option<Times>> {
        let path = path_of(journal);
        let file = match File::open(&path) {
            Ok(file) => file,
            Err(error) if error.kind() == ErrorKind::NotFound => return Ok(None),
            Err(error) => return Err(error).context(path),
        };
        let mut head = [0; HEAD as usize];
        let read = file.read_exact_at(&mut head, 0);
        ensure!(read.is_ok() && head[..8] == MARK[..], "{path}: it doesn't begin as times do");
        Ok(Some(Times { path, file, ahead: u64_at(&head, 8), held: Vec::new(), from: 0 }))
    }

    pub fn path(&self) -> &str {
        &self.path
    }

    /// How many entries have one so far.
    fn count(&self) -> u64 {
        self.file.metadata().map_or(0, |it| it.len().saturating_sub(HEAD) / SIZE)
    }

    /// Reads what is there from a place on; nothing where it ends before that.
    fn read(&self, place: u64, count: u64) -> Vec<u8> {
        let mut bytes = vec![0; (count * SIZE) as usize];
        let at = place.checked_mul(SIZE).and_then(|it| it.checked_add(HEAD));
        let got = at.and_then(|at| self.file.read_at(&mut bytes, at).ok()).unwrap_or(0);
        bytes.truncate(got - got % SIZE as usize);
        bytes
    }

    /// When the step at a place was made.
    pub fn at(&mut self, place: u64) -> Option<Moment> {
        // What lies further back is asked for here and there, and what comes next is read together.
        if place < self.from {
            let bytes = self.read(place, 1);
            return (!bytes.is_empty()).then(|| self.moment(&bytes, 0));
        }
        if (place - self.from) * SIZE >= self.held.len() as u64 {
            self.held = self.read(place, TOGETHER);
            self.from = place;
        }
        let at = (place - self.from) * SIZE;
        (at < self.held.len() as u64).then(|| self.moment(&self.held, at as usize))
    }

    fn moment(&self, bytes: &[u8], at: usize) -> Moment {
        Moment::new(u64_at(bytes, at), self.ahead)
    }

    /// What the monotonic clock says at a time that was given.
    pub fn clock(&mut self, word: TimeWord) -> Result<u64> {
        match self.at(0) {
            Some(first) => word.clock(first),
            None => bail!("{}: it has no times yet", self.path),
        }
    }

    /// The place of the first entry that is no earlier than this; how many have times, where all are.
    pub fn first_at(&mut self, clock: u64) -> u64 {
        let (mut from, mut to) = (0, self.count());
        while from < to {
            let middle = from + (to - from) / 2;
            if self.at(middle).map_or(false, |it| it.clock < clock) {
                from = middle + 1;
            } else {
                to = middle;
            }
        }
        from
    }
}

#[cfg(test)]
mod tests {
    use super::*;

    /// 2026-11-28, 11:03:07.120345678 by universal time, a quarter of a second after the machine started.
    fn moment() -> Moment {
        let since_epoch = 1_795_863_787_120_345_678;
        Moment::new(250_000_000, since_epoch - 250_000_000)
    }

    #[test]
    fn a_moment_is_told_to_the_nanosecond() {
        assert_eq!(moment().universal(), "2026-11-28T11:03:07.120345678Z");
        assert_eq!(Moment::new(5, 5u64.wrapping_neg()).universal(), "1970-01-01T00:00:00.000000000Z");
        assert!(Moment::new(u64::MAX, 0).universal().starts_with("2554-07-21T"));
    }

    #[test]
    fn durations_have_a_digit_behind_the_point() {
        let told = [0, 999, 1_000, 13_149, 1_234_567, 2_500_000_000].map(duration_words);
        assert_eq!(told, ["0 ns", "999 ns", "1.0 us", "13.1 us", "1.2 ms", "2.5 s"]);
    }

    #[test]
    fn times_are_given_in_three_ways() {
        assert_eq!("+1.5".parse(), Ok(TimeWord::SinceFirst(1_500_000_000)));
        assert_eq!("12:03".parse(), "12:03:00".parse::<TimeWord>());
        assert_eq!("2026-11-28T12:03:07.5".parse(), "2026-11-28 12:03:07.500".parse::<TimeWord>());
        assert!(matches!("2026-11-28T12:03".parse(), Ok(TimeWord::Dated(_))));
        for word in ["", "+", "+-1", "+inf", "7", "12", "12:61", "28.11.2026 12:03", "2026-11-28", "12:03:07T"] {
            let fault = word.parse::<TimeWord>().expect_err(word);
            assert!(fault.starts_with("a time is "), "{word}");
        }
    }

    #[test]
    fn a_given_time_is_one_of_the_monotonic_clock() {
        let clock = |word: &str| word.parse::<TimeWord>().unwrap().clock(moment()).unwrap();
        assert_eq!(clock("+0"), 250_000_000);
        assert_eq!(clock("+0.5"), 750_000_000);
        // Where the test runs may be anywhere, so the day's times are compared with one another.
        let local = moment().utc().with_timezone(&Local).naive_local();
        assert_eq!(clock(&local.format("%Y-%m-%dT%H:%M:%S%.9f").to_string()), 250_000_000);
        assert_eq!(clock(&local.format("%H:%M:%S%.9f").to_string()), 250_000_000);
        assert_eq!(clock("1999-01-01T00:00"), 0, "before the machine started");
    }
}
