// SPDX-License-Identifier: Apache-2.0 OR MIT
//! The words of the command line, and the machine.
use std::fs;
use std::process::Command;
use std::thread;
use std::time::Duration;

pub const USAGE: &str =
    "bench [--quick] [--runs N] [--only WORD] [--check] [--picture FILE], or bench --counted ENGINE WORKLOAD ROUNDS";

/// What is to be measured.
pub struct Settings {
    pub quick: bool,
    pub runs: usize,
    /// The parts that have this in their names.
    pub only: String,
    /// Only the journals are looked at.
    pub check: bool,
    pub picture: Option<String>,
    /// One workload is played, to be counted from outside, and nothing else is done.
    pub counted: Option<Counted>,
}

/// Whose engine is counted, and how it is asked.
#[derive(Clone, Copy, PartialEq, Eq)]
pub enum Counts {
    /// Our engine is counted, asked by calls.
    Ours,
    /// Our engine is counted, asked by requests that are handed over.
    Handed,
    /// The engine beside is counted.
    Beside,
}

/// What is played to be counted.
pub struct Counted {
    pub whose: Counts,
    /// The name of the workload's journal.
    pub workload: String,
    pub rounds: usize,
}

impl Counted {
    fn read(words: &mut impl Iterator<Item = String>) -> Option<Counted> {
        let whose = match words.next()?.as_str() {
            "ours" => Counts::Ours,
            "handed" => Counts::Handed,
            "beside" => Counts::Beside,
            _ => return None,
        };
        Some(Counted { whose, workload: words.next()?, rounds: words.next()?.parse().ok()? })
    }
}

impl Settings {
    /// What the words of the command line say; None where a word isn't known.
    pub fn read(mut words: impl Iterator<Item = String>) -> Option<Settings> {
        let only = String::new();
        let mut found = Settings { quick: false, runs: 0, only, check: false, picture: None, counted: None };
        while let Some(word) = words.next() {
            match word.as_str() {
                "--quick" => found.quick = true,
                "--check" => found.check = true,
                "--runs" => found.runs = words.next()?.parse().ok().filter(|runs| *runs > 0)?,
                "--only" => found.only = words.next()?,
                "--picture" => found.picture = Some(words.next()?),
                "--counted" => found.counted = Some(Counted::read(&mut words)?),
                _ => return None,
            }
        }
        if found.runs == 0 {
            found.runs = if found.quick { 3 } else { 5 };
        }
        Some(found)
    }

    /// Steps that a figure is made of, about.
    pub fn steps(&self) -> usize {
        if self.quick { 20_000 } else { 100_000 }
    }

    /// How long threads work for a figure.
    pub fn time(&self) -> Duration {
        Duration::from_millis(if self.quick { 60 } else { 200 })
    }

    pub fn wants(&self, part: &str) -> bool {
        part.contains(&self.only)
    }
}

/// What the other programs on the machine do: the load of the last minute.
pub fn load() -> String {
    let text = fs::read_to_string("/proc/loadavg").unwrap_or_default();
    text.split(' ').next().unwrap_or("unknown").to_owned()
}

/// How many cores the machine has, and what its processor is called.
pub fn machine() -> String {
    let cores = thread::available_parallelism().map_or(0, usize::from);
    let text = fs::read_to_string("/proc/cpuinfo").unwrap_or_default();
    let model = text.lines().find_map(|line| line.strip_prefix("model name")).unwrap_or(": unknown");
    format!("{cores} cores, {}", model.trim_start_matches([' ', '\t', ':']))
}

/// The date of today, for the heading of a table.
pub fn today() -> String {
    let done = Command::new("date").arg("+%F").output();
    done.map_or_else(|_| "?".into(), |it| String::from_utf8_lossy(&it.stdout).trim().to_owned())
}
