// SPDX-License-Identifier: Apache-2.0 OR MIT
//! Scripts that are played, and what the player answers.
use super::parcels::{bytes_of, Laid};
use super::reader::{Line, Said};
use super::verbs::{Latest, Number, Part};
use super::{engine, Fault};
use crate::codes::{Payload, Returns};
use crate::record::Parcel;
use crate::refusals::Reason;
use anyhow::{bail, Context, Result};
use std::collections::BTreeMap;
use std::fs;
use std::io::{ErrorKind, Write};
use std::process::{Command, Stdio};

/// The player by which scripts are played, and how patiently.
#[derive(Clone, Debug)]
pub struct Setting {
    pub player: String,
    /// How often a line that waits looks before it is given up.
    pub turns: u32,
}

/// What the player printed of a line.
#[derive(Clone, Debug, Default, PartialEq, Eq)]
pub struct Answer {
    pub word: String,
    /// What stopped, refused or noted something.
    pub reasons: Vec<Reason>,
    pub stream: Vec<u8>,
    pub data: Vec<u8>,
    pub offsets: Vec<u8>,
    /// The places of its steps, from one up to another.
    pub places: Option<(u64, u64)>,
}

impl Answer {
    fn read(text: &str) -> Answer {
        let mut answer = Answer::default();
        let words: Vec<&str> = text.split(' ').collect();
        answer.word = words[0].into();
        let of = |it: &str| Reason::named(it.rsplit(':').next().unwrap_or(it));
        answer.reasons = words[1..].iter().flat_map(|it| of(it)).collect();
        let bytes = |index: usize| words.get(index).and_then(|it| bytes_of(it)).unwrap_or_default();
        let place = |index: usize| words.get(index).and_then(|it| it.parse().ok());
        let from = match words[0] {
            "got" => {
                (answer.stream, answer.data, answer.offsets) = (bytes(1), bytes(2), bytes(3));
                4
            }
            "wrote" | "refused" => 2,
            _ => 1,
        };
        answer.places = place(from).zip(place(from + 1));
        answer
    }

    /// The handles, or the buffers, that this has given to who read it.
    fn given(&self, of: Latest) -> Vec<u64> {
        match of {
            Latest::Buffer => {
                let buffer = |it: Payload| if let Payload::Record(record) = it { Some(record.buffer) } else { None };
                Returns(&self.stream).flatten().filter_map(|it| buffer(it.payload)).collect()
            }
            Latest::Handle => {
                let parcel = Parcel { data: &self.data, offsets: &self.offsets };
                let handles = parcel.objects().filter_map(|it| it.1).filter(|it| it.kind.is_handle());
                handles.map(|it| it.binder).collect()
            }
        }
    }
}

/// A script as far as it has come, and what came of it.
pub struct Run {
    setting: Option<Setting>,
    lines: Vec<String>,
    /// The seat of each line that has one.
    seats: BTreeMap<usize, u32>,
    answers: BTreeMap<usize, Answer>,
    /// What was printed by the latest run.
    printed: String,
    /// How many lines of the script were played by then.
    played: usize,
}

impl Run {
    pub fn new(setting: Option<Setting>) -> Run {
        Run {
            setting,
            lines: Vec::new(),
            seats: BTreeMap::new(),
            answers: BTreeMap::new(),
            printed: String::new(),
            played: 0,
        }
    }

    /// The script, in which each line stands at its own number.
    pub fn script(&self) -> String {
        self.lines.iter().map(|it| format!("{it}\n")).collect()
    }

    pub fn answer(&self, line: usize) -> Option<&Answer> {
        self.answers.get(&line)
    }

    /// What was printed of each line, by its number.
    pub fn printed(&self) -> impl Iterator<Item = (usize, &str)> {
        self.printed.lines().filter_map(|line| {
            let (number, text) = line.split_once(": ")?;
            Some((number.parse().ok()?, text))
        })
    }

    /// Adds a line. What it needs of those before has them played.
    pub fn add(&mut self, line: &Line) -> Result<Result<(), Fault>> {
        let text = match &line.said {
            Said::Nothing | Said::Expect(_) => String::new(),
            Said::Seats(count) => format!("seats {count}"),
            Said::Step { seat, parts } => {
                let mut text = seat.to_string();
                for part in parts {
                    text.push(' ');
                    match self.part(*seat, part)? {
                        Ok(part) => text.push_str(&part),
                        Err((column, what)) => return Ok(Err(Fault { line: line.number, column, what })),
                    }
                }
                self.seats.insert(line.number, *seat);
                text
            }
        };
        self.lines.resize(line.number - 1, String::new());
        self.lines.push(text);
        Ok(Ok(()))
    }

    /// Takes the latest lines back, from this number on.
    pub fn cut(&mut self, from: usize) {
        self.lines.truncate(from - 1);
        self.seats.retain(|line, _| *line < from);
        self.answers.retain(|line, _| *line < from);
        self.played = self.played.min(from - 1);
    }

    fn part(&mut self, seat: u32, part: &Part) -> Result<Result<String, super::words::Bad>> {
        let needs = |it: &Number| matches!(it, Number::Last { .. });
        let is_open = match part {
            Part::Word(_) => false,
            Part::Number(number) => needs(number),
            Part::Parcel(pieces) => pieces.iter().any(|it| it.numbers().any(needs)),
        };
        if is_open && self.setting.is_some() && self.played < self.lines.len() {
            self.play(None)?;
        }
        let value = |it: &Number| self.value(seat, it);
        Ok(match part {
            Part::Word(word) => Ok(word.clone()),
            Part::Number(number) => value(number).map(|it| it.to_string()),
            Part::Parcel(pieces) => Laid::new(pieces, value).map(|it| it.words()),
        })
    }

    fn value(&self, seat: u32, number: &Number) -> Result<u64, super::words::Bad> {
        let (of, back, column) = match number {
            Number::Is(value) => return Ok(*value),
            Number::Last { of, back, column } => (*of, *back, *column),
        };
        if self.setting.is_none() {
            let what = "what is `last` is known once the lines before were played: --run BPLAY does";
            return Err((column, what.into()));
        }
        let read = self.answers.iter().filter(|it| self.seats.get(it.0) == Some(&seat));
        let given: Vec<u64> = read.flat_map(|it| it.1.given(of)).collect();
        let at = given.len().checked_sub(back + 1);
        at.and_then(|at| given.get(at).copied())
            .ok_or_else(|| (column, format!("seat {seat} has read {} {} so far", given.len(), of.name())))
    }

    /// Plays all lines from the first on.
    pub fn play(&mut self, journal: Option<&str>) -> Result<()> {
        let setting = match &self.setting {
            Some(setting) => setting.clone(),
            None => return Ok(()),
        };
        let turns = setting.turns.to_string();
        let mut command = Command::new(&setting.player);
        command.args(["run", "-", "--turns", &turns]).args(journal.into_iter().flat_map(|it| ["--journal", it]));
        let child = command.stdin(Stdio::piped()).stdout(Stdio::piped()).stderr(Stdio::piped()).spawn();
        let script = self.script();
        let mut child = match child {
            Err(error) if setting.is_on_path() && error.kind() == ErrorKind::NotFound => {
                return self.play_by_library(&script, journal);
            }
            child => child.with_context(|| format!("the player {}", setting.player))?,
        };
        if let Some(mut stdin) = child.stdin.take() {
            // A player that ends without reading on says why.
            let _ = stdin.write_all(script.as_bytes());
        }
        let done = child.wait_with_output()?;
        // 2: a line has waited in vain, which is an answer too.
        if !matches!(done.status.code(), Some(0 | 2)) {
            bail!("the player {}: {}", setting.player, String::from_utf8_lossy(&done.stderr).trim_end());
        }
        self.take(String::from_utf8_lossy(&done.stdout).into_owned());
        Ok(())
    }

    /// What was printed of all lines.
    fn take(&mut self, printed: String) {
        self.printed = printed;
        self.answers = self.printed().map(|(number, text)| (number, Answer::read(text))).collect();
        self.played = self.lines.len();
    }

    /// Plays all lines by the library, where there is no player.
    fn play_by_library(&mut self, script: &str, journal: Option<&str>) -> Result<()> {
        let played = engine::played(script).context("there is no bplay, and the library plays no script")?;
        if let Some(path) = journal {
            fs::write(path, &played.journal).with_context(|| path.to_string())?;
        }
        self.take(played.printed);
        Ok(())
    }
}

impl Setting {
    /// Whether the player is one that is looked for on the path, and not a file that was named.
    fn is_on_path(&self) -> bool {
        !self.player.contains('/')
    }

    /// Sees that there is something to play by: a player, or the library.
    pub fn check(&self) -> Result<()> {
        let known = Command::new(&self.player)
            .arg("--version")
            .stdin(Stdio::null())
            .stdout(Stdio::null())
            .stderr(Stdio::null())
            .status();
        match known {
            Err(error) if self.is_on_path() && error.kind() == ErrorKind::NotFound => engine::check()
                .with_context(|| format!("there is no player {}, and no library plays in its place", self.player)),
            Err(error) => Err(error).with_context(|| format!("the player {}", self.player)),
            Ok(_) => Ok(()),
        }
    }
}

#[cfg(test)]
mod tests {
    use super::*;

    #[test]
    fn answers_are_read_as_the_formats_have_them() {
        let wrote = Answer::read("wrote 68 3 5 0:N5 stop X1");
        assert_eq!(wrote.reasons.iter().map(|it| it.name()).collect::<Vec<_>>(), ["N5", "X1"]);
        assert_eq!(wrote.places, None.or(Some((3, 5))));
        let refused = Answer::read("refused F5 6 7");
        assert_eq!((&refused.word[..], refused.places), ("refused", Some((6, 7))));
        let got = Answer::read("got 0c720000 6869 - 5 6");
        assert_eq!(
            (got.stream, got.data, got.offsets, got.places),
            (vec![12, 0x72, 0, 0], b"hi".to_vec(), vec![], Some((5, 6)))
        );
        assert_eq!(Answer::read("back memory").word, "back");
    }
}
