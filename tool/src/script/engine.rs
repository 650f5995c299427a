// SPDX-License-Identifier: Apache-2.0 OR MIT
//! Scripts played by the library's own engine, where there is no player: each line is made as its steps, one after the other, and is told as
//! the player tells it. What several threads would do at once is done by turns, which the player does too where it has no threads.
use crate::codes::{self, Message, COMMANDS};
use crate::following::{Facts, Space};
use crate::journal::{self, Answer, Entry, Heading, Step};
use crate::judge::Judge;
use crate::mail::Mailboxes;
use crate::record::{u32_at, Parcel, Record};
use crate::refusals::Kind;
use crate::rules::script::{line_of, Line};
use crate::rules::{Request, Ways};
use anyhow::{bail, ensure, Context, Result};
use std::fmt::Write as _;

/// The journal of a run has this mark, and so many bytes before its entries.
const MARK: &[u8; 8] = b"BNDJ0002";
const HEADING_SIZE: usize = 16;
const MOST_SEATS: u32 = 31;
/// More bytes than this has no stream (F15).
const MOST_STREAM: usize = 4096;

/// Commands that are refused by name (F3): docs/FORMATS.md lists them.
const REFUSED: [u32; 5] = [0x4008_630a, 0x4004_6302, 0x630b, 0x4048_6311, 0x4048_6312];

/// The first command of a stream with its bytes, or the number of the fault that stands there.
fn first_command(stream: &[u8]) -> Result<(Message, &[u8]), u8> {
    if stream.len() < 4 {
        return Err(1);
    }
    let code = u32_at(stream, 0);
    if REFUSED.contains(&code) {
        return Err(3);
    }
    let found = COMMANDS.iter().find(|it| it.number == code).ok_or(2u8)?;
    let bytes = stream.get(..4 + found.shape.size()).ok_or(1u8)?;
    codes::command(bytes).map(|it| (it, bytes)).map_err(|_| 1)
}

/// What came of a run.
#[derive(Debug, Default)]
pub struct Played {
    pub printed: String,
    pub journal: Vec<u8>,
}

struct Engine {
    judge: Judge,
    heading: Heading,
    /// What the steps have come to, which says who is ready.
    space: Space,
    facts: Facts,
    seats: u32,
    count: u64,
    journal: Vec<u8>,
    mail: Mailboxes<Line>,
}

/// Whether there is a library to play by.
pub fn check() -> Result<()> {
    Engine::new(1).map(drop)
}

/// An answer, out of the entry that has it.
enum Told {
    Done(&'static str),
    Accepted,
    Refused(Kind, u8),
    Got(String),
}

fn hex(bytes: &[u8]) -> String {
    if bytes.is_empty() {
        return "-".into();
    }
    let mut text = Vec::new();
    crate::parcel::put_hex(&mut text, bytes);
    String::from_utf8_lossy(&text).into_owned()
}

fn told(entry: &Entry<'_>) -> Told {
    match entry.answer {
        Answer::Opened => Told::Done("opened"),
        Answer::Set => Told::Done("set"),
        Answer::Exited => Told::Done("exited"),
        Answer::Accepted => Told::Accepted,
        Answer::Refused(it) => Told::Refused(it.kind, it.number),
        Answer::Got { stream, parcel } => {
            Told::Got(format!("got {} {} {}", hex(stream), hex(parcel.data), hex(parcel.offsets)))
        }
    }
}

/// The parts of a write's area that a record names; None where they end outside of it.
fn parcel_of<'a>(record: &Record, area: &'a [u8]) -> Option<Parcel<'a>> {
    let part = |from: u64, size: u64| {
        let end = from.checked_add(size).filter(|it| *it <= area.len() as u64)?;
        area.get(from as usize..end as usize)
    };
    let data = part(record.buffer, record.data_size)?;
    Some(Parcel { data, offsets: part(record.offsets, record.offsets_size)? })
}

/// An entry of a command whose parcel isn't there: the library, which has to be given one, is given one of another length, and tells that.
fn without_parcel(made: &[u8], command: &[u8]) -> Result<Vec<u8>> {
    const NUMBER: usize = 4;
    const OF_COMMAND: u8 = 3;
    let (seat, rest) = made.split_at(made.len().min(NUMBER));
    let answer = rest.get(NUMBER + u32_at(rest, 0) as usize..).context("an entry that breaks off")?;
    let length = (command.len() as u32).to_le_bytes();
    let step = [&[OF_COMMAND][..], &length, command, &[0]].concat();
    Ok([seat, &(step.len() as u32).to_le_bytes(), &step, answer].concat())
}

impl Engine {
    fn new(seats: u32) -> Result<Engine> {
        ensure!((1..=MOST_SEATS).contains(&seats), "there are {seats} seats, and a script has 1 to {MOST_SEATS}");
        let journal = [&MARK[..], &seats.to_le_bytes(), &[0; 4]].concat();
        let heading = Heading::read(&journal)?;
        let judge = Judge::new(&heading)?;
        let (space, facts, mail) = (Space::remembering(Ways::NONE), Facts::default(), Mailboxes::new());
        Ok(Engine { judge, heading, space, facts, seats, count: 0, journal, mail })
    }

    /// Makes a step, and keeps its entry.
    fn step(&mut self, seat: u32, step: &Step<'_>) -> Result<Told> {
        let status = self.judge.step(seat, step);
        ensure!(status == 0, "the library doesn't make the step at {}: its status is {status}", self.count);
        let made = self.judge.made()?;
        let bytes = match step {
            Step::Command { command, bytes, parcel: None } if command.record().is_some() => {
                without_parcel(made, bytes)?
            }
            _ => made.to_vec(),
        };
        let entry = journal::entry(&self.heading, self.count, 0, &bytes)?;
        self.space.follow_entry(&entry, &mut self.facts);
        self.count += 1;
        let told = told(&entry);
        self.journal.extend(bytes);
        Ok(told)
    }

    fn asked(&mut self, seat: u32, line: &Line) -> Result<String> {
        let from = self.count;
        let step = match line {
            Line::Write(stream, area) => return self.wrote(seat, stream, area),
            Line::Read(limit) => Step::Read { limit: *limit },
            Line::Request(request) => match *request {
                Request::Open { pid, euid, window } => Step::Open { pid, euid, window },
                Request::Attach { pid } => Step::Attach { pid },
                Request::SetManager => Step::Manager,
                Request::SetSpam(on) => Step::Spam { on },
                Request::ExitThread => Step::ExitThread,
                Request::ExitProcess => Step::ExitProcess,
            },
            _ => return Ok("idle".into()),
        };
        let said = match self.step(seat, &step)? {
            Told::Done(word) => word.into(),
            Told::Got(text) => text,
            Told::Refused(kind, number) => format!("refused {}{number}", kind.letter()),
            Told::Accepted => "accepted".into(),
        };
        Ok(format!("{said} {from} {}", self.count))
    }

    /// Commands one after the other, each a step of its own.
    fn wrote(&mut self, seat: u32, stream: &[u8], area: &[u8]) -> Result<String> {
        let from = self.count;
        if stream.len() > MOST_STREAM {
            return Ok(format!("refused F15 {from} {from}"));
        }
        let (mut consumed, mut index, mut notes, mut stop) = (0, 0usize, String::new(), String::new());
        while consumed < stream.len() && stop.is_empty() {
            let (command, bytes): (Message, &[u8]) = match first_command(&stream[consumed..]) {
                Ok(found) => found,
                Err(fault) => {
                    stop = format!(" stop F{fault}");
                    break;
                }
            };
            let parcel = command.record().map(|it| parcel_of(it, area));
            // Parts outside of the area are a parcel of other lengths than its record's, which is none.
            match self.step(seat, &Step::Command { command, bytes, parcel: parcel.flatten() })? {
                Told::Refused(Kind::Fault, number) => return Ok(format!("refused F{number} {from} {}", self.count)),
                Told::Refused(Kind::Note, number) => {
                    let _ = write!(notes, " {index}:N{number}");
                }
                Told::Refused(Kind::Cause, number) => stop = format!(" stop X{number}"),
                _ => {}
            }
            consumed += bytes.len();
            index += 1;
        }
        Ok(format!("wrote {consumed} {from} {}{notes}{stop}", self.count))
    }

    fn serve(&mut self) -> Result<String> {
        let posted = self.mail.take_posted();
        let served = posted.len();
        for (seat, line) in posted {
            let told = self.asked(seat, &line)?;
            self.mail.answer(seat, told);
        }
        Ok(format!("served {served}"))
    }

    fn look(&self) -> String {
        let ready: u64 = (0..self.seats).filter(|it| self.space.is_ready(*it)).map(|it| 1 << it).sum();
        format!("page {} {ready} 0", self.count)
    }

    fn line(&mut self, seat: u32, line: Line) -> Result<String> {
        Ok(match line {
            Line::Look => self.look(),
            Line::Await(stamp) if self.count >= stamp => "passed".into(),
            Line::Await(_) => "turns".into(),
            Line::Serve => self.serve()?,
            Line::Collect => self.mail.fetch(seat, false),
            Line::Withdraw => self.mail.fetch(seat, true),
            _ if self.mail.has(seat) => "idle".into(),
            Line::Post(line) => self.mail.post(seat, *line),
            line => self.asked(seat, &line)?,
        })
    }

    /// The journal, whose heading says how many entries there are.
    fn finished(mut self) -> Vec<u8> {
        let count = u32::try_from(self.count).unwrap_or(u32::MAX);
        self.journal[HEADING_SIZE - 4..HEADING_SIZE].copy_from_slice(&count.to_le_bytes());
        self.journal
    }
}

/// Plays a script: what its lines print, and the journal of it. A line that waits in vain is its last.
pub fn played(script: &str) -> Result<Played> {
    let (mut engine, mut printed): (Option<Engine>, _) = (None, String::new());
    for (index, line) in script.lines().enumerate() {
        let words: Vec<&str> = line.split(' ').filter(|it| !it.is_empty()).collect();
        if words.is_empty() || line.starts_with('#') {
            continue;
        }
        let at = || format!("line {} of the script", index + 1);
        if words[0] == "seats" {
            let seats = words.get(1).and_then(|it| it.parse().ok()).with_context(at)?;
            engine = Some(Engine::new(seats)?);
            continue;
        }
        let engine = engine.as_mut().with_context(at)?;
        let seat = words[0].parse().ok().filter(|it| *it < engine.seats).with_context(at)?;
        let said = engine.line(seat, line_of(&words[1..]).with_context(at)?).with_context(at)?;
        let _ = writeln!(printed, "{}: {said}", index + 1);
        if said == "turns" {
            break;
        }
    }
    match engine {
        Some(engine) => Ok(Played { printed, journal: engine.finished() }),
        None => bail!("the script has no line `seats`"),
    }
}
