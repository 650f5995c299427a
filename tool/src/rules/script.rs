// SPDX-License-Identifier: Apache-2.0 OR MIT
//! A plain script (docs/FORMATS.md) played on the model, which prints what the proved player prints. It may have one verb more:
//! `wait LIMIT` is a read that waits until there is something.
use super::play::Play;
use super::*;
use crate::codes::*;
use crate::record::{Record, RECORD_SIZE};
use anyhow::{bail, Context, Result};
use std::fmt::Write as _;

/// What a line asks for.
#[derive(Clone, Debug)]
pub enum Line {
    Request(Request),
    Read(u32),
    /// A read that waits until there is something.
    Wait(u32),
    Write(Vec<u8>, Vec<u8>),
    Look,
    Await(u64),
    Post(Box<Line>),
    Serve,
    Collect,
    Withdraw,
}

fn number<T: std::str::FromStr>(words: &[&str], at: usize) -> Result<T> {
    let word = words.get(at).with_context(|| format!("word {} is missing", at + 1))?;
    word.parse().ok().with_context(|| format!("word {}: {word} is no number here", at + 1))
}

fn bytes(words: &[&str], at: usize) -> Result<Vec<u8>> {
    let word = *words.get(at).with_context(|| format!("word {} is missing", at + 1))?;
    if word == "-" {
        return Ok(Vec::new());
    }
    let pair = |it: &[u8]| std::str::from_utf8(it).ok().and_then(|it| u8::from_str_radix(it, 16).ok());
    let found: Option<Vec<u8>> = word.as_bytes().chunks(2).map(pair).collect();
    found.filter(|_| word.len() % 2 == 0).with_context(|| format!("word {}: no bytes in hexadecimal", at + 1))
}

fn record_bytes(record: &Record) -> Vec<u8> {
    let mut bytes = Vec::with_capacity(RECORD_SIZE);
    bytes.extend(record.target.to_le_bytes());
    bytes.extend(record.cookie.to_le_bytes());
    for number in [record.code, record.flags, record.sender_pid as u32, record.sender_euid] {
        bytes.extend(number.to_le_bytes());
    }
    for number in [record.data_size, record.offsets_size, record.buffer, record.offsets] {
        bytes.extend(number.to_le_bytes());
    }
    bytes
}

/// `tx` and `reply`: the stream and the area.
fn sending(words: &[&str]) -> Result<Line> {
    let is_call = words[0] == "tx";
    let at = usize::from(is_call) + 1;
    let target = if is_call { number(words, 1)? } else { 0 };
    let mut area = bytes(words, at + 2)?;
    let data_size = area.len() as u64;
    area.resize((area.len() + 7) / 8 * 8, 0);
    let offsets = area.len() as u64;
    let list = *words.get(at + 3).context("the offsets are missing")?;
    for word in list.split(',').filter(|it| *it != "-") {
        area.extend(word.parse::<u64>().context("an offset is no number")?.to_le_bytes());
    }
    let record = Record {
        target,
        code: number(words, at)?,
        flags: number(words, at + 1)?,
        data_size,
        offsets_size: area.len() as u64 - offsets,
        offsets,
        ..Record::default()
    };
    let code = if is_call { BC_TRANSACTION } else { BC_REPLY };
    Ok(Line::Write([&code.to_le_bytes()[..], &record_bytes(&record)].concat(), area))
}

/// The verbs that are a command of their own, with what stands behind its code.
const COMMAND_VERBS: [(&str, u32); 12] = [
    ("enter", BC_ENTER_LOOPER),
    ("exitloop", BC_EXIT_LOOPER),
    ("free", BC_FREE_BUFFER),
    ("increfs", BC_INCREFS),
    ("acquire", BC_ACQUIRE),
    ("release", BC_RELEASE),
    ("decrefs", BC_DECREFS),
    ("increfsdone", BC_INCREFS_DONE),
    ("acquiredone", BC_ACQUIRE_DONE),
    ("askdeath", BC_REQUEST_DEATH_NOTIFICATION),
    ("cleardeath", BC_CLEAR_DEATH_NOTIFICATION),
    ("deaddone", BC_DEAD_BINDER_DONE),
];

fn command_line(words: &[&str]) -> Result<Line> {
    let found = COMMAND_VERBS.iter().find(|it| it.0 == words[0]);
    let code = found.with_context(|| format!("{} is no verb", words[0]))?.1;
    let mut stream = code.to_le_bytes().to_vec();
    match COMMANDS.iter().find(|it| it.number == code).map(|it| it.shape) {
        Some(Shape::Handle) => stream.extend(number::<u32>(words, 1)?.to_le_bytes()),
        Some(Shape::HandleCookie) => {
            stream.extend(number::<u32>(words, 1)?.to_le_bytes());
            stream.extend(number::<u64>(words, 2)?.to_le_bytes());
        }
        Some(Shape::PtrCookie) => {
            stream.extend(number::<u64>(words, 1)?.to_le_bytes());
            stream.extend(number::<u64>(words, 2)?.to_le_bytes());
        }
        Some(Shape::Nothing) => {}
        _ => stream.extend(number::<u64>(words, 1)?.to_le_bytes()),
    }
    Ok(Line::Write(stream, Vec::new()))
}

/// What the words behind a seat's number ask for.
pub fn line_of(words: &[&str]) -> Result<Line> {
    Ok(match *words.first().context("a verb is missing")? {
        "open" => {
            Line::Request(Request::Open { pid: number(words, 1)?, euid: number(words, 2)?, window: number(words, 3)? })
        }
        "attach" => Line::Request(Request::Attach { pid: number(words, 1)? }),
        "manager" => Line::Request(Request::SetManager),
        "spam" => Line::Request(Request::SetSpam(number::<u8>(words, 1)? == 1)),
        "exitthread" => Line::Request(Request::ExitThread),
        "exitprocess" => Line::Request(Request::ExitProcess),
        "read" => Line::Read(number(words, 1)?),
        "wait" => Line::Wait(number(words, 1)?),
        "write" => Line::Write(bytes(words, 1)?, bytes(words, 2)?),
        "tx" | "reply" => sending(words)?,
        "look" => Line::Look,
        "await" => Line::Await(number(words, 1)?),
        "post" => Line::Post(Box::new(line_of(&words[1..])?)),
        "serve" => Line::Serve,
        "collect" => Line::Collect,
        "withdraw" => Line::Withdraw,
        _ => command_line(words)?,
    })
}

/// A line of a script.
pub enum Spoken {
    /// It is empty, or a remark.
    Nothing,
    Seats(Seat),
    Line(Seat, Line),
}

/// What a line of a script says, for so many seats.
pub fn spoken(line: &str, seats: Option<Seat>) -> Result<Spoken> {
    let words: Vec<&str> = line.split(' ').filter(|it| !it.is_empty()).collect();
    if words.is_empty() || line.starts_with('#') {
        return Ok(Spoken::Nothing);
    }
    if words[0] == "seats" {
        return Ok(Spoken::Seats(number(&words, 1)?));
    }
    let seats = seats.context("the first line has to be `seats N`")?;
    let seat: Seat = number(&words, 0)?;
    if seat >= seats {
        bail!("there are {seats} seats");
    }
    Ok(Spoken::Line(seat, line_of(&words[1..])?))
}

/// Plays a script: what its lines print. A line that waits in vain for a stamp is its last.
pub fn played(text: &str, ways: Ways) -> Result<String> {
    let (mut play, mut told): (Option<Play>, String) = (None, String::new());
    for (index, line) in text.lines().enumerate() {
        let number = index + 1;
        let spoken = spoken(line, play.as_ref().map(Play::seats)).with_context(|| format!("line {number}"))?;
        let said = match (spoken, &mut play) {
            (Spoken::Seats(seats), play) => {
                *play = Some(Play::new(seats, ways));
                continue;
            }
            (Spoken::Line(seat, line), Some(play)) => play.line(seat, line),
            _ => continue,
        };
        let _ = writeln!(told, "{number}: {}", said.own);
        for (seat, text) in &said.others {
            let _ = writeln!(told, "{number}: seat {seat} {text}");
        }
        if said.own == "turns" {
            break;
        }
    }
    Ok(told)
}
