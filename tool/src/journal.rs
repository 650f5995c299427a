// SPDX-License-Identifier: Apache-2.0 OR MIT
//! Journals as docs/FORMATS.md lays them out: the heading, and entry by entry what stands behind it.
use crate::codes::{self, Message, Unread};
use crate::record::{u32_at, u64_at, Parcel};
use crate::refusals::{Kind, Reason};
use std::fmt;
use std::ops::RangeInclusive;

/// How many bytes a journal begins with that tell its version.
pub const MARK_SIZE: usize = 8;
/// How many bytes the longest heading of all versions has.
pub const MOST_HEADING: usize = 20;

/// A version of the format: what it begins with, and what it can say. A new one is a row here.
#[derive(Debug, PartialEq, Eq)]
pub struct Version {
    pub mark: &'static [u8; MARK_SIZE],
    seats: RangeInclusive<u32>,
    says_spam: bool,
    /// Whether the heading counts entries in eight bytes, not in four.
    counts_long: bool,
}

pub static VERSIONS: [Version; 3] = [
    Version { mark: b"BNDJ0001", seats: 1..=16, says_spam: false, counts_long: false },
    Version { mark: b"BNDJ0002", seats: 1..=31, says_spam: true, counts_long: false },
    Version { mark: b"BNDJ0003", seats: 32..=65536, says_spam: true, counts_long: true },
];

impl Version {
    /// The version that these bytes begin with.
    pub fn of(bytes: &[u8]) -> Result<&'static Version, Fault> {
        let mark = &bytes[..bytes.len().min(MARK_SIZE)];
        match VERSIONS.iter().find(|it| it.mark[..] == *mark) {
            Some(version) => Ok(version),
            None => fault(0, format!("no journal: it begins with \"{}\"", mark.escape_ascii())),
        }
    }

    pub fn heading_size(&self) -> usize {
        if self.counts_long {
            MOST_HEADING
        } else {
            16
        }
    }

    /// How many entries the heading says there are; all ones while they are still to come.
    fn count(&self, heading: &[u8]) -> Option<u64> {
        if self.counts_long {
            Some(u64_at(heading, 12)).filter(|it| *it != u64::MAX)
        } else {
            Some(u32_at(heading, 12)).filter(|it| *it != u32::MAX).map(u64::from)
        }
    }
}

/// What is wrong with a journal, and at which byte of the file.
#[derive(Debug, PartialEq, Eq)]
pub struct Fault {
    pub at: u64,
    pub what: String,
}

impl fmt::Display for Fault {
    fn fmt(&self, f: &mut fmt::Formatter<'_>) -> fmt::Result {
        write!(f, "byte {}: {}", self.at, self.what)
    }
}

impl std::error::Error for Fault {}

fn fault<T>(at: u64, what: impl Into<String>) -> Result<T, Fault> {
    Err(Fault { at, what: what.into() })
}

/// What a journal begins with.
#[derive(Clone, Copy, Debug)]
pub struct Heading {
    pub version: &'static Version,
    pub seats: u32,
    /// How many entries there are; None while they are still written.
    pub count: Option<u64>,
}

impl Heading {
    pub fn read(bytes: &[u8]) -> Result<Heading, Fault> {
        let version = Version::of(bytes)?;
        let size = version.heading_size();
        if bytes.len() < size {
            return fault(bytes.len() as u64, format!("the heading has {size} bytes, and the file ends here"));
        }
        let (seats, has) = (u32_at(bytes, 8), &version.seats);
        if !has.contains(&seats) {
            return fault(8, format!("{seats} seats, where this version has {} to {}", has.start(), has.end()));
        }
        Ok(Heading { version, seats, count: version.count(bytes) })
    }
}

/// What a seat did.
#[derive(Clone, Copy, Debug, PartialEq)]
pub enum Step<'a> {
    Open {
        pid: u32,
        euid: u32,
        window: u32,
    },
    Attach {
        pid: u32,
    },
    Manager,
    /// The parcel is None where the step has none.
    Command {
        command: Message,
        bytes: &'a [u8],
        parcel: Option<Parcel<'a>>,
    },
    Read {
        limit: u32,
    },
    ExitThread,
    ExitProcess,
    Spam {
        on: bool,
    },
}

impl Step<'_> {
    /// The verb of a script, or the command's name.
    pub fn name(&self) -> &'static str {
        match self {
            Step::Open { .. } => "open",
            Step::Attach { .. } => "attach",
            Step::Manager => "manager",
            Step::Command { command, .. } => command.code.name,
            Step::Read { .. } => "read",
            Step::ExitThread => "exitthread",
            Step::ExitProcess => "exitprocess",
            Step::Spam { .. } => "spam",
        }
    }
}

/// What a step was answered.
#[derive(Clone, Copy, Debug, PartialEq)]
pub enum Answer<'a> {
    Opened,
    Set,
    Exited,
    Accepted,
    /// The step changed nothing or was refused, for this reason: a note, a cause or a fault.
    Refused(Reason),
    Got {
        stream: &'a [u8],
        parcel: Parcel<'a>,
    },
}

#[derive(Clone, Copy, Debug)]
pub struct Entry<'a> {
    pub place: u64,
    pub seat: u32,
    pub step: Step<'a>,
    pub answer: Answer<'a>,
}

impl Entry<'_> {
    pub fn is_refused(&self) -> bool {
        matches!(self.answer, Answer::Refused(_))
    }
}

/// The bytes of one part of an entry, and where in the file they stand.
struct Part<'a> {
    bytes: &'a [u8],
    at: usize,
    base: u64,
    place: u64,
    what: &'static str,
}

impl<'a> Part<'a> {
    fn here(&self) -> u64 {
        self.base + self.at as u64
    }

    fn fault<T>(&self, back: usize, what: impl fmt::Display) -> Result<T, Fault> {
        fault(self.here() - back as u64, format!("the {} of entry {} {what}", self.what, self.place))
    }

    fn take(&mut self, size: usize) -> Result<&'a [u8], Fault> {
        let taken = self.at.checked_add(size).and_then(|end| self.bytes.get(self.at..end));
        match taken {
            Some(taken) => {
                self.at += size;
                Ok(taken)
            }
            None => self.fault(0, format_args!("wants {size} bytes here, and has {}", self.bytes.len() - self.at)),
        }
    }

    fn byte(&mut self) -> Result<u8, Fault> {
        Ok(self.take(1)?[0])
    }

    fn number(&mut self) -> Result<u32, Fault> {
        Ok(u32_at(self.take(4)?, 0))
    }

    fn block(&mut self) -> Result<&'a [u8], Fault> {
        let size = self.number()?;
        self.take(size as usize)
    }

    fn parcel(&mut self) -> Result<Parcel<'a>, Fault> {
        Ok(Parcel { data: self.block()?, offsets: self.block()? })
    }

    /// One byte that is 0 or 1.
    fn flag(&mut self) -> Result<bool, Fault> {
        match self.byte()? {
            0 => Ok(false),
            1 => Ok(true),
            other => self.fault(1, format_args!("has {other} where only 0 or 1 may stand")),
        }
    }

    fn reason(&mut self, kind: Kind) -> Result<Answer<'a>, Fault> {
        let number = self.byte()?;
        match Reason::new(kind, number) {
            Some(reason) => Ok(Answer::Refused(reason)),
            None => {
                let (letter, count) = (kind.letter(), kind.count());
                self.fault(
                    1,
                    format_args!("has {number} where 1 to {count} may stand, for {letter}1 to {letter}{count}"),
                )
            }
        }
    }

    fn end(&self) -> Result<(), Fault> {
        match self.bytes.len() - self.at {
            0 => Ok(()),
            more => self.fault(0, format_args!("has {more} bytes more than it says")),
        }
    }
}

fn command<'a>(part: &mut Part<'a>) -> Result<Step<'a>, Fault> {
    let bytes = part.block()?;
    let command = match codes::command(bytes) {
        Ok(command) => command,
        Err(Unread::Unknown(code)) => {
            return part.fault(bytes.len(), format_args!("has the command {code:#x}, which is none"))
        }
        Err(Unread::Short) => {
            return part.fault(bytes.len(), format_args!("has {} bytes, which are not one command", bytes.len()))
        }
    };
    if !part.flag()? {
        return Ok(Step::Command { command, bytes, parcel: None });
    }
    if command.record().is_none() {
        return part.fault(1, format_args!("has a parcel, and {} sends none", command.code.name));
    }
    Ok(Step::Command { command, bytes, parcel: Some(part.parcel()?) })
}

fn step<'a>(part: &mut Part<'a>, version: &Version) -> Result<Step<'a>, Fault> {
    Ok(match part.byte()? {
        0 => Step::Open { pid: part.number()?, euid: part.number()?, window: part.number()? },
        1 => Step::Attach { pid: part.number()? },
        2 => Step::Manager,
        3 => command(part)?,
        4 => Step::Read { limit: part.number()? },
        5 => Step::ExitThread,
        6 => Step::ExitProcess,
        7 if version.says_spam => Step::Spam { on: part.flag()? },
        other => return part.fault(1, format_args!("begins with {other}, which is no step of this version")),
    })
}

fn answer<'a>(part: &mut Part<'a>) -> Result<Answer<'a>, Fault> {
    Ok(match part.byte()? {
        0 => Answer::Opened,
        1 => Answer::Set,
        2 => Answer::Exited,
        3 => Answer::Accepted,
        4 => part.reason(Kind::Note)?,
        5 => part.reason(Kind::Cause)?,
        6 => Answer::Got { stream: part.block()?, parcel: part.parcel()? },
        7 => part.reason(Kind::Fault)?,
        other => return part.fault(1, format_args!("begins with {other}, which is no answer")),
    })
}

/// How much of an entry is there, by the bytes that it begins with.
#[derive(Clone, Copy, Debug, PartialEq, Eq)]
pub enum Extent {
    /// The whole entry is there, and has so many bytes.
    Whole(usize),
    /// At least so many bytes are needed, and fewer are there.
    Needs(usize),
}

/// How many bytes the entry has that these begin with.
pub fn extent(bytes: &[u8]) -> Extent {
    let mut end = 4;
    for _ in 0..2 {
        if bytes.len() < end + 4 {
            return Extent::Needs(end + 4);
        }
        end += 4 + u32_at(bytes, end) as usize;
    }
    if bytes.len() < end {
        Extent::Needs(end)
    } else {
        Extent::Whole(end)
    }
}

/// The entry that all these bytes are; they stand at `base` in the file.
pub fn entry<'a>(heading: &Heading, place: u64, base: u64, bytes: &'a [u8]) -> Result<Entry<'a>, Fault> {
    let seat = u32_at(bytes, 0);
    if seat >= heading.seats {
        return fault(base, format!("entry {place} is of seat {seat}, and there are {} seats", heading.seats));
    }
    let middle = 8 + u32_at(bytes, 4) as usize;
    let mut first = Part { bytes: &bytes[8..middle], at: 0, base: base + 8, place, what: "step" };
    let step = step(&mut first, heading.version)?;
    first.end()?;
    let base = base + middle as u64 + 4;
    let mut second = Part { bytes: &bytes[middle + 4..], at: 0, base, place, what: "answer" };
    let answer = answer(&mut second)?;
    second.end()?;
    Ok(Entry { place, seat, step, answer })
}

#[cfg(test)]
mod tests {
    use super::*;

    /// The shortest run of docs/FORMATS.md.
    const SHORTEST: [u8; 42] = [
        0x42, 0x4e, 0x44, 0x4a, 0x30, 0x30, 0x30, 0x32, 1, 0, 0, 0, 1, 0, 0, 0, 0, 0, 0, 0, 13, 0, 0, 0, 0, 0x64, 0, 0,
        0, 0xe8, 3, 0, 0, 0, 0x10, 0, 0, 1, 0, 0, 0, 0,
    ];

    #[test]
    fn the_shortest_run_is_read() {
        let heading = Heading::read(&SHORTEST).unwrap();
        assert_eq!((heading.seats, heading.count), (1, Some(1)));
        assert_eq!(extent(&SHORTEST[16..]), Extent::Whole(26));
        let entry = entry(&heading, 0, 16, &SHORTEST[16..]).unwrap();
        assert_eq!(entry.step, Step::Open { pid: 100, euid: 1000, window: 4096 });
        assert_eq!(entry.answer, Answer::Opened);
    }

    #[test]
    fn what_is_cut_says_how_much_it_needs() {
        assert_eq!(extent(&SHORTEST[16..17]), Extent::Needs(8));
        assert_eq!(extent(&SHORTEST[16..24]), Extent::Needs(25));
        assert_eq!(extent(&SHORTEST[16..41]), Extent::Needs(26));
    }

    #[test]
    fn faults_are_told_with_their_byte() {
        let heading = Heading::read(&SHORTEST).unwrap();
        let told = |at: usize, byte: u8| {
            let mut bytes = SHORTEST;
            bytes[at] = byte;
            entry(&heading, 0, 16, &bytes[16..]).unwrap_err().to_string()
        };
        assert_eq!(told(16, 1), "byte 16: entry 0 is of seat 1, and there are 1 seats");
        assert_eq!(told(24, 9), "byte 24: the step of entry 0 begins with 9, which is no step of this version");
        assert_eq!(told(24, 1), "byte 29: the step of entry 0 has 8 bytes more than it says");
        assert_eq!(told(24, 7), "byte 25: the step of entry 0 has 100 where only 0 or 1 may stand");
        assert_eq!(told(41, 8), "byte 41: the answer of entry 0 begins with 8, which is no answer");
        assert_eq!(told(41, 7), "byte 42: the answer of entry 0 wants 1 bytes here, and has 0");
    }

    #[test]
    fn versions_differ_in_seats_and_in_spam() {
        let mut bytes = SHORTEST;
        bytes[8] = 17;
        assert_eq!(Heading::read(&bytes).unwrap().seats, 17);
        bytes[7] = b'1';
        assert_eq!(Heading::read(&bytes).unwrap_err().to_string(), "byte 8: 17 seats, where this version has 1 to 16");
        bytes[7] = b'9';
        assert_eq!(Heading::read(&bytes).unwrap_err().to_string(), "byte 0: no journal: it begins with \"BNDJ0009\"");
        assert_eq!(Heading::read(&SHORTEST[..12]).unwrap_err().at, 12);
    }

    fn third(seats: u32, count: u64) -> Vec<u8> {
        [&b"BNDJ0003"[..], &seats.to_le_bytes(), &count.to_le_bytes()].concat()
    }

    #[test]
    fn the_third_version_counts_seats_and_entries_further() {
        let told = |seats, count| Heading::read(&third(seats, count)).map(|it| (it.seats, it.count));
        assert_eq!(told(32, 1 << 40), Ok((32, Some(1 << 40))));
        assert_eq!(told(65_536, u64::MAX), Ok((65_536, None)));
        assert_eq!(told(32, u64::from(u32::MAX)), Ok((32, Some(u64::from(u32::MAX)))), "only all ones of eight bytes");
        let fault = |seats| told(seats, 0).unwrap_err().to_string();
        assert_eq!(fault(31), "byte 8: 31 seats, where this version has 32 to 65536");
        assert_eq!(fault(65_537), "byte 8: 65537 seats, where this version has 32 to 65536");
        let cut = Heading::read(&third(32, 0)[..19]).unwrap_err();
        assert_eq!(cut.to_string(), "byte 19: the heading has 20 bytes, and the file ends here");
    }

    #[test]
    fn the_second_version_is_still_written_with_four_bytes_of_ones() {
        let mut bytes = SHORTEST;
        bytes[12..16].copy_from_slice(&[0xff; 4]);
        assert_eq!(Heading::read(&bytes).unwrap().count, None);
    }
}
