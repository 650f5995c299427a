// SPDX-License-Identifier: Apache-2.0 OR MIT
//! A step as the daemon's ring has it, laid out as clients/ring.h says.
use crate::record::{u32_at, u64_at, ONE_WAY};
use crate::refusals::{Kind, Reason};
use std::rc::Rc;

pub const SLOT_SIZE: usize = 384;
const COMM: std::ops::Range<usize> = 136..152;
const DATA: usize = 152;
const MOST_DATA: usize = 232;
const NONE: u64 = u64::MAX;

/// What was done, as the first byte of a step in a journal has it.
#[derive(Clone, Copy, Debug, PartialEq, Eq)]
pub enum Did {
    Command,
    Read,
    ExitThread,
    ExitProcess,
    /// What begins processes and threads, and sets what they are.
    Other,
}

/// What came of a step.
#[derive(Clone, Copy, Debug, PartialEq, Eq)]
pub enum Came {
    Accepted,
    Refused(Reason),
    Got,
    Other,
}

/// Who made a step.
#[derive(Clone, Debug, PartialEq, Eq)]
pub struct Party {
    /// The pid in the history, and that of the system.
    pub process: u32,
    pub pid: u32,
    /// None where the daemon doesn't know it.
    pub tid: Option<u32>,
    pub comm: Rc<str>,
}

#[derive(Clone, Debug, PartialEq, Eq)]
pub struct Slot {
    pub place: u64,
    /// Nanoseconds of the monotonic clock.
    pub time: u64,
    pub seat: u32,
    pub party: Party,
    pub did: Did,
    pub came: Came,
    /// A command's code, or that of the last return.
    pub command: u32,
    pub handle: u32,
    pub code: u32,
    pub flags: u32,
    /// Of a call or reply that was taken: the pid in the history of who gets it.
    pub other: u32,
    /// Of a two-way call that is read: where it was made.
    pub call: Option<u64>,
    pub object: Option<(u64, u32)>,
    pub data_size: u64,
    pub offsets_size: u64,
    pub data: Vec<u8>,
}

impl Slot {
    /// The step that these bytes are, which have to be so many.
    pub fn read(bytes: &[u8; SLOT_SIZE]) -> Slot {
        let number = |at: usize| u32_at(bytes, at);
        let some = |at: usize| Some(u64_at(bytes, at)).filter(|it| *it != NONE);
        let name: Vec<u8> = bytes[COMM].iter().copied().take_while(|it| *it != 0).collect();
        let party = Party {
            process: number(36),
            pid: number(28),
            tid: Some(number(32)).filter(|it| *it != 0),
            comm: String::from_utf8_lossy(&name).into(),
        };
        let kept = usize::from(bytes[43]).min(MOST_DATA);
        Slot {
            place: u64_at(bytes, 16),
            time: u64_at(bytes, 8),
            seat: number(24),
            party,
            did: did(bytes[40]),
            came: came(bytes[41], bytes[42]),
            command: number(44),
            handle: number(48),
            code: number(52),
            flags: number(56),
            other: number(60),
            call: some(64),
            object: some(72).map(|place| (place, number(80))),
            data_size: u64_at(bytes, 96),
            offsets_size: u64_at(bytes, 104),
            data: bytes[DATA..DATA + kept].to_vec(),
        }
    }

    pub fn is_one_way(&self) -> bool {
        self.flags & ONE_WAY != 0
    }
}

fn did(kind: u8) -> Did {
    match kind {
        3 => Did::Command,
        4 => Did::Read,
        5 => Did::ExitThread,
        6 => Did::ExitProcess,
        _ => Did::Other,
    }
}

fn came(answer: u8, number: u8) -> Came {
    let refused = |kind: Kind| Reason::new(kind, number).map_or(Came::Other, Came::Refused);
    match answer {
        3 => Came::Accepted,
        4 => refused(Kind::Note),
        5 => refused(Kind::Cause),
        6 => Came::Got,
        7 => refused(Kind::Fault),
        _ => Came::Other,
    }
}

#[cfg(test)]
mod tests {
    use super::*;

    const HEADER: &str = concat!(env!("CARGO_MANIFEST_DIR"), "/../clients/ring.h");

    /// The byte at which a field of struct ring_slot stands, by its comment.
    fn documented(header: &str, field: &str) -> Option<usize> {
        let slot = &header[header.find("struct ring_slot {")?..];
        let line = slot.lines().find(|it| it.contains(&format!(" {field};")) || it.contains(&format!(" {field}[")))?;
        let comment = line.split("/*").nth(1)?;
        comment.trim_start().split(|it: char| !it.is_ascii_digit()).next()?.parse().ok()
    }

    /// A slot in which the bytes of one field are 1, 2, 3 ..
    fn counted(at: usize, size: usize) -> [u8; SLOT_SIZE] {
        let mut bytes = [0; SLOT_SIZE];
        (0..size).for_each(|it| bytes[at + it] = it as u8 + 1);
        bytes
    }

    #[test]
    fn fields_stand_where_the_header_has_them() {
        let header = std::fs::read_to_string(HEADER).expect(HEADER);
        let (word, long) = (0x0403_0201, 0x0807_0605_0403_0201);
        let read = |field: &str, size: usize| Slot::read(&counted(documented(&header, field).expect(field), size));
        assert_eq!((read("time", 8).time, read("place", 8).place), (long, long));
        assert_eq!((read("data_size", 8).data_size, read("offsets_size", 8).offsets_size), (long, long));
        assert_eq!((read("seat", 4).seat, read("command", 4).command, read("handle", 4).handle), (word, word, word));
        assert_eq!((read("code", 4).code, read("flags", 4).flags, read("other", 4).other), (word, word, word));
        assert_eq!((read("pid", 4).party.pid, read("process", 4).party.process), (word, word));
        assert_eq!((read("tid", 4).party.tid, read("call", 8).call), (Some(word), Some(long)));
        assert_eq!(read("object_place", 8).object, Some((long, 0)));
        assert_eq!(read("object_index", 4).object, Some((0, word)));
        assert_eq!(&*read("comm", 15).party.comm, "\u{1}\u{2}\u{3}\u{4}\u{5}\u{6}\u{7}\u{8}\t\n\u{b}\u{c}\r\u{e}\u{f}");
        let mut bytes = counted(documented(&header, "data").expect("data"), 3);
        bytes[documented(&header, "kept").expect("kept")] = 3;
        assert_eq!(Slot::read(&bytes).data, [1, 2, 3]);
        let mut bytes = [0; SLOT_SIZE];
        bytes[documented(&header, "kind").expect("kind")] = 3;
        bytes[documented(&header, "answer").expect("answer")] = 5;
        bytes[documented(&header, "number").expect("number")] = 9;
        let slot = Slot::read(&bytes);
        assert_eq!((slot.did, slot.came), (Did::Command, Came::Refused(Reason { kind: Kind::Cause, number: 9 })));
        assert!(header.contains(&format!("#define RING_SLOT {SLOT_SIZE}u")));
        assert!(header.contains(&format!("#define RING_DATA {MOST_DATA}u")));
    }
}
