// SPDX-License-Identifier: Apache-2.0 OR MIT
//! Commands and returns by their codes, and what their payloads have, as docs/FORMATS.md lists them.
use crate::record::{u32_at, u64_at, Record, RECORD_SIZE};

pub const BC_TRANSACTION: u32 = 0x4040_6300;
pub const BC_REPLY: u32 = 0x4040_6301;
pub const BC_FREE_BUFFER: u32 = 0x4008_6303;
pub const BC_INCREFS: u32 = 0x4004_6304;
pub const BC_ACQUIRE: u32 = 0x4004_6305;
pub const BC_RELEASE: u32 = 0x4004_6306;
pub const BC_DECREFS: u32 = 0x4004_6307;
pub const BC_INCREFS_DONE: u32 = 0x4010_6308;
pub const BC_ACQUIRE_DONE: u32 = 0x4010_6309;
pub const BC_ENTER_LOOPER: u32 = 0x0000_630c;
pub const BC_EXIT_LOOPER: u32 = 0x0000_630d;
pub const BC_REQUEST_DEATH_NOTIFICATION: u32 = 0x400c_630e;
pub const BC_CLEAR_DEATH_NOTIFICATION: u32 = 0x400c_630f;
pub const BC_DEAD_BINDER_DONE: u32 = 0x4008_6310;

pub const BR_TRANSACTION: u32 = 0x8040_7202;
pub const BR_REPLY: u32 = 0x8040_7203;
pub const BR_DEAD_REPLY: u32 = 0x0000_7205;
pub const BR_TRANSACTION_COMPLETE: u32 = 0x0000_7206;
pub const BR_INCREFS: u32 = 0x8010_7207;
pub const BR_ACQUIRE: u32 = 0x8010_7208;
pub const BR_RELEASE: u32 = 0x8010_7209;
pub const BR_DECREFS: u32 = 0x8010_720a;
pub const BR_NOOP: u32 = 0x0000_720c;
pub const BR_DEAD_BINDER: u32 = 0x8008_720f;
pub const BR_CLEAR_DEATH_NOTIFICATION_DONE: u32 = 0x8008_7210;
pub const BR_FAILED_REPLY: u32 = 0x0000_7211;
pub const BR_ONEWAY_SPAM_SUSPECT: u32 = 0x0000_7213;

/// What the bytes behind a code are.
#[derive(Clone, Copy, Debug, PartialEq, Eq)]
pub enum Shape {
    Nothing,
    Record,
    Buffer,
    Handle,
    PtrCookie,
    HandleCookie,
    Cookie,
}

impl Shape {
    /// How many bytes stand behind the code.
    pub fn size(self) -> usize {
        match self {
            Shape::Nothing => 0,
            Shape::Record => RECORD_SIZE,
            Shape::Buffer | Shape::Cookie => 8,
            Shape::Handle => 4,
            Shape::PtrCookie => 16,
            Shape::HandleCookie => 12,
        }
    }
}

/// A command's or a return's code with its name.
#[derive(Clone, Copy, Debug, PartialEq, Eq)]
pub struct Code {
    pub number: u32,
    pub name: &'static str,
    pub shape: Shape,
}

const fn code(number: u32, name: &'static str, shape: Shape) -> Code {
    Code { number, name, shape }
}

pub static COMMANDS: [Code; 14] = [
    code(BC_TRANSACTION, "BC_TRANSACTION", Shape::Record),
    code(BC_REPLY, "BC_REPLY", Shape::Record),
    code(BC_FREE_BUFFER, "BC_FREE_BUFFER", Shape::Buffer),
    code(BC_INCREFS, "BC_INCREFS", Shape::Handle),
    code(BC_ACQUIRE, "BC_ACQUIRE", Shape::Handle),
    code(BC_RELEASE, "BC_RELEASE", Shape::Handle),
    code(BC_DECREFS, "BC_DECREFS", Shape::Handle),
    code(BC_INCREFS_DONE, "BC_INCREFS_DONE", Shape::PtrCookie),
    code(BC_ACQUIRE_DONE, "BC_ACQUIRE_DONE", Shape::PtrCookie),
    code(BC_ENTER_LOOPER, "BC_ENTER_LOOPER", Shape::Nothing),
    code(BC_EXIT_LOOPER, "BC_EXIT_LOOPER", Shape::Nothing),
    code(BC_REQUEST_DEATH_NOTIFICATION, "BC_REQUEST_DEATH_NOTIFICATION", Shape::HandleCookie),
    code(BC_CLEAR_DEATH_NOTIFICATION, "BC_CLEAR_DEATH_NOTIFICATION", Shape::HandleCookie),
    code(BC_DEAD_BINDER_DONE, "BC_DEAD_BINDER_DONE", Shape::Cookie),
];

pub static RETURNS: [Code; 13] = [
    code(BR_TRANSACTION, "BR_TRANSACTION", Shape::Record),
    code(BR_REPLY, "BR_REPLY", Shape::Record),
    code(BR_DEAD_REPLY, "BR_DEAD_REPLY", Shape::Nothing),
    code(BR_TRANSACTION_COMPLETE, "BR_TRANSACTION_COMPLETE", Shape::Nothing),
    code(BR_INCREFS, "BR_INCREFS", Shape::PtrCookie),
    code(BR_ACQUIRE, "BR_ACQUIRE", Shape::PtrCookie),
    code(BR_RELEASE, "BR_RELEASE", Shape::PtrCookie),
    code(BR_DECREFS, "BR_DECREFS", Shape::PtrCookie),
    code(BR_NOOP, "BR_NOOP", Shape::Nothing),
    code(BR_DEAD_BINDER, "BR_DEAD_BINDER", Shape::Cookie),
    code(BR_CLEAR_DEATH_NOTIFICATION_DONE, "BR_CLEAR_DEATH_NOTIFICATION_DONE", Shape::Cookie),
    code(BR_FAILED_REPLY, "BR_FAILED_REPLY", Shape::Nothing),
    code(BR_ONEWAY_SPAM_SUSPECT, "BR_ONEWAY_SPAM_SUSPECT", Shape::Nothing),
];

fn found(table: &'static [Code], number: u32) -> Option<&'static Code> {
    table.iter().find(|code| code.number == number)
}

/// The name of a return's code.
pub fn return_name(number: u32) -> &'static str {
    found(&RETURNS, number).map_or("?", |code| code.name)
}

/// What a command or a return says.
#[derive(Clone, Copy, Debug, PartialEq, Eq)]
pub enum Payload {
    Nothing,
    Record(Record),
    Buffer(u64),
    Handle(u32),
    PtrCookie(u64, u64),
    HandleCookie(u32, u64),
    Cookie(u64),
}

impl Payload {
    fn read(shape: Shape, bytes: &[u8]) -> Payload {
        match shape {
            Shape::Nothing => Payload::Nothing,
            Shape::Record => Payload::Record(Record::read(bytes)),
            Shape::Buffer => Payload::Buffer(u64_at(bytes, 0)),
            Shape::Handle => Payload::Handle(u32_at(bytes, 0)),
            Shape::PtrCookie => Payload::PtrCookie(u64_at(bytes, 0), u64_at(bytes, 8)),
            Shape::HandleCookie => Payload::HandleCookie(u32_at(bytes, 0), u64_at(bytes, 4)),
            Shape::Cookie => Payload::Cookie(u64_at(bytes, 0)),
        }
    }
}

/// A command or a return: its code, and what stands behind that.
#[derive(Clone, Copy, Debug, PartialEq, Eq)]
pub struct Message {
    pub code: &'static Code,
    pub payload: Payload,
}

impl Message {
    /// The record of a transaction or reply.
    pub fn record(&self) -> Option<&Record> {
        match &self.payload {
            Payload::Record(record) => Some(record),
            _ => None,
        }
    }
}

/// Why no message could be read.
#[derive(Clone, Copy, Debug, PartialEq, Eq)]
pub enum Unread {
    Short,
    Unknown(u32),
}

/// The message that bytes begin with, and what follows it.
fn message<'a>(table: &'static [Code], bytes: &'a [u8]) -> Result<(Message, &'a [u8]), Unread> {
    if bytes.len() < 4 {
        return Err(Unread::Short);
    }
    let number = u32_at(bytes, 0);
    let code = found(table, number).ok_or(Unread::Unknown(number))?;
    let end = 4 + code.shape.size();
    let payload = bytes.get(4..end).ok_or(Unread::Short)?;
    Ok((Message { code, payload: Payload::read(code.shape, payload) }, &bytes[end..]))
}

/// The command that these bytes are, all of them.
pub fn command(bytes: &[u8]) -> Result<Message, Unread> {
    match message(&COMMANDS, bytes)? {
        (command, []) => Ok(command),
        _ => Err(Unread::Short),
    }
}

/// The returns of a stream, up to the first that is none.
#[derive(Clone, Debug)]
pub struct Returns<'a>(pub &'a [u8]);

impl Iterator for Returns<'_> {
    type Item = Result<Message, Unread>;

    fn next(&mut self) -> Option<Self::Item> {
        if self.0.is_empty() {
            return None;
        }
        let read = message(&RETURNS, self.0);
        self.0 = read.map_or(&[], |(_, rest)| rest);
        Some(read.map(|(message, _)| message))
    }
}

#[cfg(test)]
mod tests {
    use super::*;

    #[test]
    fn codes_have_their_parts() {
        for (table, letter) in [(&COMMANDS[..], b'c'), (&RETURNS[..], b'r')] {
            for code in table {
                assert_eq!(code.number >> 8 & 0xff, u32::from(letter), "{}", code.name);
                assert_eq!((code.number >> 16 & 0x3fff) as usize, code.shape.size(), "{}", code.name);
            }
        }
    }

    #[test]
    fn a_command_is_all_of_its_bytes() {
        let bytes = [0x05, 0x63, 0x04, 0x40, 7, 0, 0, 0];
        assert_eq!(command(&bytes).unwrap().payload, Payload::Handle(7));
        assert_eq!(command(&bytes[..7]), Err(Unread::Short));
        assert_eq!(command(&[&bytes[..], &[0]].concat()), Err(Unread::Short));
        assert_eq!(command(&[0xff, 0, 0, 0]), Err(Unread::Unknown(0xff)));
    }

    #[test]
    fn returns_end_behind_what_is_none() {
        let stream = [0x0c, 0x72, 0, 0, 1, 2, 3, 4, 0x0c, 0x72, 0, 0];
        let names: Vec<_> = Returns(&stream).map(|it| it.map(|it| it.code.name)).collect();
        assert_eq!(names, [Ok("BR_NOOP"), Err(Unread::Unknown(0x0403_0201))]);
    }
}
