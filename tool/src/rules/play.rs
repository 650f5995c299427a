// SPDX-License-Identifier: Apache-2.0 OR MIT
//! A script in the middle of its run: the space, mailboxes, and seats whose reads wait.
//!
//! The rules know no read that waits. Here a seat that waits reads as soon as there is something for it, who waits longest first; so a
//! script with waiting reads is one without, with a read more where each comes to its end.
use super::buffers::FIRST_POINTER;
use super::script::Line;
use super::writing::first_command;
use super::*;
use crate::codes::BC_FREE_BUFFER;
use crate::mail::Mailboxes;
use crate::record::{u32_at, u64_at};
use std::collections::HashMap;
use std::fmt::Write as _;

/// What a pointer has that is a parcel's key: such a one scripts use where they name a parcel by who has read it, whatever its pointer is.
pub const KEY: u64 = 1 << 63;
/// A pointer that no buffer has.
const NOWHERE: u64 = 8;
const REFUSED_NOTHING: &str = "refused F12 ";

/// What a line says, and what reads say that it has brought to their end.
#[derive(Debug, Default)]
pub struct Said {
    pub own: String,
    pub others: Vec<(Seat, String)>,
}

/// A request without waiting, and what the player prints of it.
#[derive(Clone, Debug)]
pub struct Plain {
    pub line: String,
    pub told: String,
}

pub struct Play {
    pub space: Space,
    seats: Seat,
    mail: Mailboxes<Line>,
    /// Seats whose reads wait, each with its limit, who waits longest first.
    waiting: Vec<(Seat, u32)>,
    /// How many parcels each seat of a process has read.
    parcels: HashMap<(ProcessId, Seat), u64>,
    /// The requests that the latest line came to.
    pub plain: Vec<Plain>,
}

fn hex(bytes: &[u8]) -> String {
    if bytes.is_empty() {
        return "-".into();
    }
    bytes.iter().fold(String::with_capacity(2 * bytes.len()), |mut text, it| {
        let _ = write!(text, "{it:02x}");
        text
    })
}

/// A stream with the pointer of each BC_FREE_BUFFER changed.
fn with_pointers(stream: &[u8], change: impl Fn(u64) -> u64) -> Vec<u8> {
    let (mut found, mut at) = (stream.to_vec(), 0);
    while let Ok((_, bytes)) = first_command(&stream[at..]) {
        if u32_at(bytes, 0) == BC_FREE_BUFFER {
            found[at + 4..at + 12].copy_from_slice(&change(u64_at(bytes, 4)).to_le_bytes());
        }
        at += bytes.len();
    }
    found
}

/// A request as a line of a script has it.
fn worded(seat: Seat, line: &Line) -> String {
    let words = match line {
        Line::Request(Request::Open { pid, euid, window }) => format!("open {pid} {euid} {window}"),
        Line::Request(Request::Attach { pid }) => format!("attach {pid}"),
        Line::Request(Request::SetManager) => "manager".into(),
        Line::Request(Request::SetSpam(on)) => format!("spam {}", u8::from(*on)),
        Line::Request(Request::ExitThread) => "exitthread".into(),
        Line::Request(Request::ExitProcess) => "exitprocess".into(),
        Line::Read(limit) => format!("read {limit}"),
        Line::Wait(limit) => format!("wait {limit}"),
        Line::Write(stream, area) => format!("write {} {}", hex(stream), hex(area)),
        _ => String::new(),
    };
    format!("{seat} {words}")
}

impl Play {
    pub fn new(seats: Seat, ways: Ways) -> Play {
        Play {
            space: Space::new(ways),
            seats,
            mail: Mailboxes::new(),
            waiting: Vec::new(),
            parcels: HashMap::new(),
            plain: Vec::new(),
        }
    }

    pub fn seats(&self) -> Seat {
        self.seats
    }

    pub fn waits(&self, seat: Seat) -> bool {
        self.waiting.iter().any(|it| it.0 == seat)
    }

    /// What a line comes to.
    pub fn line(&mut self, seat: Seat, line: Line) -> Said {
        self.plain.clear();
        self.space.woken.clear();
        let own = match line {
            Line::Look => self.look(),
            Line::Await(stamp) if self.space.made() >= stamp => "passed".into(),
            Line::Await(_) => "turns".into(),
            Line::Serve => self.serve(),
            Line::Collect => self.mail.fetch(seat, false),
            Line::Withdraw => self.mail.fetch(seat, true),
            _ if self.mail.has(seat) => "idle".into(),
            Line::Post(line) => self.mail.post(seat, *line),
            Line::Wait(limit) => self.wait(seat, limit),
            line => self.asked(seat, line),
        };
        Said { own, others: self.ended_waits() }
    }

    /// A line with parcels called by who has read them, as other drivers can be told of it.
    pub fn keyed(&self, seat: Seat, line: &Line) -> String {
        match line {
            Line::Write(stream, area) => {
                let stream = with_pointers(stream, |it| self.key(seat, it));
                worded(seat, &Line::Write(stream, area.clone()))
            }
            line => worded(seat, line),
        }
    }

    /// What a seat calls the buffer with a pointer, if it may free it.
    fn key(&self, seat: Seat, pointer: u64) -> u64 {
        let process = self.space.threads.get(seat).map_or(0, |it| it.process);
        let buffer = self.space.buffer((process, pointer.wrapping_sub(FIRST_POINTER)));
        buffer.filter(|it| it.is_handed).map_or(pointer, |it| it.key)
    }

    /// The pointer of the buffer that a seat calls so.
    fn pointer(&self, seat: Seat, key: u64) -> u64 {
        if key & KEY == 0 {
            return key;
        }
        let its = self.space.threads.get(seat).and_then(|it| self.space.processes.get(it.process));
        let found = its.and_then(|it| it.buffers.iter().find(|it| it.1.key == key));
        found.map_or(NOWHERE, |it| FIRST_POINTER + it.0)
    }

    fn name_parcel(&mut self, seat: Seat, buffer: BufferId) {
        let count = self.parcels.entry((buffer.0, seat)).or_default();
        let key = KEY | u64::from(seat) << 32 | *count;
        *count += 1;
        self.space.name_buffer(buffer, key);
    }

    // ------------------------------------------------------------ requests

    fn asked(&mut self, seat: Seat, line: Line) -> String {
        let line = match line {
            Line::Write(stream, area) if self.space.threads.has(seat) => {
                Line::Write(with_pointers(&stream, |it| self.pointer(seat, it)), area)
            }
            line => line,
        };
        let told = self.answered(seat, &line);
        self.plain.push(Plain { line: worded(seat, &line), told: told.clone() });
        told
    }

    fn answered(&mut self, seat: Seat, line: &Line) -> String {
        let from = self.space.made();
        let told = match line {
            Line::Request(request) => {
                self.space.begin(from);
                let done = match request {
                    Request::Open { .. } | Request::Attach { .. } => "opened",
                    Request::SetManager | Request::SetSpam(_) => "set",
                    _ => "exited",
                };
                self.space.request(seat, *request).map_or_else(|fault| format!("refused F{fault}"), |()| done.into())
            }
            Line::Read(limit) => self.read(seat, *limit),
            Line::Write(stream, area) => return self.wrote(seat, stream, area),
            _ => return "idle".into(),
        };
        format!("{told} {from} {}", self.space.made())
    }

    fn read(&mut self, seat: Seat, limit: u32) -> String {
        self.space.begin(self.space.made());
        match self.space.read(seat, limit) {
            Ok(got) => {
                if let Some(buffer) = got.buffer {
                    self.name_parcel(seat, buffer);
                }
                format!("got {} {} {}", hex(&got.stream), hex(&got.data), hex(&got.offsets))
            }
            Err(fault) => format!("refused F{fault}"),
        }
    }

    fn wrote(&mut self, seat: Seat, stream: &[u8], area: &[u8]) -> String {
        let from = self.space.made();
        let wrote = match self.space.write(seat, stream, area) {
            Ok(wrote) => wrote,
            Err(fault) => return format!("refused F{fault} {from} {}", self.space.made()),
        };
        let mut told = format!("wrote {} {from} {}", wrote.consumed, self.space.made());
        for (index, note) in &wrote.notes {
            let _ = write!(told, " {index}:N{note}");
        }
        match wrote.stop {
            Some(('E', _)) => told.push_str(" stop EINVAL"),
            Some((letter, number)) => {
                let _ = write!(told, " stop {letter}{number}");
            }
            None => {}
        }
        told
    }

    // ------------------------------------------------------------ mailboxes and the page

    fn serve(&mut self) -> String {
        let posted = self.mail.take_posted();
        let served = posted.len();
        for (seat, line) in posted {
            let told = self.asked(seat, line);
            self.mail.answer(seat, told);
        }
        format!("served {served}")
    }

    fn look(&self) -> String {
        let is_ready = |seat: &Seat| self.space.list_to_read(*seat).is_some();
        let ready: u64 = (0..self.seats).filter(is_ready).map(|it| 1 << it).sum();
        format!("page {} {ready} 0", self.space.made())
    }

    // ------------------------------------------------------------ reads that wait

    fn wait(&mut self, seat: Seat, limit: u32) -> String {
        let told = self.asked(seat, Line::Read(limit));
        if !told.starts_with(REFUSED_NOTHING) {
            return told;
        }
        self.begin_to_wait(seat, limit);
        "waits".into()
    }

    /// A seat that waits already goes on, with another limit.
    fn begin_to_wait(&mut self, seat: Seat, limit: u32) {
        match self.waiting.iter_mut().find(|it| it.0 == seat) {
            Some(waiting) => waiting.1 = limit,
            None => {
                self.waiting.push((seat, limit));
                self.space.begin_to_wait(seat);
            }
        }
    }

    /// Reads that come to their end, one after the other, until none does.
    fn ended_waits(&mut self) -> Vec<(Seat, String)> {
        let mut ended = Vec::new();
        let threads = &self.space.threads;
        self.waiting.retain(|it| threads.has(it.0));
        while let Some((seat, limit)) = self.next_to_read() {
            self.space.end_wait(seat);
            let told = self.asked(seat, Line::Read(limit));
            if told.starts_with(REFUSED_NOTHING) {
                self.begin_to_wait(seat, limit);
            } else {
                ended.push((seat, told));
            }
        }
        ended
    }

    /// Whose read comes to its end next: by the driver, of who was woken, or has something of its own.
    fn next_to_read(&mut self) -> Option<(Seat, u32)> {
        if self.waiting.is_empty() {
            return None;
        }
        let goes_drivers_way = self.space.does(Way::Waiter);
        while goes_drivers_way && !self.space.woken.is_empty() {
            let seat = self.space.woken.remove(0);
            if let Some(at) = self.waiting.iter().position(|it| it.0 == seat) {
                return Some(self.waiting.remove(at));
            }
        }
        let space = &self.space;
        let has_own = |seat| space.threads.get(seat).map_or(false, |it| !it.todo.is_empty());
        let is_due = |seat| space.list_to_read(seat).is_some() && (!goes_drivers_way || has_own(seat));
        let at = self.waiting.iter().position(|it| is_due(it.0))?;
        Some(self.waiting.remove(at))
    }
}
