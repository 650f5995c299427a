// SPDX-License-Identifier: Apache-2.0 OR MIT
//! Which entries are wanted.
use crate::codes::{Payload, Returns, COMMANDS, RETURNS};
use crate::following::{About, Facts, ObjectId};
use crate::journal::{Answer, Entry, Step};
use crate::record::Parcel;
use crate::who::Person;
use clap::Args;
use std::num::ParseIntError;

/// The requests of a script that are no commands.
const REQUESTS: [&str; 7] = ["open", "attach", "manager", "spam", "read", "exitthread", "exitprocess"];

#[derive(Args, Clone, Debug, Default)]
pub struct Selection {
    /// Only entries of this process; repeat it for more
    #[arg(long, value_name = "PID")]
    pub pid: Vec<u32>,
    /// Only entries of this thread, where JOURNAL.who has its name; repeat it for more
    #[arg(long, value_name = "TID")]
    pub tid: Vec<u32>,
    /// Only entries of threads of this name, where JOURNAL.who has their names; repeat it for more
    #[arg(long, value_name = "NAME")]
    pub comm: Vec<String>,
    /// Only entries of this seat: a journal numbers threads by the seats they sit on; repeat it for more
    #[arg(long, value_name = "SEAT")]
    pub seat: Vec<u32>,
    /// Only entries that name this handle: as the target, in a command, in a parcel
    #[arg(long, value_name = "HANDLE")]
    pub handle: Option<u32>,
    /// Only entries that are about this object
    #[arg(long, value_name = "PLACE.INDEX")]
    pub object: Option<ObjectId>,
    /// Only transactions and replies with this code: 7, 0x7 or four letters, as _PNG
    #[arg(long, value_name = "CODE", value_parser = code)]
    pub code: Option<u32>,
    /// Only this command, return or request, as BC_FREE_BUFFER, BR_REPLY, open; repeat it for more
    #[arg(long, value_name = "NAME", value_parser = name, ignore_case = true)]
    pub command: Vec<String>,
    /// Only refused, stopped or noted entries
    #[arg(long)]
    pub refused: bool,
}

/// A code in decimal, in hex, or by its four letters.
pub fn code(word: &str) -> Result<u32, String> {
    let numbers = |it: ParseIntError| format!("{it}: a code is 7, 0x7, or four letters such as _PNG");
    if let Some(hex) = word.strip_prefix("0x") {
        return u32::from_str_radix(hex, 16).map_err(numbers);
    }
    let is_letters = word.len() == 4 && word.bytes().all(|it| it.is_ascii_graphic());
    match word.parse() {
        Err(_) if is_letters => Ok(word.bytes().fold(0, |sum, it| sum << 8 | u32::from(it))),
        parsed => parsed.map_err(numbers),
    }
}

/// All that `--command` takes.
pub fn all_names() -> impl Iterator<Item = &'static str> {
    let codes = COMMANDS.iter().chain(&RETURNS).map(|it| it.name);
    codes.chain(REQUESTS)
}

fn name(word: &str) -> Result<String, String> {
    match all_names().find(|it| it.eq_ignore_ascii_case(word)) {
        Some(name) => Ok(name.into()),
        None => Err(format!(
            "no command, return or request is called so; there are {}",
            all_names().collect::<Vec<_>>().join(", ")
        )),
    }
}

impl Selection {
    /// Whether it leaves anything out.
    pub fn is_any(&self) -> bool {
        let lists = [&self.pid, &self.tid, &self.seat].iter().any(|it| !it.is_empty());
        let names = [&self.comm, &self.command].iter().any(|it| !it.is_empty());
        lists || names || self.handle.is_some() || self.object.is_some() || self.code.is_some() || self.refused
    }

    /// Whether it asks for what lies beside a journal.
    pub fn is_by_name(&self) -> bool {
        !self.tid.is_empty() || !self.comm.is_empty()
    }

    fn names(&self, person: &Person) -> bool {
        (self.tid.is_empty() || person.tid.map_or(false, |it| self.tid.contains(&it)))
            && (self.comm.is_empty() || self.comm.iter().any(|it| **it == *person.comm))
    }

    pub fn wants(&self, entry: &Entry<'_>, facts: &Facts) -> bool {
        (!self.refused || entry.is_refused())
            && (self.pid.is_empty() || is_of(facts, &self.pid))
            && (!self.is_by_name() || facts.person.as_ref().map_or(false, |it| self.names(it)))
            && (self.seat.is_empty() || self.seat.contains(&entry.seat))
            && (self.command.is_empty() || self.command.iter().any(|it| is_called(entry, it)))
            && self.code.map_or(true, |it| has_code(entry, it))
            && self.handle.map_or(true, |it| has_handle(entry, it))
            && self.object.map_or(true, |it| is_about(facts, it))
    }
}

/// Whether a process has one of these pids, in the history or where it ran.
fn is_of(facts: &Facts, pids: &[u32]) -> bool {
    let ran = facts.person.as_ref().map(|it| it.pid);
    facts.pid.into_iter().chain(ran).any(|it| pids.contains(&it))
}

fn is_called(entry: &Entry<'_>, name: &str) -> bool {
    entry.step.name() == name
        || match entry.answer {
            Answer::Got { stream, .. } => Returns(stream).flatten().any(|it| it.code.name == name),
            _ => false,
        }
}

fn has_code(entry: &Entry<'_>, code: u32) -> bool {
    let is_it = |payload: &Payload| matches!(payload, Payload::Record(record) if record.code == code);
    match (&entry.step, entry.answer) {
        (Step::Command { command, .. }, _) => is_it(&command.payload),
        (_, Answer::Got { stream, .. }) => Returns(stream).flatten().any(|it| is_it(&it.payload)),
        _ => false,
    }
}

fn names_handle(parcel: &Parcel<'_>, handle: u32) -> bool {
    parcel.objects().any(|(_, it)| it.map_or(false, |it| it.kind.is_handle() && it.binder as u32 == handle))
}

fn has_handle(entry: &Entry<'_>, handle: u32) -> bool {
    match (&entry.step, entry.answer) {
        (Step::Command { command, parcel, .. }, _) => {
            let is_named = match command.payload {
                Payload::Record(record) => command.code == &COMMANDS[0] && record.handle() == handle,
                Payload::Handle(it) | Payload::HandleCookie(it, _) => it == handle,
                _ => false,
            };
            is_named || parcel.map_or(false, |it| names_handle(&it, handle))
        }
        (_, Answer::Got { parcel, .. }) => names_handle(&parcel, handle),
        _ => false,
    }
}

fn is_about(facts: &Facts, object: ObjectId) -> bool {
    facts.object == Some(object)
        || facts.carried.iter().flatten().any(|it| it.object == object)
        || facts.about.iter().any(|it| match it {
            About::Sent(sent) => sent.target == Some(object),
            About::Object(it) | About::Death(_, it) => *it == object,
            About::Nothing | About::Call(_) => false,
        })
}

#[cfg(test)]
mod tests {
    use super::*;

    #[test]
    fn codes_are_numbers_or_letters() {
        assert_eq!(code("7"), Ok(7));
        assert_eq!(code("0x10"), Ok(16));
        assert_eq!(code("_PNG"), Ok(0x5f50_4e47));
        assert_eq!(code("1234"), Ok(1234));
        assert!(code("_PN").is_err());
        assert!(code("0xfffffffff").is_err());
    }

    #[test]
    fn names_are_found_in_any_case() {
        assert_eq!(name("bc_reply"), Ok("BC_REPLY".into()));
        assert_eq!(name("OPEN"), Ok("open".into()));
        assert!(name("BC_REPLAY").unwrap_err().contains("BC_REPLY,"));
    }
}
