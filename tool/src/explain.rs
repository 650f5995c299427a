// SPDX-License-Identifier: Apache-2.0 OR MIT
//! Why an entry was answered so, with the facts; and what the names of refusals and returns mean.
use crate::arguments::Format;
use crate::codes::*;
use crate::following::{About, Facts, ObjectId, Space, STRONG, WEAK};
use crate::journal::{Answer, Entry, Step};
use crate::json;
use crate::order;
use crate::out::Palette;
use crate::play::Player;
use crate::record::{Flat, Parcel, Record, OBJECT_SIZE};
use crate::refusals::{Kind, Reason};
use crate::rules::{self, Item, Listed, Process, ProcessId, Server, Thread, FIRST_POINTER};
use crate::show::{object_words, put_entry, Style};
use anyhow::{bail, Result};
use serde::Serialize;
use std::io::{self, Write};

/// The rules themselves: what a name means is told in their words.
pub const RULES: &str = include_str!("../../docs/RULES.md");

/// A line of a table without what makes it a table.
pub fn cells(line: &str) -> Vec<String> {
    let plain = |cell: &str| cell.trim().replace('`', "");
    line.trim_matches('|').split('|').map(plain).collect()
}

/// When a reason holds, and what it leaves.
fn meaning(reason: Reason) -> (String, String) {
    let name = format!("| {} |", reason.name());
    let row = RULES.lines().find(|it| it.starts_with(&name)).map(cells).unwrap_or_default();
    let cell = |index: usize| row.get(index).cloned().unwrap_or_default();
    match reason.kind {
        Kind::Fault => (cell(2), cell(3)),
        Kind::Cause => (format!("{}: {}", cell(2), cell(3)), refusal_of(&cell(4))),
        Kind::Note => (
            format!("{}: {}", cell(2), cell(3)),
            "one step, which changes nothing; the commands after it are run".into(),
        ),
    }
}

fn refusal_of(cell: &str) -> String {
    match cell {
        "(a)" => "a Refusal that reads as BR_FAILED_REPLY for a transaction's writer; of a reply the writer reads \
                  BR_TRANSACTION_COMPLETE, the call is closed, and its caller reads BR_FAILED_REPLY"
            .into(),
        other => format!("a Refusal on the writer's own list, which reads as {other}"),
    }
}

/// Returns by which something went wrong, with what they tell and the reasons that lead to them.
static RETURNS_TOLD: [(&str, &str, &str); 6] = [
    (
        "BR_FAILED_REPLY",
        "the transaction was refused, or the call's reply was: the call has no reply",
        "X1 X3 X5 X6 X7 X8 X9 X10 X11 X12 X13 X14 X15",
    ),
    (
        "BR_DEAD_REPLY",
        "there is nobody to be called, or the thread that was to serve the call has ended",
        "X2 X4",
    ),
    (
        "BR_TRANSACTION_COMPLETE",
        "the transaction or reply was taken; so it reads too where a reply was refused, whose caller is told instead",
        "X16",
    ),
    (
        "BR_ONEWAY_SPAM_SUSPECT",
        "the one-way call was taken, and the process's one-way buffers take more than a quarter of the receiver's window",
        "",
    ),
    ("BR_DEAD_BINDER", "the process that owns an object has ended; BC_DEAD_BINDER_DONE answers it", ""),
    ("BR_CLEAR_DEATH_NOTIFICATION_DONE", "a death notification that was cleared is gone", ""),
];

/// What a reason means.
#[derive(Serialize)]
struct ToldReason {
    name: String,
    word: &'static str,
    text: &'static str,
    when: String,
    leaves: String,
}

impl ToldReason {
    fn new(reason: Reason) -> ToldReason {
        let (when, leaves) = meaning(reason);
        ToldReason { name: reason.name(), word: reason.word(), text: reason.text(), when, leaves }
    }
}

/// What a return means by which something went wrong, and the reasons that lead to it.
#[derive(Serialize)]
struct ToldReturn {
    name: &'static str,
    text: &'static str,
    reasons: Vec<String>,
}

fn put_value(to: &mut Vec<u8>, value: &impl Serialize) -> io::Result<()> {
    serde_json::to_writer(&mut *to, value)?;
    to.push(b'\n');
    Ok(())
}

fn put_reason(to: &mut Vec<u8>, reason: &ToldReason) -> io::Result<()> {
    let ToldReason { name, word, text, when, leaves } = reason;
    writeln!(to, "{name} {word}: {text}\nwhen: {when}\nleaves: {leaves}")
}

fn put_return(to: &mut Vec<u8>, it: &ToldReturn) -> io::Result<()> {
    writeln!(to, "{}: {}", it.name, it.text)?;
    for reason in it.reasons.iter().flat_map(|it| Reason::named(it)) {
        writeln!(to, "  {} {}: {}", reason.name(), reason.word(), reason.text())?;
    }
    Ok(())
}

/// What a name means; false where it is none.
pub fn put_name(to: &mut Vec<u8>, format: Format, word: &str) -> io::Result<bool> {
    let reasons = Reason::named(word);
    for (index, reason) in reasons.iter().enumerate() {
        let told = ToldReason::new(*reason);
        if format == Format::Json {
            put_value(to, &told)?;
            continue;
        }
        if index > 0 {
            to.push(b'\n');
        }
        put_reason(to, &told)?;
    }
    let told = RETURNS_TOLD.iter().find(|it| it.0.eq_ignore_ascii_case(word));
    if let Some((name, text, names)) = told {
        let told = ToldReturn { name, text, reasons: names.split_whitespace().map(String::from).collect() };
        match format {
            Format::Json => put_value(to, &told)?,
            Format::Text => put_return(to, &told)?,
        }
    }
    Ok(told.is_some() || !reasons.is_empty())
}

/// What is looked at to tell why: the entry, and the space before it.
struct Case<'a> {
    space: &'a Space,
    entry: &'a Entry<'a>,
    thread: Option<&'a Thread>,
    process: Option<&'a Process>,
    id: ProcessId,
}

impl<'a> Case<'a> {
    fn new(space: &'a Space, entry: &'a Entry<'a>) -> Case<'a> {
        let thread = space.threads.get(entry.seat);
        let id = thread.map_or(0, |it| it.process);
        Case { space, entry, thread, process: space.processes.get(id), id }
    }

    fn pid(&self) -> u32 {
        self.process.map_or(0, |it| it.pid)
    }

    /// All that is known about why it was refused so, as sentences.
    fn facts(&self, reason: Reason) -> Vec<String> {
        match (reason.kind, &self.entry.step) {
            (Kind::Fault, _) => self.of_fault(reason.number),
            (_, Step::Command { command, parcel, .. }) => match command.payload {
                Payload::Record(record) => self.of_cause(reason.number, command, &record, parcel.unwrap_or_default()),
                payload => self.of_note(reason.number, command.code.number, payload),
            },
            _ => Vec::new(),
        }
    }

    fn of_fault(&self, number: u8) -> Vec<String> {
        let opened = |it: &Process| format!("{} (opened at {})", it.pid, it.by.0.unwrap_or(0));
        let pids: Vec<_> = self.space.processes.iter().map(|it| opened(it.1)).collect();
        let live = format!("live processes: {}", if pids.is_empty() { "none".into() } else { pids.join(", ") });
        let seat = self.entry.seat;
        match number {
            4 => vec![format!("seat {seat} has no thread: it never opened or attached, or has ended since")],
            5 => self
                .thread
                .map(|it| format!("seat {seat} has a thread of pid {}, since {}", self.pid(), it.by.0.unwrap_or(0)))
                .into_iter()
                .collect(),
            6 | 9 => vec![live],
            10 => vec![match self.space.manager.and_then(|it| self.space.id_of(it)) {
                Some(it) => format!("the manager is object {}", object_words(self.space, it)),
                None => format!("pid {} has an object with ptr 0 already", self.pid()),
            }],
            12 => self.nothing_to_read(),
            _ => Vec::new(),
        }
    }

    fn nothing_to_read(&self) -> Vec<String> {
        let (thread, process) = match (self.thread, self.process) {
            (Some(thread), Some(process)) => (thread, process),
            _ => return Vec::new(),
        };
        let mut facts = vec![format!("nothing stands on the list of seat {}", self.entry.seat)];
        let waiting = process.todo.len();
        facts.push(match (thread.is_looping, self.space.innermost(self.entry.seat).map(|it| it.0)) {
            (false, _) => format!(
                "it isn't in the loop, so it doesn't read the list of pid {}, on which {waiting} stand",
                process.pid
            ),
            (true, Some(call)) => format!(
                "it is in the call at {call}, so it doesn't read the list of pid {}, on which {waiting} stand",
                process.pid
            ),
            (true, None) => format!("nothing stands on the list of pid {}", process.pid),
        });
        facts
    }

    fn of_cause(&self, number: u8, command: &Message, record: &Record, parcel: Parcel<'_>) -> Vec<String> {
        match number {
            1 => self.of_handle(record.handle()),
            2 => vec!["handle 0 is the context manager, and no process is it now".into()],
            3 => vec![format!("pid {} is the context manager's own process", self.pid())],
            4 => self
                .object_of(record.handle())
                .into_iter()
                .map(|it| {
                    format!(
                        "handle {} is object {}, whose owner has ended",
                        record.handle(),
                        object_words(self.space, it)
                    )
                })
                .collect(),
            5 | 15 => self.open_calls(),
            6 => self.unread_answers(),
            7 | 8 => vec![format!(
                "the record says data_size {} and offsets_size {}; the step has {} and {} bytes",
                record.data_size,
                record.offsets_size,
                parcel.data.len(),
                parcel.offsets.len()
            )],
            9 | 10 => walk_fault(parcel),
            11 => self.other_cookie(parcel),
            12 => self.not_held(parcel),
            13 | 14 => self.room(command, record),
            16 => self.open_calls(),
            _ => Vec::new(),
        }
    }

    fn words(&self, object: rules::ObjectId) -> String {
        self.space.id_of(object).map_or_else(String::new, |it| object_words(self.space, it))
    }

    /// The process's own object with a ptr.
    fn own(&self, ptr: u64) -> Option<(ObjectId, &'a rules::Object)> {
        let object = self.space.objects.get((self.id, ptr))?;
        Some((ObjectId::new(object.made), object))
    }

    fn object_of(&self, handle: u32) -> Option<ObjectId> {
        self.space.addressed(self.id, handle)
    }

    /// What the process knows by a handle, or knew.
    fn of_handle(&self, handle: u32) -> Vec<String> {
        let process = match self.process {
            Some(process) => process,
            None => return Vec::new(),
        };
        let pid = process.pid;
        let mut facts = Vec::new();
        match (process.names.get(handle), self.space.gone(self.id, handle)) {
            (Some(name), _) => facts.push(format!(
                "pid {pid} names object {} by handle {handle} since {}, {}; it asked for {} strong and {} weak references",
                self.words(name.object), name.by.0.unwrap_or(0),
                if name.count(STRONG) > 0 { "strongly" } else { "only weakly" }, name.asked[STRONG], name.asked[WEAK]
            )),
            (None, Some(gone)) => facts.push(format!(
                "pid {pid} had handle {handle} for object {} from {} until it let go of it at {}",
                gone.object, gone.since, gone.at
            )),
            (None, None) => facts.push(format!("pid {pid} never had handle {handle}")),
        }
        let has: Vec<_> = process
            .names
            .iter()
            .take(32)
            .map(|(handle, name)| format!("{handle} ({})", self.words(name.object)))
            .collect();
        let more = process.names.len().saturating_sub(has.len());
        let list = if has.is_empty() { "none".into() } else { has.join(", ") };
        facts.push(format!(
            "its handles are: {list}{}",
            if more > 0 { format!(", and {more} more") } else { String::new() }
        ));
        facts
    }

    fn open_calls(&self) -> Vec<String> {
        let calls = self.space.calls_of(self.entry.seat);
        if calls.is_empty() {
            return vec!["the thread takes part in no open call".into()];
        }
        let told = |(depth, place): (usize, &u64)| {
            let frame = self.space.frames.get(*place)?;
            let inner = if depth == 0 { "innermost" } else { "around it" };
            let server = match frame.server {
                Server::Seat(seat) if seat == self.entry.seat => "which it serves".into(),
                Server::Seat(seat) => format!("in which it waits for seat {seat}"),
                Server::Pending => "in which it waits, and which nobody has read".into(),
                Server::Gone => "in which it waits, and whose server is gone".into(),
            };
            let gone = if frame.caller.is_none() { ", whose calling thread has ended" } else { "" };
            Some(format!("{inner}: the call at {place} by pid {}{gone}, {server}", frame.caller_pid))
        };
        calls.iter().rev().enumerate().filter_map(told).collect()
    }

    fn unread_answers(&self) -> Vec<String> {
        let made = |buffer| self.space.buffer(buffer).map_or(0, |it| it.sent);
        let told = |it: &Listed| match it.item {
            Item::Call(buffer) => Some(format!("unread on its list: the call at {}", made(buffer))),
            Item::Reply(buffer) => Some(format!("unread on its list: the reply at {}", made(buffer))),
            Item::Verdict(reads) => {
                let call = it.call.0.unwrap_or(0);
                Some(format!("unread on its list: {} for the call at {call}", return_name(reads)))
            }
            _ => None,
        };
        self.thread.map_or(Vec::new(), |it| it.todo.iter().filter_map(told).collect())
    }

    fn other_cookie(&self, parcel: Parcel<'_>) -> Vec<String> {
        let mut sent = std::collections::HashMap::new();
        for flat in parcel.objects().filter_map(|it| it.1).filter(|it| it.kind.is_binder()) {
            let known = self.own(flat.binder);
            let Flat { at, binder, cookie, .. } = flat;
            let here = format!("the object at {at:#x} has ptr {binder:#x} with cookie {cookie:#x}");
            if let Some((id, object)) = known.filter(|it| it.1.cookie != cookie) {
                return vec![format!("{here}; object {id} has that ptr with cookie {:#x}", object.cookie)];
            }
            if *sent.entry(binder).or_insert(cookie) != cookie {
                return vec![format!("{here}; an earlier one of the parcel has it with another")];
            }
        }
        Vec::new()
    }

    fn not_held(&self, parcel: Parcel<'_>) -> Vec<String> {
        let names = self.process.map(|it| &it.names);
        let fails = |flat: &Flat| {
            let name = names.and_then(|it| it.get(flat.binder as u32));
            flat.kind.is_handle() && !name.map_or(false, |it| it.count(STRONG) > 0 || !flat.kind.is_strong())
        };
        let flat = match parcel.objects().filter_map(|it| it.1).find(fails) {
            Some(flat) => flat,
            None => return Vec::new(),
        };
        let mut facts = vec![format!("the object at {:#x} is {} {}", flat.at, flat.kind.name(), flat.binder as u32)];
        facts.extend(self.of_handle(flat.binder as u32));
        facts
    }

    fn receiver(&self, command: &Message, record: &Record) -> Option<&'a Process> {
        let owner = if command.code.number == BC_TRANSACTION {
            self.space.object(self.object_of(record.handle())?)?.0 .0
        } else {
            let caller = self.space.innermost(self.entry.seat)?.1.caller?;
            self.space.threads.get(caller)?.process
        };
        self.space.processes.get(owner)
    }

    fn room(&self, command: &Message, record: &Record) -> Vec<String> {
        let process = match self.receiver(command, record) {
            Some(process) => process,
            None => return Vec::new(),
        };
        let pid = process.pid;
        let mut facts = vec![format!(
            "the parcel needs {} bytes; of the {} of pid {pid}'s window {} are taken by {} buffers, and its largest hole has {}",
            record.needed(), process.window, process.used(), process.buffers.len(), process.largest_hole()
        )];
        if record.is_one_way() && command.code.number == BC_TRANSACTION {
            facts.push(format!(
                "one-way buffers take {} of them, and may take {}",
                process.one_way(),
                process.window / 2
            ));
        }
        let read = |(at, it): (u64, &rules::Buffer)| Some((it.read()?, FIRST_POINTER + at, it.sender_pid));
        let mut read: Vec<_> = process.buffers.iter().filter_map(read).collect();
        read.sort_unstable();
        facts.extend(read.first().map(|(at, pointer, from)| {
            format!("its oldest buffer that was read and isn't freed: {pointer:#x}, read at {at}, from pid {from}")
        }));
        facts
    }

    fn of_note(&self, number: u8, code: u32, payload: Payload) -> Vec<String> {
        match payload {
            Payload::Handle(handle) | Payload::HandleCookie(handle, _) => {
                let mut facts = self.of_handle(handle);
                facts.extend(self.death_of(number, handle));
                facts
            }
            Payload::Buffer(pointer) => self.of_buffer(pointer),
            Payload::PtrCookie(ptr, cookie) => self.of_object(code, ptr, cookie),
            Payload::Cookie(cookie) => self.told_deaths(cookie),
            _ => Vec::new(),
        }
    }

    fn death_of(&self, number: u8, handle: u32) -> Option<String> {
        if !matches!(number, 9 | 10) {
            return None;
        }
        let process = self.process?;
        let number = process.names.get(handle)?.death;
        Some(match process.deaths.iter().find(|it| Some(it.number) == number) {
            Some(it) => {
                let (made, cookie) = (it.number, it.cookie);
                format!("on it stands the notification asked for at {made} with cookie {cookie:#x}")
            }
            None => "no uncleared notification stands on it".into(),
        })
    }

    fn of_buffer(&self, pointer: u64) -> Vec<String> {
        let buffer = self.space.buffer((self.id, pointer.wrapping_sub(FIRST_POINTER)));
        vec![match (buffer, self.space.freed(self.id, pointer)) {
            (Some(it), _) => format!("the buffer was made at {} and hasn't been read", it.sent),
            (None, Some(at)) => format!("the latest buffer with that pointer was freed at {at}"),
            (None, None) => "no buffer of this window ever had that pointer".into(),
        }]
    }

    fn of_object(&self, code: u32, ptr: u64, cookie: u64) -> Vec<String> {
        let strength = if code == BC_ACQUIRE_DONE { STRONG } else { WEAK };
        let process = match self.process {
            Some(process) => process,
            None => return Vec::new(),
        };
        vec![match self.own(ptr) {
            Some((id, it)) if it.cookie != cookie => format!("object {id} has that ptr, with cookie {:#x}", it.cookie),
            Some((id, it)) if it.handshake[strength] => format!("object {id} waits for it"),
            Some((id, _)) => {
                format!("object {id} has both; it was told nothing that this acknowledges, or was answered already")
            }
            None => format!("pid {} has no object with that ptr", process.pid),
        }]
    }

    fn told_deaths(&self, cookie: u64) -> Vec<String> {
        let deaths = match self.process {
            Some(process) => &process.deaths,
            None => return Vec::new(),
        };
        let told = |it: &rules::Death| format!("the notification asked for at {} is {}", it.number, it.phase.name());
        let told: Vec<_> = deaths.iter().filter(|it| it.cookie == cookie).map(told).collect();
        if told.is_empty() {
            vec!["no notification of this process has that cookie".into()]
        } else {
            told
        }
    }
}

/// The first offset of a parcel that is bad, and why.
fn walk_fault(parcel: Parcel<'_>) -> Vec<String> {
    let mut end = 0;
    for (index, (at, flat)) in parcel.objects().enumerate() {
        let room = (parcel.data.len() as u64).checked_sub(at).map_or(false, |it| it >= OBJECT_SIZE as u64);
        let why = if at % 4 != 0 {
            "isn't divisible by 4".into()
        } else if at < end {
            format!("lies before {end:#x}, where the object before it ends")
        } else if !room {
            format!("leaves no {OBJECT_SIZE} bytes of the {} of data", parcel.data.len())
        } else {
            match flat {
                None => format!("finds the type {:#x}, which is none", crate::record::u32_at(parcel.data, at as usize)),
                Some(it) if it.kind.is_binder() || it.kind.is_handle() => {
                    end = at + OBJECT_SIZE as u64;
                    continue;
                }
                Some(it) => format!("finds an object of the type {}", it.kind.name()),
            }
        };
        return vec![format!("offset {index}, {at:#x}, {why}")];
    }
    Vec::new()
}

/// The places that an entry's returns lead back to.
fn sources(entry: &Entry<'_>, facts: &Facts) -> Vec<u64> {
    let stream = match entry.answer {
        Answer::Got { stream, .. } => stream,
        _ => return Vec::new(),
    };
    let returns = Returns(stream).flatten().zip(&facts.about);
    let back = |(message, about): (Message, &About)| match about {
        About::Call(place) if message.code.number != BR_TRANSACTION_COMPLETE => Some(*place),
        _ => None,
    };
    returns.filter_map(back).collect()
}

/// A reason that was looked at, and whether it held.
#[derive(Serialize)]
struct Looked {
    reason: String,
    holds: bool,
}

/// Why such an answer is given: what the rules look at for such a step, up to what held, where they say so, and the facts.
#[derive(Serialize)]
struct Why {
    looked: Vec<Looked>,
    section: &'static str,
    facts: Vec<String>,
    #[serde(skip_serializing_if = "Option::is_none")]
    holds: Option<ToldReason>,
}

impl Why {
    fn new(case: &Case<'_>, answer: &Answer<'_>) -> Why {
        let step = &case.entry.step;
        let held = if let Answer::Refused(reason) = answer { Some(*reason) } else { None };
        let looked = order::looked(step, held).into_iter();
        Why {
            looked: looked.map(|it| Looked { reason: it.name(), holds: Some(it) == held }).collect(),
            section: order::section(step),
            facts: held.map_or_else(Vec::new, |it| case.facts(it)),
            holds: held.map(ToldReason::new),
        }
    }

    fn put(&self, to: &mut Vec<u8>, style: &Style) -> io::Result<()> {
        let word = |it: &Looked| format!("{} {}", it.reason, if it.holds { "yes" } else { "no" });
        let looked: Vec<_> = self.looked.iter().map(word).collect();
        let refusals = if self.holds.is_some() { ", Refusals" } else { "" };
        writeln!(to, "    looked at, up to the first that holds: {}", looked.join(", "))?;
        writeln!(to, "    rules: {}{refusals}", self.section)?;
        let (about, plain) = (&style.palette.about, &style.palette.plain);
        self.facts.iter().try_for_each(|it| writeln!(to, "    {about}{it}{plain}"))?;
        match &self.holds {
            Some(it) => writeln!(to, "    {} holds: {}\n    it leaves: {}", it.name, it.when, it.leaves),
            None => Ok(()),
        }
    }
}

/// How an entry was judged.
enum Judged {
    NotAsked,
    /// Nothing can judge, for this reason.
    Not(String),
    Lawful,
    Unlawful,
    /// An earlier entry, at this place, isn't lawful, so that nothing is known of this one.
    Behind(u64),
}

impl Judged {
    fn put(&self, to: &mut Vec<u8>, style: &Style) -> io::Result<()> {
        let Palette { refused, plain, .. } = &style.palette;
        match self {
            Judged::NotAsked | Judged::Unlawful => Ok(()),
            Judged::Not(why) => writeln!(to, "    not judged: {why}"),
            Judged::Lawful => writeln!(to, "    lawful: it follows from the entries before it, and so do they"),
            Judged::Behind(first) => {
                writeln!(
                    to,
                    "    {refused}not judged:{plain} already entry {first} doesn't follow from those before it"
                )
            }
        }
    }
}

/// What is told of an entry beside it. `lawful` is null where it wasn't judged.
#[derive(Serialize)]
struct ToldWhy {
    #[serde(flatten)]
    why: Option<Why>,
    lawful: Option<bool>,
}

/// How things are told, and of which journal.
pub struct Telling<'a> {
    pub style: &'a Style,
    pub format: Format,
    pub path: &'a str,
}

impl Telling<'_> {
    /// One entry with why it was answered so; gives the places that it leads back to. Where the entry was judged and isn't lawful,
    /// told is why the rules give another answer.
    fn put_place(&self, to: &mut Vec<u8>, player: &mut Player, place: u64, asked: Judged) -> Result<Vec<u64>> {
        player.until(place)?;
        let mut space = player.space.clone();
        let mut known = Facts::default();
        let entry = match player.source.next()? {
            Some(entry) => entry,
            None => bail!("{}: there is no place {place}: it has {place} entries", self.path),
        };
        let given = player.judge.as_mut().map(|it| it.judged(&entry)).transpose()?.flatten();
        let judged = match (asked, player.unlawful) {
            (Judged::Lawful, Some(first)) => Judged::Behind(first),
            (Judged::Lawful, None) if given.is_some() => Judged::Unlawful,
            (asked, _) => asked,
        };
        let answer = given.as_ref().map_or(Some(entry.answer), |it| it.answer());
        let why = answer.map(|it| Why::new(&Case::new(&space, &entry), &it));
        space.follow_entry(&entry, &mut known);
        player.beside.tell(place, entry.seat, &mut known);
        known.given = given.map(Box::new);
        if self.format == Format::Json {
            json::put_entry(to, self.style.bytes, &entry, &space, &known)?;
            let lawful = match judged {
                Judged::Lawful => Some(true),
                Judged::Unlawful => Some(false),
                _ => None,
            };
            put_value(to, &ToldWhy { why, lawful })?;
        } else {
            put_entry(to, self.style, &entry, &space, &known)?;
            why.map_or(Ok(()), |it| it.put(to, self.style))?;
            judged.put(to, self.style)?;
        }
        Ok(sources(&entry, &known))
    }

    /// Why the entry at a place was answered so, and those before it that it comes from.
    pub fn put_entry_at(&self, to: &mut Vec<u8>, place: u64) -> Result<()> {
        let mut player = Player::open(self.path, false)?;
        // Without the library it is explained all the same.
        let asked = player.judge().map_or_else(|it| Judged::Not(format!("{it:#}")), |()| Judged::Lawful);
        for source in self.put_place(to, &mut player, place, asked)? {
            if self.format == Format::Text {
                writeln!(to, "it comes from")?;
            }
            self.put_place(to, &mut Player::open(self.path, false)?, source, Judged::NotAsked)?;
        }
        Ok(())
    }

    /// Whether a journal's entries are a history; of the first that doesn't follow, what the rules give in its place, and why.
    pub fn put_verdict(&self, to: &mut Vec<u8>) -> Result<()> {
        let mut player = Player::open(self.path, false)?;
        player.judge()?;
        while player.unlawful.is_none() && player.next(|| Ok(()))?.is_some() {}
        match player.unlawful {
            Some(place) if self.path != "-" => {
                let mut again = Player::open(self.path, false)?;
                again.judge()?;
                self.put_place(to, &mut again, place, Judged::Lawful)?;
            }
            Some(_) => {}
            None => {
                player.ended(Default::default())?;
                let count = player.source.place();
                match self.format {
                    Format::Json => put_value(to, &serde_json::json!({ "lawful": true, "entries": count }))?,
                    Format::Text => writeln!(to, "lawful: all {count} entries follow from those before them")?,
                }
            }
        }
        player.check_lawful()
    }
}

#[cfg(test)]
mod tests {
    use super::*;

    #[test]
    fn every_reason_has_its_row_in_the_rules() {
        for reason in Reason::all() {
            let (when, leaves) = meaning(reason);
            assert!(when.len() > 8 && leaves.len() > 4, "{}: {when}: {leaves}", reason.name());
            assert!(RULES.contains(&format!("| {} | {} |", reason.name(), reason.word())), "{}", reason.name());
        }
    }

    #[test]
    fn the_first_bad_offset_is_told() {
        let data = [0; 24];
        let offsets = |all: &[u64]| all.iter().flat_map(|it| it.to_le_bytes()).collect::<Vec<u8>>();
        let told = |all: &[u64]| walk_fault(Parcel { data: &data, offsets: &offsets(all) }).join("");
        assert_eq!(told(&[2]), "offset 0, 0x2, isn't divisible by 4");
        assert_eq!(told(&[4]), "offset 0, 0x4, leaves no 24 bytes of the 24 of data");
        assert_eq!(told(&[0]), "offset 0, 0x0, finds the type 0x0, which is none");
        assert_eq!(told(&[u64::MAX - 3]), "offset 0, 0xfffffffffffffffc, leaves no 24 bytes of the 24 of data");
    }
}
