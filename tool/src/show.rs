// SPDX-License-Identifier: Apache-2.0 OR MIT
//! Entries as lines for people.
use crate::aidl;
use crate::codes::{Message, Payload, Returns, Unread, BC_TRANSACTION, BR_TRANSACTION};
use crate::following::{About, Carried, Facts, ObjectId, Sent, Space};
use crate::journal::{Answer, Entry, Step};
use crate::judge::Given;
use crate::out::Palette;
use crate::parcel;
use crate::record::{Flat, Parcel, Record, FLAGS, OBJECT_SIZE};
use crate::times::duration_words;
use crate::wrapped::Wrapped;
use std::io::{self, Write};

type Lines = Vec<u8>;

/// How entries are printed.
#[derive(Clone, Debug, Default)]
pub struct Style {
    pub palette: Palette,
    /// How many bytes of a parcel are dumped, and how many of them in a line.
    pub bytes: usize,
    pub row: usize,
}

/// The words for an object, as `3.0 "manager" of pid 100`.
pub fn object_words(space: &Space, object: ObjectId) -> String {
    match space.object(object) {
        Some((_, it)) => match space.name_of(object) {
            Some(name) => format!("{object} \"{name}\" of pid {}", it.owner_pid),
            None => format!("{object} of pid {}", it.owner_pid),
        },
        None => object.to_string(),
    }
}

/// Behind a pid or a seat: ` (tid 815 "sensors")`, and the system's pid where the history has another one.
pub fn person_words(pid: u32, tid: Option<u32>, comm: &str, process: Option<u32>) -> String {
    let pid = if process == Some(pid) { String::new() } else { format!("pid {pid} ") };
    let tid = tid.map_or(String::new(), |it| format!("tid {it} "));
    format!(" ({pid}{tid}{comm:?})")
}

/// A transaction's or a reply's code, with its letters.
pub fn code_words(code: u32) -> String {
    match parcel::letters(code) {
        Some(letters) => format!("{code:#x} '{letters}'"),
        None => format!("{code:#x}"),
    }
}

/// The same, with the method's name behind it where that is known.
pub fn method_code_words(interface: Option<&str>, code: u32) -> String {
    let name = aidl::name(interface, code).map_or(String::new(), |it| format!(" {it}"));
    format!("{}{name}", code_words(code))
}

/// One entry with all that belongs to it.
pub fn put_entry(to: &mut Lines, style: &Style, entry: &Entry<'_>, space: &Space, facts: &Facts) -> io::Result<()> {
    put_line(to, style, entry, space, facts)?;
    match (&entry.step, &entry.answer) {
        (Step::Command { command, parcel: Some(parcel), .. }, _) => {
            let (sender, receiver) = (facts.pid, facts.receiver);
            Shown { style, space, facts, indent: 4, code: command.record().map(|it| it.code), sender, receiver }
                .put(to, parcel)?;
        }
        (_, Answer::Got { stream, parcel }) => put_returns(to, style, stream, parcel, space, facts)?,
        _ => {}
    }
    facts.given.as_ref().map_or(Ok(()), |it| put_given(to, style, it, &entry.answer, space))
}

/// That an entry doesn't follow from those before it, and what the rules give in its place.
pub fn put_given(to: &mut Lines, style: &Style, given: &Given, recorded: &Answer<'_>, space: &Space) -> io::Result<()> {
    let Palette { refused, plain, .. } = &style.palette;
    write!(to, "    {refused}unlawful:{plain} it doesn't follow from the entries before it, by which it is")?;
    match given.answer() {
        Some(answer) => put_answer(to, style, &answer)?,
        None => writeln!(to, " no step at all")?,
    }
    if let Some(Answer::Got { stream, parcel }) = given.answer() {
        put_returns(to, style, stream, &parcel, space, &Facts::default())?;
    }
    let differences = given.differences(recorded);
    differences.iter().try_for_each(|(name, from)| writeln!(to, "    the {name} differ from byte {from} on"))
}

/// Where a line begins: the place, the time, who it was.
fn put_head(to: &mut Lines, style: &Style, entry: &Entry<'_>, facts: &Facts) -> io::Result<()> {
    let Palette { place, about, plain, .. } = &style.palette;
    write!(to, "{place}{}{plain} ", entry.place)?;
    if let Some(time) = facts.time {
        write!(to, "{place}{}{plain} ", time.of_day())?;
    }
    write!(to, "seat {} pid ", entry.seat)?;
    match facts.pid {
        Some(pid) => write!(to, "{pid}")?,
        None => to.push(b'-'),
    }
    match &facts.person {
        Some(it) => write!(to, "{about}{}{plain} ", person_words(it.pid, it.tid, &it.comm, facts.pid)),
        None => write!(to, " "),
    }
}

/// The first line of an entry, which says all but what it read and its parcel.
pub fn put_line(to: &mut Lines, style: &Style, entry: &Entry<'_>, space: &Space, facts: &Facts) -> io::Result<()> {
    let Palette { name, plain, .. } = &style.palette;
    put_head(to, style, entry, facts)?;
    to.extend(name.as_bytes());
    match &entry.step {
        Step::Open { pid, euid, window } => write!(to, "open{plain} pid {pid} euid {euid} window {window}")?,
        Step::Attach { pid } => write!(to, "attach{plain} pid {pid}")?,
        Step::Read { limit } => write!(to, "read{plain} limit {limit}")?,
        Step::Spam { on } => write!(to, "spam{plain} {}", if *on { "on" } else { "off" })?,
        Step::Command { command, .. } => {
            write!(to, "{}{plain}", command.code.name)?;
            put_command(to, style, command, space, facts)?;
        }
        other => write!(to, "{}{plain}", other.name())?,
    }
    put_answer(to, style, &entry.answer)
}

/// What was answered, behind what was done.
fn put_answer(to: &mut Lines, style: &Style, answer: &Answer<'_>) -> io::Result<()> {
    let Palette { refused, plain, .. } = &style.palette;
    match answer {
        Answer::Opened => to.extend(b": opened\n"),
        Answer::Set => to.extend(b": set\n"),
        Answer::Exited => to.extend(b": exited\n"),
        Answer::Accepted => to.extend(b": accepted\n"),
        Answer::Got { stream, .. } => writeln!(to, ": got {}", stream.len())?,
        Answer::Refused(it) => {
            let how = match it.kind {
                crate::refusals::Kind::Fault => "refused",
                crate::refusals::Kind::Cause => "stopped",
                crate::refusals::Kind::Note => "noted",
            };
            let (letter, number) = (it.kind.letter(), it.number);
            writeln!(to, ": {refused}{how} {letter}{number} {}: {}{plain}", it.word(), it.text())?;
        }
    }
    Ok(())
}

fn put_about(to: &mut Lines, style: &Style, space: &Space, object: Option<ObjectId>) -> io::Result<()> {
    let Palette { about, plain, .. } = &style.palette;
    match object {
        Some(object) => write!(to, " {about}({}){plain}", object_words(space, object)),
        None => Ok(()),
    }
}

fn put_command(to: &mut Lines, style: &Style, command: &Message, space: &Space, facts: &Facts) -> io::Result<()> {
    match command.payload {
        Payload::Nothing => Ok(()),
        Payload::Record(record) if command.code.number == BC_TRANSACTION => {
            write!(to, " handle {}", record.handle())?;
            put_about(to, style, space, facts.object)?;
            write!(to, " cookie {:#x}", record.cookie)?;
            put_record(to, &record)
        }
        Payload::Record(record) => {
            let Palette { about, plain, .. } = &style.palette;
            if let (Some(call), Some((seat, pid))) = (facts.answers, facts.caller) {
                write!(to, " {about}(to the call at {call} by pid {pid} seat {seat}){plain}")?;
            }
            put_record(to, &record)
        }
        Payload::Buffer(buffer) => {
            write!(to, " buffer {buffer:#x}")?;
            facts.about.iter().try_for_each(|it| put_origin(to, style, it, None, space))
        }
        Payload::Handle(handle) => {
            write!(to, " handle {handle}")?;
            put_about(to, style, space, facts.object)
        }
        Payload::HandleCookie(handle, cookie) => {
            write!(to, " handle {handle}")?;
            put_about(to, style, space, facts.object)?;
            write!(to, " cookie {cookie:#x}")
        }
        Payload::PtrCookie(ptr, cookie) => {
            write!(to, " ptr {ptr:#x} cookie {cookie:#x}")?;
            put_about(to, style, space, facts.object)
        }
        Payload::Cookie(cookie) => {
            write!(to, " cookie {cookie:#x}")?;
            put_about(to, style, space, facts.object)
        }
    }
}

fn put_record(to: &mut Lines, record: &Record) -> io::Result<()> {
    write!(to, " code {:#x}", record.code)?;
    if let Some(letters) = parcel::letters(record.code) {
        write!(to, " '{letters}'")?;
    }
    write!(to, " flags {:#x}", record.flags)?;
    for (_, name) in FLAGS.iter().filter(|it| record.flags & it.0 != 0) {
        to.push(b' ');
        to.extend(name.as_bytes());
    }
    write!(to, " data_size {} offsets_size {}", record.data_size, record.offsets_size)
}

/// What a return is about, in brackets, and how long ago the call was made.
fn put_origin(to: &mut Lines, style: &Style, about: &About, age: Option<u64>, space: &Space) -> io::Result<()> {
    let Palette { about: colour, plain, .. } = &style.palette;
    let age = age.map_or(String::new(), |it| format!(", {} ago", duration_words(it)));
    match about {
        About::Nothing => Ok(()),
        About::Sent(sent) => {
            write!(to, " {colour}(")?;
            put_sent(to, sent, space)?;
            write!(to, "{age}){plain}")
        }
        About::Call(place) => write!(to, " {colour}(for {place}{age}){plain}"),
        About::Object(object) => put_about(to, style, space, Some(*object)),
        About::Death(made, object) => {
            write!(to, " {colour}({}, asked for at {made}){plain}", object_words(space, *object))
        }
    }
}

fn put_sent(to: &mut Lines, sent: &Sent, space: &Space) -> io::Result<()> {
    let Sent { made, pid, seat, .. } = sent;
    match (sent.answers, sent.target) {
        (Some(call), _) => write!(to, "the reply at {made} by pid {pid} seat {seat} to the call at {call}"),
        (None, Some(target)) => {
            write!(to, "the call at {made} by pid {pid} seat {seat} on {}", object_words(space, target))
        }
        (None, None) => write!(to, "the call at {made} by pid {pid} seat {seat}"),
    }
}

fn put_returns(
    to: &mut Lines,
    style: &Style,
    stream: &[u8],
    parcel: &Parcel<'_>,
    space: &Space,
    facts: &Facts,
) -> io::Result<()> {
    for (index, message) in Returns(stream).enumerate() {
        let about = facts.about.get(index).unwrap_or(&About::Nothing);
        let message = match message {
            Ok(message) => message,
            Err(unread) => {
                put_unread(to, unread)?;
                continue;
            }
        };
        put_return(to, style, &message)?;
        put_origin(to, style, about, facts.ages.get(index).copied().flatten(), space)?;
        to.push(b'\n');
        if let Some(code) = message.record().map(|it| it.code) {
            let sender = if let About::Sent(sent) = about { Some(sent.pid) } else { None };
            Shown { style, space, facts, indent: 8, code: Some(code), sender, receiver: facts.pid }.put(to, parcel)?;
        }
    }
    Ok(())
}

fn put_unread(to: &mut Lines, unread: Unread) -> io::Result<()> {
    match unread {
        Unread::Short => writeln!(to, "    the beginning of a return that isn't all there"),
        Unread::Unknown(code) => writeln!(to, "    {code:#x}, which is no return"),
    }
}

fn put_return(to: &mut Lines, style: &Style, message: &Message) -> io::Result<()> {
    let Palette { name, plain, .. } = &style.palette;
    write!(to, "    {name}{}{plain}", message.code.name)?;
    match message.payload {
        Payload::Record(record) => {
            if message.code.number == BR_TRANSACTION {
                write!(to, " ptr {:#x} cookie {:#x}", record.target, record.cookie)?;
            }
            put_record(to, &record)?;
            let Record { sender_pid, sender_euid, buffer, .. } = record;
            write!(to, " sender_pid {sender_pid} sender_euid {sender_euid} buffer {buffer:#x}")
        }
        Payload::PtrCookie(ptr, cookie) => write!(to, " ptr {ptr:#x} cookie {cookie:#x}"),
        Payload::Cookie(cookie) => write!(to, " cookie {cookie:#x}"),
        _ => Ok(()),
    }
}

/// A parcel that is printed: how, and between whom.
struct Shown<'a> {
    style: &'a Style,
    space: &'a Space,
    facts: &'a Facts,
    indent: usize,
    /// The code of a call.
    code: Option<u32>,
    /// The pids of who sent it and of whom it is for.
    sender: Option<u32>,
    receiver: Option<u32>,
}

impl Shown<'_> {
    /// What the method is called, and was called with, where that is known.
    fn method_words(&self, interface: &str, parcel: &Parcel<'_>) -> String {
        let code = match self.code {
            Some(code) => code,
            None => return String::new(),
        };
        let arguments = aidl::arguments(code, parcel.data).unwrap_or_default();
        aidl::name(Some(interface), code).map_or(String::new(), |it| format!(", method {it}{arguments}"))
    }

    fn put(&self, to: &mut Lines, parcel: &Parcel<'_>) -> io::Result<()> {
        if self.style.bytes == 0 || parcel.data.is_empty() && parcel.offsets.is_empty() {
            return Ok(());
        }
        let Palette { text: colour, plain, .. } = &self.style.palette;
        let indent = self.indent;
        let token = parcel::token(parcel.data);
        if let Some(token) = &token {
            writeln!(
                to,
                "{:indent$}interface {colour}{}{plain}{}",
                "",
                token.text,
                self.method_words(&token.text, parcel)
            )?;
        }
        for text in parcel::texts(parcel.data, token.map_or(0, |it| it.end), &spans(parcel)) {
            writeln!(to, "{:indent$}text at {:#x}: {colour}{:?}{plain}", "", text.at, text.text)?;
        }
        for (index, (at, flat)) in parcel.objects().enumerate() {
            let known = self.facts.carried.get(index).copied().flatten();
            write!(to, "{:indent$}object at {at:#x}: ", "")?;
            match flat {
                Some(flat) => self.put_object(to, &flat, known)?,
                None => writeln!(to, "none that is known stands there")?,
            }
        }
        if let Some(wrapped) = Wrapped::read(parcel) {
            self.put_wrapped(to, &wrapped)?;
        }
        parcel::put_dump(to, indent, self.style.row, parcel.data, self.style.bytes);
        Ok(())
    }

    /// What a client's own parcel has that the engine's hasn't.
    fn put_wrapped(&self, to: &mut Lines, wrapped: &Wrapped<'_>) -> io::Result<()> {
        let indent = self.indent;
        let Wrapped { data_size, offsets_size, buffers_size, descriptors, euid, .. } = wrapped;
        write!(to, "{:indent$}wrapped by the daemon: {data_size} bytes of data, {} objects, ", "", offsets_size / 8)?;
        writeln!(to, "{buffers_size} bytes of buffers, {descriptors} descriptors, euid {euid}")?;
        for it in wrapped.beside() {
            writeln!(to, "{:indent$}object at {:#x}: {} {}", "", it.at, it.kind, it.told)?;
        }
        Ok(())
    }

    fn put_object(&self, to: &mut Lines, flat: &Flat, known: Option<Carried>) -> io::Result<()> {
        let Palette { about, plain, .. } = &self.style.palette;
        write!(to, "{}", flat.kind.name())?;
        if flat.kind.is_handle() {
            write!(to, " {}", flat.binder as u32)?;
        } else {
            write!(to, " ptr {:#x} cookie {:#x}", flat.binder, flat.cookie)?;
        }
        if flat.flags != 0 {
            write!(to, " flags {:#x}", flat.flags)?;
        }
        if let Some(known) = known {
            write!(to, " {about}({}", object_words(self.space, known.object))?;
            put_side(to, self.sender, known.sender)?;
            put_side(to, self.receiver, known.receiver)?;
            write!(to, "){plain}")?;
        }
        to.push(b'\n');
        Ok(())
    }
}

/// Where the objects of a parcel stand.
pub fn spans(parcel: &Parcel<'_>) -> Vec<std::ops::Range<usize>> {
    let objects = parcel.objects().filter_map(|(_, it)| it);
    objects.map(|it| it.at as usize..it.at as usize + OBJECT_SIZE).collect()
}

/// By which handle one side knows an object.
fn put_side(to: &mut Lines, pid: Option<u32>, handle: Option<u32>) -> io::Result<()> {
    match (pid, handle) {
        (Some(pid), Some(handle)) => write!(to, ", handle {handle} of pid {pid}"),
        _ => Ok(()),
    }
}
