// SPDX-License-Identifier: Apache-2.0 OR MIT
//! A kernel's trace that is gone through, line by line, with what its events come to.
use super::following::Following;
use super::format::Format;
use super::ftrace::{self, Line, What};
use super::lines::{shown, Lines};
use super::names;
use super::perfetto::Recording;
use super::verbs;
use crate::calls::Event;
use crate::play::{name, Nothing, Range};
use crate::times::{Moment, TimeWord};
use anyhow::{bail, Context, Result};
use std::collections::HashMap;
use std::fs::File;
use std::io::{self, BufRead, BufReader};
use std::process::{Child, Command, Stdio};

/// How much is read together.
const ROOM: usize = 1 << 17;
/// Of how many calls one remembers at once whom they go to, when one looks ahead for whose the threads are.
const MOST_AHEAD: usize = 1 << 16;

/// What a line has told.
#[derive(Clone, Copy, Debug)]
pub enum Seen<'a> {
    /// An event of Binder's, at its time.
    Line(Option<Moment>),
    /// One that is a command or a return.
    Verb(&'static str),
    Event(&'a Event),
}

/// What follows lines, wherever they come from.
#[derive(Debug, Default)]
pub struct Reader {
    pub following: Following,
    /// Lines that are no events, how many, and which was the first.
    strange: u64,
    first_strange: Option<(u64, String)>,
    /// Events that the kernel had no room for; and how often it had none, where nothing tells how many these were.
    lost: u64,
    gaps: u64,
    /// Packets that Perfetto has compressed.
    compressed: u64,
    /// How many events of Binder's there were.
    pub count: u64,
    events: Vec<Event>,
}

/// What a line is that begins so in a trace, besides events.
fn is_comment(line: &[u8]) -> bool {
    let words = ["#", "TRACE:", "cpus=", "version = ", "capturing trace", "CPU "];
    line.is_empty() || words.iter().any(|it| line.starts_with(it.as_bytes()))
}

/// How many events were lost, from `CPU:1 [LOST 17 EVENTS]`.
fn lost(line: &[u8]) -> Option<u64> {
    let text = std::str::from_utf8(line.strip_prefix(b"CPU:")?).ok()?;
    text.split_once("[LOST ")?.1.split(' ').next()?.parse().ok()
}

impl Reader {
    /// Takes a line, and calls this for what it has told.
    pub fn line(
        &mut self,
        number: u64,
        bytes: &[u8],
        call: &mut dyn FnMut(Seen<'_>, &Following) -> Result<()>,
    ) -> Result<()> {
        let line = match ftrace::line(bytes) {
            Some(line) => line,
            None => {
                self.pass_over(number, bytes);
                return Ok(());
            }
        };
        if !line.event.starts_with(b"binder_") {
            return Ok(());
        }
        let what = ftrace::what(line.event, line.rest);
        let what = what.map_err(|it| {
            let event = String::from_utf8_lossy(line.event).into_owned();
            anyhow::anyhow!("line {number}: {event} {it}: {}", shown(line.rest))
        })?;
        self.take(number, &line, what, call)
    }

    /// Takes an event of Binder's, and calls this for what it has told.
    fn take(
        &mut self,
        number: u64,
        line: &Line<'_>,
        what: What,
        call: &mut dyn FnMut(Seen<'_>, &Following) -> Result<()>,
    ) -> Result<()> {
        self.count += 1;
        self.following.event(number, line, what, &mut self.events)?;
        let told = match what {
            What::Command(code) => verbs::command(code),
            What::Return(code) => verbs::returned(code),
            _ => None,
        };
        call(Seen::Line(line.time.map(|it| self.following.moment(it))), &self.following)?;
        if let Some(name) = told {
            call(Seen::Verb(name), &self.following)?;
        }
        self.tell(call)
    }

    fn tell(&mut self, call: &mut dyn FnMut(Seen<'_>, &Following) -> Result<()>) -> Result<()> {
        for event in self.events.drain(..) {
            call(Seen::Event(&event), &self.following)?;
        }
        Ok(())
    }

    /// At the end: what threads were still sending.
    pub fn end(&mut self, call: &mut dyn FnMut(Seen<'_>, &Following) -> Result<()>) -> Result<()> {
        self.following.end(&mut self.events);
        self.tell(call)
    }

    fn pass_over(&mut self, number: u64, line: &[u8]) {
        if let Some(lost) = lost(line) {
            self.lost = self.lost.saturating_add(lost);
        } else if !is_comment(line) {
            self.strange += 1;
            self.first_strange.get_or_insert_with(|| (number, shown(line)));
        }
    }

    /// Says what the trace hadn't, or hadn't whole.
    pub fn say(&self, path: &str) {
        if let Some((number, line)) = &self.first_strange {
            eprintln!("hullpippin: {path}: {} lines are no events; the first is line {number}: {line}", self.strange);
        }
        if self.lost > 0 {
            eprintln!(
                "hullpippin: {path}: the kernel has lost {} events, so calls are missing or stay open",
                self.lost
            );
        }
        if self.gaps > 0 {
            eprintln!(
                "hullpippin: {path}: the kernel has lost events, {} times, so calls are missing or stay open",
                self.gaps
            );
        }
        if self.compressed > 0 {
            eprintln!("hullpippin: {path}: {} packets are compressed, and aren't read", self.compressed);
        }
        if self.following.given_up > 0 {
            let count = self.following.given_up;
            eprintln!("hullpippin: {path}: too many calls were open at once; the {count} oldest were given up");
        }
        names::say(path, self.following.names());
        let mut missing = vec!["parcels, and handles as targets"];
        if !self.following.has_sizes {
            missing.push("sizes (binder_transaction_alloc_buf)");
        }
        if !self.following.has_commands {
            missing.push("commands, returns, refusals (binder_command, binder_return)");
        }
        eprintln!("hullpippin: {path}: left out, since the trace doesn't tell them: {}", missing.join("; "));
    }
}

/// A trace in a file, or on standard input.
pub struct Trace {
    path: String,
    format: Format,
    lines: Lines<'static>,
    /// What a trace of Perfetto's has, which has no lines.
    recording: Option<Recording>,
    pub reader: Reader,
    child: Option<Child>,
    /// Whether one is within the part of a page that has events.
    is_within: bool,
    /// When the first event was.
    first: Option<Moment>,
    /// How many events lay within the range.
    within: u64,
}

fn file(path: &str) -> Result<Lines<'static>> {
    let file = File::open(path).with_context(|| path.to_string())?;
    Ok(Lines::new(Box::new(BufReader::with_capacity(ROOM, file))))
}

/// A program that prints a recording as text, and the package of Debian's that has it.
fn printed(path: &str, format: Format) -> Result<(Lines<'static>, Option<Child>)> {
    let (program, words, package) = match format {
        Format::TraceCmd => ("trace-cmd", &["report", "-i"][..], "trace-cmd"),
        _ => ("perf", &["script", "-F", "comm,pid,tid,cpu,time,event,trace", "-i"][..], "linux-perf"),
    };
    if path == "-" {
        bail!("standard input: {} is read by {program}, which wants a file", format.words());
    }
    // A name with a dash before it would be an option.
    let path = if path.starts_with('-') { format!("./{path}") } else { path.into() };
    let child = Command::new(program)
        .args(words)
        .arg(path)
        .stdin(Stdio::null())
        .stdout(Stdio::piped())
        .stderr(Stdio::null())
        .spawn();
    let mut child =
        child.with_context(|| format!("{program}, which prints {} (Debian's package {package})", format.words()))?;
    let output = child.stdout.take().context("its output")?;
    Ok((Lines::new(Box::new(BufReader::with_capacity(ROOM, output))), Some(child)))
}

/// What a trace of Perfetto's tells.
fn recorded(path: &str) -> Result<Recording> {
    let of = |input: Box<dyn BufRead>| Recording::read(input).with_context(|| name(path));
    match path {
        "-" => of(Box::new(BufReader::with_capacity(ROOM, io::stdin()))),
        _ => of(Box::new(BufReader::with_capacity(ROOM, File::open(path).with_context(|| path.to_string())?))),
    }
}

impl Trace {
    pub fn open(path: &str, format: Format) -> Result<Trace> {
        let recording = if format == Format::Perfetto { Some(recorded(path)?) } else { None };
        let (lines, child) = match format {
            Format::Perfetto => (Lines::new(Box::new(io::empty())), None),
            Format::TraceCmd | Format::PerfData => printed(path, format)?,
            _ if path == "-" => (Lines::new(Box::new(BufReader::with_capacity(ROOM, io::stdin()))), None),
            _ => (file(path)?, None),
        };
        let has_lines = path != "-" && child.is_none() && recording.is_none();
        let reader = Reader::default();
        let (path, is_within, first, within) = (path.into(), false, None, 0);
        let mut trace = Trace { path, format, lines, recording, reader, child, is_within, first, within };
        if has_lines {
            trace.look_ahead()?;
        }
        Ok(trace)
    }

    /// Goes through a file once for which process each thread is of: a call that is read, and a reply, tell that only behind what the
    /// thread has done before. A trace with a column for it needs none of that.
    fn look_ahead(&mut self) -> Result<()> {
        let mut lines = file(&self.path)?;
        let mut to: HashMap<u64, u32> = HashMap::new();
        while let Some(bytes) = lines.next().with_context(|| name(&self.path))? {
            let line = match ftrace::line(bytes) {
                Some(line) if line.event.starts_with(b"binder_") => line,
                _ => continue,
            };
            if line.process.is_some() {
                return Ok(());
            }
            let threads = &mut self.reader.following.threads;
            match ftrace::what(line.event, line.rest) {
                Ok(What::Transaction(it)) if it.is_reply => {
                    threads
                        .meet(it.thread, b"", Some(it.process).filter(|it| *it > 0))
                        .with_context(|| name(&self.path))?;
                }
                Ok(What::Transaction(it)) if to.len() < MOST_AHEAD => drop(to.insert(it.number, it.process)),
                Ok(What::Received(number)) => {
                    if let Some(process) = to.remove(&number) {
                        threads.meet(line.tid, line.comm, Some(process)).with_context(|| name(&self.path))?;
                    }
                }
                _ => {}
            }
        }
        Ok(())
    }

    fn opens_or_ends(&mut self, bytes: &[u8]) -> bool {
        let has = |text: &[u8]| bytes.windows(text.len()).any(|it| it == text);
        if self.format != Format::Page {
            return false;
        }
        if self.is_within && has(b"</script>") {
            self.is_within = false;
            return true;
        }
        if !self.is_within {
            self.is_within = has(b"trace-data");
            return true;
        }
        false
    }

    /// Calls this for all that the lines of a range tell, which has to have an event.
    pub fn each(&mut self, range: Range, mut call: impl FnMut(Seen<'_>, &Following) -> Result<()>) -> Result<()> {
        let path = name(&self.path);
        let done = self.go(range, &mut call).with_context(|| path.clone());
        if done.is_ok() {
            self.reader.say(&path);
        }
        done?;
        self.check_end().with_context(|| path)?;
        if range.is_any() && self.within == 0 {
            return Err(Nothing { path: self.path.clone(), what: "event" }.into());
        }
        Ok(())
    }

    fn go(&mut self, range: Range, call: &mut dyn FnMut(Seen<'_>, &Following) -> Result<()>) -> Result<()> {
        if let Some(to) = range.to.filter(|it| *it < range.from) {
            bail!("--to {to} lies before --from {}", range.from);
        }
        if self.recording.is_some() {
            return self.go_through_packets(range, call);
        }
        while let Some(bytes) = self.lines.next()? {
            // The line is held by `lines`, of which the rest of this has no need.
            let bytes = bytes.to_vec();
            let number = self.lines.number();
            if range.to.map_or(false, |it| number >= it) {
                return Ok(());
            }
            if self.opens_or_ends(&bytes) {
                continue;
            }
            let (first, within) = (&mut self.first, &mut self.within);
            let mut bounds = Bounded { range, first, within, is_over: false, call };
            self.reader.line(number, &bytes, &mut |seen, following| bounds.pass(number, seen, following))?;
            if bounds.is_over {
                return Ok(());
            }
        }
        self.reader.end(call)
    }

    /// The same of a trace of Perfetto's, whose events have numbers from 1 in order of time.
    fn go_through_packets(
        &mut self,
        range: Range,
        call: &mut dyn FnMut(Seen<'_>, &Following) -> Result<()>,
    ) -> Result<()> {
        let recording = match &self.recording {
            Some(recording) => recording,
            None => return Ok(()),
        };
        self.reader.gaps = recording.gaps;
        self.reader.compressed = recording.compressed;
        for (number, event) in (1..).zip(&recording.events) {
            if range.to.map_or(false, |it| number >= it) {
                return Ok(());
            }
            let (first, within) = (&mut self.first, &mut self.within);
            let mut bounds = Bounded { range, first, within, is_over: false, call };
            let mut pass = |seen: Seen<'_>, following: &Following| bounds.pass(number, seen, following);
            self.reader.take(number, &recording.line(event), event.what, &mut pass)?;
            if bounds.is_over {
                return Ok(());
            }
        }
        self.reader.end(call)
    }

    /// Sees that there was something, that the last line was whole, and that what prints it has done so.
    fn check_end(&mut self) -> Result<()> {
        if let Some(mut child) = self.child.take() {
            // Who has read enough doesn't wait for the rest.
            drop(std::mem::replace(&mut self.lines, Lines::new(Box::new(io::empty()))));
            let status = child.wait()?;
            if self.reader.count == 0 {
                bail!(
                    "{}: what prints it ended with {status}, and there was no event of Binder's in it",
                    self.format.words()
                );
            }
        }
        if self.reader.count == 0 {
            bail!("there is no event of Binder's in it");
        }
        if let Some(at) = self.recording.as_ref().and_then(|it| it.cut) {
            bail!("the packet at byte {at} breaks off; it is left out");
        }
        self.lines.check_end()
    }
}

/// What passes on what lies within a range.
struct Bounded<'a> {
    range: Range,
    first: &'a mut Option<Moment>,
    within: &'a mut u64,
    is_over: bool,
    call: &'a mut dyn FnMut(Seen<'_>, &Following) -> Result<()>,
}

impl Bounded<'_> {
    fn pass(&mut self, number: u64, seen: Seen<'_>, following: &Following) -> Result<()> {
        if number < self.range.from || self.is_over {
            return Ok(());
        }
        if let Seen::Line(time) = seen {
            *self.first = self.first.or(time);
            self.is_over = self.is_from(self.range.until, time)?;
        }
        let is_within = match (self.range.since, self.time_of(seen, following)) {
            (Some(since), time) => self.is_from(Some(since), time)?,
            (None, _) => true,
        };
        if is_within && !self.is_over {
            *self.within += u64::from(matches!(seen, Seen::Line(_)));
            return (self.call)(seen, following);
        }
        Ok(())
    }

    fn time_of(&self, seen: Seen<'_>, _following: &Following) -> Option<Moment> {
        match seen {
            Seen::Line(time) => time,
            Seen::Verb(_) => None,
            Seen::Event(event) => event.doing().time,
        }
    }

    /// Whether a time lies at another or behind it; not, where either isn't known.
    fn is_from(&self, word: Option<TimeWord>, time: Option<Moment>) -> Result<bool> {
        match (word, *self.first, time) {
            (Some(word), Some(first), Some(time)) => Ok(time.clock >= word.clock(first)?),
            _ => Ok(false),
        }
    }
}
