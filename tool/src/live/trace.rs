// SPDX-License-Identifier: Apache-2.0 OR MIT
//! A line for each call, as strace has one for each call of the system.
use super::calls::{Call, Calls, End, Ended};
use super::daemon::{needed_ring, ring};
use super::program::{self, Program};
use super::ring::Ring;
use super::slot::Party;
use super::Where;
use crate::aidl::method_words;
use crate::out::Palette;
use crate::play::Nothing;
use crate::times::{duration_words, Moment};
use crate::told::{Ending, Subject, Told, Unread, Wanted};
use anyhow::{Context, Result};
use clap::Args;
use std::fs::File;
use std::io::{self, Write};
use std::thread::sleep;
use std::time::Duration;

/// How long one waits before the next look.
const PAUSE: Duration = Duration::from_millis(20);

#[derive(Args)]
pub struct Trace {
    #[command(flatten)]
    pub place: Where,
    #[command(flatten)]
    pub wanted: Wanted,
    /// Traces this machine's own kernel, by its tracepoints, as root, until you interrupt it
    #[arg(long, conflicts_with_all = ["program", "socket", "device", "past", "once", "file"])]
    pub kernel: bool,
    /// Reads a recording or a kernel's trace, as `calls` does
    #[arg(long, value_name = "FILE", conflicts_with_all = ["program", "socket", "device", "past", "once", "output"])]
    pub file: Option<String>,
    /// Also prints the calls before now that the daemon still has
    #[arg(long)]
    pub past: bool,
    /// Prints what there is, and ends without waiting
    #[arg(long, conflicts_with = "program")]
    pub once: bool,
    /// Writes the lines to this file; else to standard output, or with a program to standard error
    #[arg(long, short, value_name = "FILE")]
    pub output: Option<String>,
    /// A program and its words, which hullpippin-run runs; without one, trace prints all calls of the device
    #[arg(value_name = "PROGRAM", trailing_var_arg = true, allow_hyphen_values = true)]
    pub program: Vec<String>,
}

/// The words for a thread, as `sensors(812/815)`: what it is called, its process's pid and its own number.
fn thread_words(party: &Party) -> String {
    match party.tid {
        Some(tid) => format!("{}({}/{tid})", party.comm.escape_debug(), party.pid),
        None => format!("{}({})", party.comm.escape_debug(), party.pid),
    }
}

/// Who is called: the thread that has read it, or the process.
fn server_words(call: &Call, calls: &Calls) -> String {
    match (&call.server, call.to) {
        (Some(server), _) => thread_words(server),
        (None, Some(to)) => match calls.party(to) {
            Some(party) => format!("{}({})", party.comm.escape_debug(), party.pid),
            None => format!("pid {to}"),
        },
        (None, None) => "nobody".into(),
    }
}

struct Tracing {
    calls: Calls,
    ahead: u64,
    palette: Palette,
}

impl Tracing {
    fn told(&self, call: &Call) -> Told {
        Told {
            when: Moment::new(call.made, self.ahead).of_day(),
            from: thread_words(&call.from),
            to: server_words(call, &self.calls),
            what: format!(
                "{}{}",
                call.what.escape_debug(),
                method_words(call.interface.as_deref(), call.code, call.arguments.as_deref())
            ),
            one_way: call.one_way,
            size: Some(call.size),
            reply_size: Some(call.reply_size),
            ending: Ending::Open,
            took: None,
            unread: call.taken.map_or(Unread::Always, |it| Unread::For(duration_words(it.saturating_sub(call.made)))),
            passed: String::new(),
        }
    }

    fn line(&self, ended: &Ended) -> String {
        let ending = match ended.end {
            End::Done => Ending::Done,
            End::Failed => Ending::Failed,
            End::Left => Ending::Left,
            End::Refused(it) => Ending::Refused(format!("{} {}: {}", it.name(), it.word(), it.text())),
        };
        let took = Some(duration_words(ended.took()));
        Told { ending, took, ..self.told(&ended.call) }.line(&self.palette)
    }

    /// What is still open at the end, oldest first.
    fn unended(&self) -> Vec<(&Call, String)> {
        let mut open: Vec<_> = self.calls.open().collect();
        open.sort_by_key(|it| it.place);
        open.into_iter().map(|it| (it, self.told(it).line(&self.palette))).collect()
    }
}

/// Whose calls are told.
struct Chosen<'a> {
    wanted: &'a Wanted,
    program: Option<Program>,
}

impl Chosen<'_> {
    fn has(&mut self, call: &Call, end: Option<End>, calls: &Calls) -> bool {
        let server = call.server.as_ref().or_else(|| calls.party(call.to?));
        let parties =
            [Some(&call.from), calls.party(call.from.process), server, call.to.and_then(|it| calls.party(it))];
        let pids: Vec<u32> = [Some(&call.from), server].into_iter().flatten().map(|it| it.pid).collect();
        if let Some(program) = &mut self.program {
            if !pids.iter().any(|it| program.has(*it)) {
                return false;
            }
        }
        self.wanted.has(&Subject {
            pids,
            comms: parties.into_iter().flatten().map(|it| &*it.comm).collect(),
            code: call.code,
            interface: call.interface.as_deref(),
            called: Some(&call.what),
            has_failed: matches!(end, Some(End::Failed | End::Refused(_) | End::Left)),
        })
    }
}

/// Takes what is new, and gives the lines of that.
fn look(ring: &mut Ring, tracing: &mut Tracing, wanted: &mut Chosen<'_>) -> Result<String> {
    let mut lines = String::new();
    ring.each(|slot| {
        for ended in tracing.calls.step(slot) {
            if wanted.has(&ended.call, Some(ended.end), &tracing.calls) {
                lines.push_str(&tracing.line(&ended));
            }
        }
    })?;
    Ok(lines)
}

/// The ring; where a program is run, of a daemon that is started for that if need be.
fn open(given: &Trace) -> Result<Ring> {
    if given.program.is_empty() {
        return needed_ring(&given.place);
    }
    program::check(&given.program)?;
    match ring(&given.place)? {
        Some(ring) => Ok(ring),
        None => {
            program::start_daemon(&given.place)?;
            needed_ring(&given.place)
        }
    }
}

pub fn output(given: &Trace) -> Result<Box<dyn Write>> {
    Ok(match &given.output {
        Some(path) => Box::new(File::create(path).with_context(|| path.clone())?),
        None if given.program.is_empty() => Box::new(io::stdout()),
        None => Box::new(io::stderr()),
    })
}

/// Where lines go, and how many there were.
struct Lines {
    to: Box<dyn Write>,
    count: usize,
}

impl Lines {
    fn put(&mut self, lines: &str) -> io::Result<()> {
        self.count += lines.lines().count();
        self.to.write_all(lines.as_bytes())?;
        self.to.flush()
    }
}

/// Says why there was no line. It is a fault where calls were chosen, unless a program has a status of its own.
fn say_none(given: &Trace) -> Result<()> {
    let device = &given.place.device;
    let nothing = Nothing { path: device.clone(), what: "call" };
    match given.program.first() {
        Some(_) if given.wanted.is_any() => eprintln!("hullpippin: {nothing}"),
        Some(program) => eprintln!("hullpippin: {device}: {program} has made no call, and served none"),
        None if given.wanted.is_any() => return Err(nothing.into()),
        None if given.past => eprintln!("hullpippin: {device}: the daemon knows of no call"),
        None if given.once => {
            eprintln!("hullpippin: {device}: no call is open; --past prints those that ended before");
        }
        None => {}
    }
    Ok(())
}

/// Tells calls as they end, until the program ends that is run, or the daemon. The program's status, or 0.
pub fn trace(given: &Trace, palette: Palette) -> Result<u8> {
    let (mut ring, mut to) = (open(given)?, Lines { to: output(given)?, count: 0 });
    let palette = if given.output.is_some() { Palette::default() } else { palette };
    let mut tracing = Tracing { calls: Calls::default(), ahead: ring.ahead, palette };
    let mut wanted = Chosen { wanted: &given.wanted, program: None };
    // What was before tells what things are called, whether its calls are wanted or not.
    let past = look(&mut ring, &mut tracing, &mut wanted)?;
    ring.lost = 0;
    if given.past {
        to.put(&past)?;
    }
    if !given.program.is_empty() {
        wanted.program = Some(Program::start(&given.place, &given.program)?);
    }
    let status = loop {
        // Both are asked before the last look, so that it sees all there was by then.
        let ended = wanted.program.as_mut().map(Program::ended).transpose()?.flatten();
        let is_over = given.once || ring.is_over()?;
        to.put(&look(&mut ring, &mut tracing, &mut wanted)?)?;
        if ended.is_some() || is_over {
            break ended.map_or(0, program::status_of);
        }
        sleep(PAUSE);
    };
    for (call, line) in tracing.unended() {
        if wanted.has(call, None, &tracing.calls) {
            to.put(&line)?;
        }
    }
    if ring.lost > 0 {
        eprintln!("hullpippin: {} steps were written over before they were read", ring.lost);
    }
    if to.count == 0 {
        say_none(given)?;
    }
    Ok(status)
}
