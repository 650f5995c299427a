// SPDX-License-Identifier: Apache-2.0 OR MIT
//! Who calls whom how often, and how long that takes: of the last second, again and again.
use super::calls::{Calls, End, Ended};
use super::daemon::needed_ring;
use super::ring::Ring;
use super::slot::Party;
use super::state::{windows, Window};
use super::Where;
use crate::aidl::method_words;
use crate::calls::{Event as CallEvent, Objects, OF_THREAD};
use crate::kernel;
use crate::kernel::following::Following;
use crate::kernel::trace::Seen;
use crate::kernel::tracefs::Live;
use crate::out;
use crate::play::{name, Range};
use crate::times::duration_words;
use anyhow::{bail, Result};
use clap::Args;
use crossterm::event::{self, Event, KeyCode, KeyModifiers};
use crossterm::execute;
use crossterm::terminal::{disable_raw_mode, enable_raw_mode, EnterAlternateScreen, LeaveAlternateScreen};
use std::cmp::Reverse;
use std::collections::{BTreeMap, BTreeSet};
use std::io::{self, Stdout, Write};
use std::thread::sleep;
use std::time::{Duration, Instant};
use tui::backend::{Backend, CrosstermBackend};
use tui::layout::{Constraint, Direction, Layout};
use tui::style::{Modifier, Style};
use tui::text::{Span, Spans};
use tui::widgets::Paragraph;
use tui::{Frame, Terminal};
use unicode_width::{UnicodeWidthChar, UnicodeWidthStr};

/// How long one waits before the next look, at a key or at the ring.
const PAUSE: Duration = Duration::from_millis(50);

#[derive(Args)]
pub struct Top {
    #[command(flatten)]
    pub place: Where,
    /// How many seconds each screen sums up
    #[arg(long, value_name = "SECONDS", default_value_t = 1.0, value_parser = seconds)]
    pub interval: f64,
    /// Prints one screen as text, and ends
    #[arg(long)]
    pub once: bool,
    /// Looks at this machine's own kernel, by its tracepoints, as root
    #[arg(long, conflicts_with_all = ["socket", "device", "file"])]
    pub kernel: bool,
    /// Prints one screen of a kernel's whole trace
    #[arg(long, value_name = "FILE", conflicts_with_all = ["socket", "device", "interval", "once"])]
    pub file: Option<String>,
}

fn seconds(word: &str) -> Result<f64, String> {
    match word.parse() {
        Ok(it) if (0.05..=3600.0).contains(&it) => Ok(it),
        _ => Err("an interval is 0.05 to 3600 seconds".into()),
    }
}

/// Calls that are told of together. Programs of one name are, since many live for a call or two.
#[derive(Debug, Default)]
struct Pair {
    /// What is called, with its method's name or the code.
    what: String,
    calls: u64,
    bytes: u64,
    took: u64,
    most: u64,
    failed: u64,
}

#[derive(Debug, Default)]
struct Process {
    pids: BTreeSet<u32>,
    made: u64,
    served: u64,
    failed: u64,
    /// Now: calls on it that nobody has read, and those that it waits for.
    unread: u64,
    waits: u64,
    /// Buffers in its window, their bytes, and that one's; 0 where the daemon doesn't tell.
    buffers: u64,
    taken: u64,
    window: u64,
}

/// Who calls whom, what, and with which code.
type Key = (String, String, String, u32);

#[derive(Debug, Default)]
struct Sums {
    pairs: BTreeMap<Key, Pair>,
    processes: BTreeMap<String, Process>,
    steps: u64,
    calls: u64,
}

/// What a thread's process is called.
fn process_of(thread: &Party, calls: &Calls) -> String {
    calls.party(thread.process).unwrap_or(thread).comm.to_string()
}

impl Sums {
    fn add(&mut self, ended: &Ended, calls: &Calls) {
        let call = &ended.call;
        let from = call.from.comm.to_string();
        let server = call.server.as_ref().or_else(|| calls.party(call.to?));
        let to = server.map_or("nobody".into(), |it| it.comm.to_string());
        let is_done = ended.end == End::Done;
        self.calls += 1;
        let caller = self.processes.entry(process_of(&call.from, calls)).or_default();
        caller.pids.insert(call.from.pid);
        caller.made += 1;
        caller.failed += u64::from(!is_done);
        if let (Some(server), true) = (server, call.taken.is_some()) {
            let it = self.processes.entry(process_of(server, calls)).or_default();
            it.pids.insert(server.pid);
            it.served += 1;
        }
        let pair = self.pairs.entry((from, to, call.what.clone(), call.code)).or_default();
        pair.name(&call.what, call.interface.as_deref(), call.code);
        pair.add(call.size.saturating_add(call.reply_size), ended.took(), is_done);
    }

    /// Adds the calls that are open now, which no end has counted.
    fn add_open(&mut self, calls: &Calls) {
        for call in calls.open() {
            let caller = self.processes.entry(process_of(&call.from, calls)).or_default();
            caller.pids.insert(call.from.pid);
            caller.waits += u64::from(!call.one_way);
            let server = call.to.and_then(|it| calls.party(it));
            if let (Some(server), None) = (server, call.taken) {
                let it = self.processes.entry(server.comm.to_string()).or_default();
                it.pids.insert(server.pid);
                it.unread += 1;
            }
        }
    }
}

impl Sums {
    /// Adds how full windows are: of all processes whose windows have anything, and of those that are seen anyway.
    fn add_windows(&mut self, windows: Vec<Window>) {
        for it in windows {
            let seen = self.processes.iter().find(|(_, process)| process.pids.contains(&it.pid));
            let name = seen.map_or(it.comm, |(name, _)| name.clone());
            if it.buffers == 0 && !self.processes.contains_key(&name) {
                continue;
            }
            let process = self.processes.entry(name).or_default();
            process.pids.insert(it.pid);
            process.buffers += it.buffers;
            process.taken += it.taken;
            process.window += it.size;
        }
    }
}

impl Sums {
    /// Adds what ends by an event of a kernel's trace.
    fn add_event(&mut self, event: &CallEvent, following: &Following) {
        let (call, ended, is_done) = match event {
            CallEvent::Done(call, doing) => (call, *doing, true),
            CallEvent::Failed(call, doing, _) => (call, *doing, false),
            CallEvent::Taken(call) if call.one_way => (call, call.taken.unwrap_or(call.made), true),
            _ => return,
        };
        let (from, to) = (kernels_name(call.made.pid, following), kernels_name(call.to, following));
        self.calls += 1;
        let caller = self.processes.entry(from.clone()).or_default();
        caller.pids.insert(call.made.pid & !OF_THREAD);
        caller.made += 1;
        caller.failed += u64::from(!is_done);
        let server = self.processes.entry(to.clone()).or_default();
        server.pids.insert(call.to);
        server.served += u64::from(call.taken.is_some());
        let called = |it| following.called(it).map_or_else(|| following.number(it), String::from);
        let what = call.object.map_or(String::new(), called);
        let size = call.size.unwrap_or(0).saturating_add(call.replied.and_then(|it| it.1.size()).unwrap_or(0));
        let took = ended.since(call.made).unwrap_or(0);
        let pair = self.pairs.entry((from, to, what.clone(), call.code)).or_default();
        pair.name(&what, call.object.and_then(|it| following.interface(it)), call.code);
        pair.add(size, took, is_done);
    }

    /// Adds what a kernel's trace has told.
    fn see(&mut self, seen: Seen<'_>, following: &Following) {
        match seen {
            Seen::Line(_) => self.steps += 1,
            Seen::Event(event) => self.add_event(event, following),
            Seen::Verb(_) => {}
        }
    }

    /// Adds the calls that are open now.
    fn add_left(&mut self, following: &Following) {
        for call in following.left() {
            let caller = self.processes.entry(kernels_name(call.made.pid, following)).or_default();
            caller.pids.insert(call.made.pid & !OF_THREAD);
            caller.waits += u64::from(!call.one_way);
            if call.taken.is_none() {
                let server = self.processes.entry(kernels_name(call.to, following)).or_default();
                server.pids.insert(call.to);
                server.unread += 1;
            }
        }
    }
}

/// What a kernel's trace calls a process.
fn kernels_name(pid: u32, following: &Following) -> String {
    following.threads.comms.get(pid).map_or_else(|| format!("pid {}", pid & !OF_THREAD), String::from)
}

impl Pair {
    fn name(&mut self, what: &str, interface: Option<&str>, code: u32) {
        if self.what.is_empty() {
            self.what = format!("{}{}", what.escape_debug(), method_words(interface, code, None));
        }
    }

    fn add(&mut self, size: u64, took: u64, is_done: bool) {
        self.calls += 1;
        self.bytes = self.bytes.saturating_add(size);
        self.failed += u64::from(!is_done);
        self.took = self.took.saturating_add(took);
        self.most = self.most.max(took);
    }
}

/// What stands on the screen: a line above, and the rows of two tables.
struct Screen {
    head: String,
    pairs: Vec<[String; 7]>,
    processes: Vec<[String; 8]>,
}

/// A column: which cell of a row it shows, under what, and how wide it is; numbers stand at its right.
#[derive(Clone, Copy)]
struct Column {
    at: usize,
    head: &'static str,
    width: usize,
    is_number: bool,
}

const fn number(at: usize, head: &'static str, width: usize) -> Column {
    Column { at, head, width, is_number: true }
}

const fn words(at: usize, head: &'static str) -> Column {
    Column { at, head, width: 0, is_number: false }
}

const PAIR_COLUMNS: [Column; 7] = [
    number(0, "calls/s", 7),
    number(1, "bytes/s", 9),
    number(2, "mean", 8),
    number(3, "most", 8),
    number(4, "failed", 6),
    words(5, "from -> to"),
    words(6, "what"),
];
const PROCESS_COLUMNS: [Column; 8] = [
    number(0, "made/s", 7),
    number(1, "served/s", 8),
    number(2, "failed", 6),
    number(3, "waits", 5),
    number(4, "unread", 6),
    number(5, "buffers", 7),
    number(6, "window", 6),
    words(7, "process"),
];
/// What is left out first where a terminal is narrow, and how much room words have to have.
const PAIR_EXTRAS: [usize; 3] = [1, 4, 3];
const PROCESS_EXTRAS: [usize; 3] = [5, 2, 3];
const PAIR_WORDS: usize = 50;
const PROCESS_WORDS: usize = 25;
const ARROW: &str = " -> ";
/// How many blanks stand between two columns.
const GAP: usize = 2;
/// Where there is no terminal nothing is cut.
const WIDE: usize = 1000;

fn rate(count: u64, seconds: f64) -> String {
    let rate = count as f64 / seconds;
    if rate < 10.0 && rate.fract() != 0.0 {
        format!("{rate:.1}")
    } else {
        format!("{rate:.0}")
    }
}

fn process_words(comm: &str, pids: &BTreeSet<u32>) -> String {
    let comm = comm.escape_debug();
    match pids.len() {
        1 => format!("{comm}({})", pids.iter().next().unwrap_or(&0)),
        count => format!("{comm}, {count} of them"),
    }
}

impl Screen {
    fn new(mut sums: Sums, calls: &Calls, ring: &Ring, place: &Where, seconds: f64) -> Result<Screen> {
        sums.add_open(calls);
        // A daemon that tells no windows has the rest told all the same.
        sums.add_windows(windows(place).unwrap_or_default());
        let (processes, threads) = ring.population()?;
        let (steps, all) = (rate(sums.steps, seconds), rate(sums.calls, seconds));
        let device = &place.device;
        let head = format!("{device}: {steps} steps/s, {all} calls/s, {processes} processes, {threads} threads");
        Ok(Screen::of_sums(sums, head, seconds))
    }

    /// What a kernel's events have come to.
    fn of_kernel(mut sums: Sums, following: &Following, seconds: f64, what: &str) -> Screen {
        sums.add_left(following);
        let (events, all) = (rate(sums.steps, seconds), rate(sums.calls, seconds));
        let head = format!("{what}: {events} events/s, {all} calls/s, {} processes", sums.processes.len());
        Screen::of_sums(sums, head, seconds)
    }

    fn of_sums(sums: Sums, head: String, seconds: f64) -> Screen {
        let mut pairs: Vec<_> = sums.pairs.into_iter().collect();
        pairs.sort_by_key(|it| Reverse(it.1.calls));
        let mut told: Vec<_> = sums.processes.into_iter().collect();
        told.sort_by_key(|it| Reverse(it.1.made + it.1.served));
        Screen {
            head,
            pairs: pairs.iter().map(|(key, it)| pair_row(key, it, seconds)).collect(),
            processes: told.iter().map(|(comm, it)| process_row(comm, it, seconds)).collect(),
        }
    }

    fn pairs(&self, width: usize) -> Vec<String> {
        table(fitting(&PAIR_COLUMNS, &PAIR_EXTRAS, PAIR_WORDS, width), &self.pairs, width)
    }

    fn processes(&self, width: usize) -> Vec<String> {
        table(fitting(&PROCESS_COLUMNS, &PROCESS_EXTRAS, PROCESS_WORDS, width), &self.processes, width)
    }

    fn text(&self, width: usize) -> String {
        let lines =
            [vec![self.head.clone(), String::new()], self.pairs(width), vec![String::new()], self.processes(width)];
        lines.concat().iter().map(|it| format!("{it}\n")).collect()
    }
}

fn pair_row((from, to, ..): &Key, it: &Pair, seconds: f64) -> [String; 7] {
    [
        rate(it.calls, seconds),
        rate(it.bytes, seconds),
        duration_words(it.took / it.calls.max(1)),
        duration_words(it.most),
        it.failed.to_string(),
        format!("{}{ARROW}{}", from.escape_debug(), to.escape_debug()),
        it.what.clone(),
    ]
}

/// How much of a window is taken, of a hundred.
fn part(taken: u64, window: u64) -> String {
    match window {
        0 => "-".into(),
        _ => format!("{:.0}%", taken as f64 * 100.0 / window as f64),
    }
}

fn process_row(comm: &str, it: &Process, seconds: f64) -> [String; 8] {
    [
        rate(it.made, seconds),
        rate(it.served, seconds),
        it.failed.to_string(),
        it.waits.to_string(),
        it.unread.to_string(),
        if it.window > 0 { it.buffers.to_string() } else { "-".into() },
        part(it.taken, it.window),
        process_words(comm, &it.pids),
    ]
}

/// The columns that there is room for.
fn fitting(all: &[Column], extras: &[usize], words: usize, width: usize) -> Vec<Column> {
    let mut columns = all.to_vec();
    for extra in extras {
        let numbers: usize = columns.iter().filter(|it| it.is_number).map(|it| it.width + GAP).sum();
        if numbers + words > width {
            columns.retain(|it| it.at != *extra);
        }
    }
    columns
}

/// As much of a text as there is room for, with two dots where it goes on; of who calls whom something of both.
fn cut(text: &str, width: usize) -> String {
    if text.width() <= width {
        return text.into();
    }
    if let Some((from, to)) = text.split_once(ARROW).filter(|_| width > 2 * ARROW.len()) {
        let half = (width - ARROW.len()) / 2;
        return format!("{}{ARROW}{}", cut(from, half), cut(to, width - ARROW.len() - half));
    }
    let mut room = width.saturating_sub(2);
    let fits = |it: &char| {
        let fits = it.width().unwrap_or(0) <= room;
        room = room.saturating_sub(it.width().unwrap_or(0));
        fits
    };
    text.chars().take_while(fits).chain("..".chars().take(width)).collect()
}

/// A text in a column, by what a terminal makes of its letters.
fn padded(text: &str, column: &Column) -> String {
    let text = cut(text, column.width);
    let blank = " ".repeat(column.width - text.width());
    if column.is_number {
        blank + &text
    } else {
        text + &blank
    }
}

/// Rows under their heads. The last column takes what is left, and each other one of words as much as it needs, at most half of it.
fn table<const N: usize>(mut columns: Vec<Column>, rows: &[[String; N]], width: usize) -> Vec<String> {
    let mut left = width.saturating_sub(columns.iter().filter(|it| it.is_number).map(|it| it.width + GAP).sum());
    let last = columns.len() - 1;
    for (index, column) in columns.iter_mut().enumerate().filter(|it| !it.1.is_number) {
        let needed = rows.iter().map(|it| it[column.at].width()).chain([column.head.width()]).max().unwrap_or(0);
        column.width = needed.min(if index == last { left } else { left.saturating_sub(GAP) / 2 });
        left = left.saturating_sub(column.width + GAP);
    }
    let line = |cell: &dyn Fn(&Column) -> String| {
        let cells: Vec<_> = columns.iter().map(|it| padded(&cell(it), it)).collect();
        cells.join(&" ".repeat(GAP)).trim_end().to_string()
    };
    let heads = line(&|it| it.head.into());
    std::iter::once(heads).chain(rows.iter().map(|row| line(&|it| row[it.at].clone()))).collect()
}

/// A table whose heads are bold.
fn drawn(lines: Vec<String>) -> Paragraph<'static> {
    let bold = Style::default().add_modifier(Modifier::BOLD);
    let line = |(index, line)| Spans::from(Span::styled(line, if index == 0 { bold } else { Style::default() }));
    Paragraph::new(lines.into_iter().enumerate().map(line).collect::<Vec<_>>())
}

fn draw<B: Backend>(frame: &mut Frame<'_, B>, screen: &Screen) {
    let processes = (screen.processes.len() as u16 + 2).min(frame.size().height / 2);
    let parts = [Constraint::Length(2), Constraint::Min(3), Constraint::Length(processes), Constraint::Length(1)];
    let areas = Layout::default().direction(Direction::Vertical).constraints(parts).split(frame.size());
    let width = usize::from(frame.size().width);
    frame.render_widget(Paragraph::new(cut(&screen.head, width)), areas[0]);
    frame.render_widget(drawn(screen.pairs(width)), areas[1]);
    frame.render_widget(drawn(screen.processes(width)), areas[2]);
    frame.render_widget(Paragraph::new("q: end"), areas[3]);
}

/// The terminal while a screen is on it, which is given back in the end.
struct Shown(Terminal<CrosstermBackend<Stdout>>);

impl Shown {
    fn new() -> Result<Shown> {
        enable_raw_mode()?;
        execute!(io::stdout(), EnterAlternateScreen)?;
        Ok(Shown(Terminal::new(CrosstermBackend::new(io::stdout()))?))
    }
}

impl Drop for Shown {
    fn drop(&mut self) {
        // A terminal that is gone needs nothing.
        let _ = disable_raw_mode();
        let _ = execute!(io::stdout(), LeaveAlternateScreen);
        let _ = self.0.show_cursor();
    }
}

/// Whether somebody wants to end it; waits a little for that.
fn is_ended() -> Result<bool> {
    if !event::poll(PAUSE)? {
        return Ok(false);
    }
    Ok(match event::read()? {
        Event::Key(key) => {
            let is_break = key.code == KeyCode::Char('c') && key.modifiers.contains(KeyModifiers::CONTROL);
            is_break || matches!(key.code, KeyCode::Char('q') | KeyCode::Esc)
        }
        _ => false,
    })
}

/// What is watched: what happens there comes to sums, and these to a screen.
trait Watched {
    /// Adds what has happened since the last look; whether there may be more at once.
    fn look(&mut self, sums: &mut Sums) -> Result<bool>;
    /// Whether nothing will happen any more.
    fn is_over(&self) -> Result<bool>;
    fn screen(&self, sums: Sums, seconds: f64) -> Result<Screen>;
}

/// A daemon, by the ring of its latest steps.
struct Daemon<'a> {
    ring: Ring,
    calls: Calls,
    place: &'a Where,
}

impl Daemon<'_> {
    fn open(place: &Where) -> Result<Daemon<'_>> {
        let (mut ring, mut calls) = (needed_ring(place)?, Calls::default());
        // What was before tells what things are called.
        ring.each(|slot| drop(calls.step(slot)))?;
        Ok(Daemon { ring, calls, place })
    }
}

impl Watched for Daemon<'_> {
    fn look(&mut self, sums: &mut Sums) -> Result<bool> {
        let calls = &mut self.calls;
        self.ring.each(|slot| {
            sums.steps += 1;
            calls.step(slot).iter().for_each(|it| sums.add(it, calls));
        })?;
        Ok(false)
    }

    fn is_over(&self) -> Result<bool> {
        self.ring.is_over()
    }

    fn screen(&self, sums: Sums, seconds: f64) -> Result<Screen> {
        Screen::new(sums, &self.calls, &self.ring, self.place, seconds)
    }
}

/// The kernel that runs here, by its events.
struct Kernel(Live);

impl Watched for Kernel {
    fn look(&mut self, sums: &mut Sums) -> Result<bool> {
        self.0.look(&mut |seen, following| {
            sums.see(seen, following);
            Ok(())
        })
    }

    fn is_over(&self) -> Result<bool> {
        Ok(false)
    }

    fn screen(&self, sums: Sums, seconds: f64) -> Result<Screen> {
        Ok(Screen::of_kernel(sums, &self.0.reader.following, seconds, "kernel"))
    }
}

/// What happens in an interval, and how many seconds that was; None where somebody ends it before.
fn watch(
    watched: &mut dyn Watched,
    interval: Duration,
    mut wait: impl FnMut() -> Result<bool>,
) -> Result<Option<(Sums, f64)>> {
    let begun = Instant::now();
    let mut sums = Sums::default();
    loop {
        let is_last = begun.elapsed() >= interval || watched.is_over()?;
        let has_more = watched.look(&mut sums)?;
        if is_last {
            return Ok(Some((sums, begun.elapsed().max(interval).as_secs_f64())));
        }
        if !has_more && wait()? {
            return Ok(None);
        }
    }
}

/// Shows one interval after the other, or prints one.
fn top_of(watched: &mut dyn Watched, given: &Top) -> Result<()> {
    let interval = Duration::from_secs_f64(given.interval);
    if given.once {
        let waits = || {
            sleep(PAUSE);
            Ok(false)
        };
        if let Some((sums, seconds)) = watch(watched, interval, waits)? {
            let text = watched.screen(sums, seconds)?.text(out::width().unwrap_or(WIDE));
            io::stdout().write_all(text.as_bytes())?;
        }
        return Ok(());
    }
    let mut shown = Shown::new()?;
    while let Some((sums, seconds)) = watch(watched, interval, is_ended)? {
        let screen = watched.screen(sums, seconds)?;
        shown.0.draw(|frame| draw(frame, &screen))?;
        if watched.is_over()? {
            break;
        }
    }
    Ok(())
}

/// One screen of all of a kernel's trace, by its own time.
fn put_trace(path: &str) -> Result<()> {
    let mut trace = match kernel::trace_of(path)? {
        Some(trace) => trace,
        None => bail!("{}: this is no trace of a kernel's; `stats` counts the calls of a journal", name(path)),
    };
    let (mut sums, mut period) = (Sums::default(), None);
    let done = trace.each(Range::default(), |seen, following| {
        if let Seen::Line(Some(now)) = seen {
            period = Some((period.map_or(now.clock, |it: (u64, u64)| it.0), now.clock));
        }
        sums.see(seen, following);
        Ok(())
    });
    let seconds = period.map_or(0.0, |(from, to)| to.saturating_sub(from) as f64 / 1e9).max(1e-6);
    let screen = Screen::of_kernel(sums, &trace.reader.following, seconds, path);
    io::stdout().write_all(screen.text(out::width().unwrap_or(WIDE)).as_bytes())?;
    done
}

pub fn top(given: &Top) -> Result<()> {
    match &given.file {
        Some(path) => put_trace(path),
        None if given.kernel => top_of(&mut Kernel(Live::begin()?), given),
        None => top_of(&mut Daemon::open(&given.place)?, given),
    }
}

#[cfg(test)]
mod tests {
    use super::*;

    fn screen(width: usize) -> String {
        let pair = [
            "7.8",
            "607",
            "733.5 us",
            "4.0 ms",
            "0",
            "camera-\u{6444}\u{5f71} -> system_server",
            "android.hardware.ICamera#4",
        ];
        let process = ["23", "0", "0", "1", "0", "2", "12%", "\u{6444}\u{5f71}(4711)"];
        let screen = Screen {
            head: "/dev/binder: 324 steps/s, 23 calls/s, 2 processes, 2 threads".into(),
            pairs: vec![pair.map(String::from)],
            processes: vec![process.map(String::from)],
        };
        screen.text(width)
    }

    #[test]
    fn a_wide_screen_has_all_columns() {
        let wanted = "\
/dev/binder: 324 steps/s, 23 calls/s, 2 processes, 2 threads

calls/s    bytes/s      mean      most  failed  from -> to                    what
    7.8        607  733.5 us    4.0 ms       0  camera-\u{6444}\u{5f71} -> system_server  android.hardware.ICamera#4

 made/s  served/s  failed  waits  unread  buffers  window  process
     23         0       0      1       0        2     12%  \u{6444}\u{5f71}(4711)
";
        assert_eq!(screen(WIDE), wanted);
    }

    #[test]
    fn a_narrow_screen_leaves_columns_out_and_cuts_words() {
        let wanted = "\
/dev/binder: 324 steps/s, 23 calls/s, 2 processes, 2 threads

calls/s      mean  from -> to           what
    7.8  733.5 us  camer.. -> system..  android.hardware.I..

 made/s  served/s  unread  window  process
     23         0       0     12%  \u{6444}\u{5f71}(4711)
";
        assert_eq!(screen(60), wanted);
    }

    /// Something that has so much left, and then is over.
    struct Counted(u64);

    impl Watched for Counted {
        fn look(&mut self, sums: &mut Sums) -> Result<bool> {
            sums.steps += u64::from(self.0 > 0);
            self.0 = self.0.saturating_sub(1);
            Ok(self.0 > 2)
        }

        fn is_over(&self) -> Result<bool> {
            Ok(self.0 == 0)
        }

        fn screen(&self, _: Sums, _: f64) -> Result<Screen> {
            bail!("nobody looks")
        }
    }

    /// Nobody waits while there is more, nor once it is over; and who wants to end it ends it.
    #[test]
    fn what_is_watched_is_looked_at_until_it_is_over() {
        let long = Duration::from_secs(3600);
        let mut waits = 0;
        let told = watch(&mut Counted(5), long, || {
            waits += 1;
            Ok(false)
        });
        let (sums, seconds) = told.expect("no fault").expect("sums");
        assert_eq!((sums.steps, waits, seconds), (5, 3, 3600.0));
        assert!(watch(&mut Counted(5), long, || Ok(true)).expect("no fault").is_none());
        let (sums, _) = watch(&mut Counted(5), Duration::ZERO, || Ok(true)).expect("no fault").expect("sums");
        assert_eq!(sums.steps, 1);
    }

    #[test]
    fn windows_are_of_who_has_buffers_and_of_who_is_seen() {
        let mut sums = Sums::default();
        sums.processes.entry("seen".into()).or_default();
        sums.processes.entry("a thread's name".into()).or_default().pids.insert(8);
        let other = Window { pid: 8, comm: "main".into(), size: 4096, buffers: 1, taken: 4096 };
        let window = |comm: &str, buffers| Window {
            pid: comm.as_bytes()[0].into(),
            comm: comm.into(),
            size: 4096,
            buffers,
            taken: 512 * buffers,
        };
        sums.add_windows(vec![window("idle", 0), window("seen", 0), window("full", 8), window("full", 4), other]);
        let row = |comm: &str| process_row(comm, &sums.processes[comm], 1.0)[5..7].join(" ");
        assert_eq!((sums.processes.len(), row("seen"), row("full")), (3, "0 0%".into(), "12 75%".into()));
        assert_eq!(row("a thread's name"), "1 100%");
        assert_eq!(part(1, 0), "-");
    }

    #[test]
    fn no_width_is_too_narrow() {
        for width in 0..200 {
            assert!(screen(width).lines().skip(2).all(|it| it.width() <= width.max(43)), "{width}");
        }
        assert_eq!(
            [cut("abcdef", 4), cut("abcdef", 6), cut("\u{6444}\u{5f71}\u{6444}", 5)],
            ["ab..", "abcdef", "\u{6444}.."]
        );
        assert_eq!([cut("abc", 1), cut("abc", 0)], [".", ""]);
    }
}
