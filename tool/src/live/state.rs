// SPDX-License-Identifier: Apache-2.0 OR MIT
//! What a daemon that runs tells of a device: its processes, their threads, handles and buffers, and what all have of its shares
//! (clients/protocol.h). It tells them page by page, each of a moment of its own.
use super::daemon::each_page;
use super::shares::{Owner, Shares};
use super::Where;
use crate::arguments::Format;
use crate::record::{u32_at, u64_at};
use anyhow::Result;
use serde::Serialize;
use std::collections::BTreeMap;
use std::io::{self, Write};

/// The places in the history that a record has, in the header's order, by its names.
#[derive(Clone, Copy, Debug)]
#[allow(clippy::enum_variant_names)]
enum Place {
    Innermost,
    ObjectPlace,
    Made,
}

/// The numbers behind them. The name of what it is stands last.
#[derive(Clone, Copy, Debug)]
enum Field {
    Kind,
    Process,
    Pid,
    Tid,
    Seat,
    Euid,
    Flags,
    Window,
    Threads,
    MaxThreads,
    Requested,
    Started,
    Serving,
    Calling,
    Unread,
    Handle,
    ObjectIndex,
    Party,
    Start,
    Size,
    Code,
    Nothing,
}

const NUMBERS: usize = 8 * (Place::Made as usize + 1);
const COMM: usize = NUMBERS + 4 * (Field::Nothing as usize + 1);
const RECORD_SIZE: usize = COMM + 16;
const HEAD_SIZE: usize = 32;
const MOST_RECORDS: usize = 16;
const PAGE_SIZE: usize = HEAD_SIZE + MOST_RECORDS * RECORD_SIZE;

const PROCESS: u32 = 1;
const THREAD: u32 = 2;
const HANDLE: u32 = 3;
const BUFFER: u32 = 4;
const SHARE: u32 = 5;

const MANAGER: u32 = 1;
const DETECTS_SPAM: u32 = 2;
const LOOPS: u32 = 4;
const WAITS: u32 = 8;
const ONE_WAY: u32 = 16;
const HANDED: u32 = 32;
const CALL: u32 = 64;
const OF_USER: u32 = 128;
const OF_ACCOUNT: u32 = 256;

/// So many things to be read are counted, and perhaps there are more.
const MOST_UNREAD: u32 = 16;
const NONE: u64 = u64::MAX;

struct Record<'a>(&'a [u8]);

impl Record<'_> {
    fn number(&self, field: Field) -> u32 {
        u32_at(self.0, NUMBERS + 4 * field as usize)
    }

    fn place(&self, place: Place) -> u64 {
        u64_at(self.0, 8 * place as usize)
    }

    fn has(&self, flag: u32) -> bool {
        self.number(Field::Flags) & flag != 0
    }

    fn comm(&self) -> String {
        let bytes: Vec<u8> = self.0[COMM..].iter().copied().take_while(|it| *it != 0).collect();
        String::from_utf8_lossy(&bytes).into_owned()
    }

    fn object(&self) -> String {
        format!("{}.{}", self.place(Place::ObjectPlace), self.number(Field::ObjectIndex))
    }
}

#[derive(Serialize)]
struct Thread {
    seat: u32,
    tid: u32,
    comm: String,
    looping: bool,
    waiting: bool,
    serves: u32,
    calls: u32,
    /// Where the innermost of these was made.
    innermost: Option<u64>,
    unread: u32,
}

#[derive(Serialize)]
struct Handle {
    handle: u32,
    object: String,
    owner: Option<Party>,
}

#[derive(Serialize)]
struct Buffer {
    start: u32,
    size: u32,
    made: u64,
    code: u32,
    target: Option<String>,
    from: Option<Party>,
    one_way: bool,
    unread: bool,
}

/// A process that lives, by the system's pid.
#[derive(Clone, Serialize)]
struct Party {
    pid: u32,
    comm: String,
}

#[derive(Serialize)]
struct Process {
    pid: u32,
    comm: String,
    /// The pid by which the history knows the process.
    process: u32,
    euid: u32,
    window: u32,
    manager: bool,
    spam_detection: bool,
    /// Threads that have made an ioctl, and those that BR_SPAWN_LOOPER may ask for, has asked for, and has got.
    thread_count: u32,
    max_threads: u32,
    requested: u32,
    started: u32,
    unread: u32,
    threads: Vec<Thread>,
    handles: Vec<Handle>,
    buffers: Vec<Buffer>,
}

/// All that was told, by pids in the history.
#[derive(Default)]
struct Told {
    steps: u64,
    processes: BTreeMap<u32, Process>,
    shares: Shares,
}

impl Told {
    fn party(&self, process: u32) -> Option<Party> {
        self.processes.get(&process).map(|it| Party { pid: it.pid, comm: it.comm.clone() })
    }

    /// How a process of the system is called, if it has this device open.
    fn comm(&self, pid: u32) -> Option<String> {
        self.processes.values().find(|it| it.pid == pid).map(|it| it.comm.clone())
    }

    /// Takes a record. What a process has comes behind all processes; that of one that has come since isn't told.
    fn take(&mut self, record: &Record<'_>) {
        match record.number(Field::Kind) {
            PROCESS => {
                self.processes.insert(record.number(Field::Process), process(record));
            }
            SHARE => {
                let [taken, refused] = [Place::Made, Place::Innermost].map(|it| record.place(it));
                self.shares.take(owner(record), record.number(Field::Code), taken, refused);
            }
            _ => self.take_thing(record),
        }
    }

    /// Takes a record of what a process has.
    fn take_thing(&mut self, record: &Record<'_>) {
        let of = |field| record.number(field);
        let party = self.party(of(Field::Party));
        let process = match self.processes.get_mut(&of(Field::Process)) {
            Some(process) => process,
            None => return,
        };
        match of(Field::Kind) {
            THREAD => process.threads.push(thread(record)),
            HANDLE => process.handles.push(Handle { handle: of(Field::Handle), object: record.object(), owner: party }),
            BUFFER => process.buffers.push(buffer(record, party)),
            _ => {}
        }
    }

    fn take_page(&mut self, page: &[u8]) -> [u64; 2] {
        self.steps = u64_at(page, 8);
        let count = (u32_at(page, 4) as usize).min(MOST_RECORDS);
        page[HEAD_SIZE..].chunks_exact(RECORD_SIZE).take(count).for_each(|it| self.take(&Record(it)));
        [16, 24].map(|at| u64_at(page, at))
    }
}

fn process(record: &Record<'_>) -> Process {
    let of = |field| record.number(field);
    Process {
        pid: of(Field::Pid),
        comm: record.comm(),
        process: of(Field::Process),
        euid: of(Field::Euid),
        window: of(Field::Window),
        manager: record.has(MANAGER),
        spam_detection: record.has(DETECTS_SPAM),
        thread_count: of(Field::Threads),
        max_threads: of(Field::MaxThreads),
        requested: of(Field::Requested),
        started: of(Field::Started),
        unread: of(Field::Unread),
        threads: Vec::new(),
        handles: Vec::new(),
        buffers: Vec::new(),
    }
}

fn owner(record: &Record<'_>) -> Owner {
    let is_of_process = !record.has(OF_USER) && !record.has(OF_ACCOUNT);
    Owner {
        account: record.place(Place::ObjectPlace),
        user: Some(record.number(Field::Euid)).filter(|_| !record.has(OF_ACCOUNT)),
        pid: Some(record.number(Field::Pid)).filter(|_| is_of_process),
    }
}

fn thread(record: &Record<'_>) -> Thread {
    let of = |field| record.number(field);
    Thread {
        seat: of(Field::Seat),
        tid: of(Field::Tid),
        comm: record.comm(),
        looping: record.has(LOOPS),
        waiting: record.has(WAITS),
        serves: of(Field::Serving),
        calls: of(Field::Calling),
        innermost: Some(record.place(Place::Innermost)).filter(|it| *it != NONE),
        unread: of(Field::Unread),
    }
}

fn buffer(record: &Record<'_>, from: Option<Party>) -> Buffer {
    let of = |field| record.number(field);
    Buffer {
        start: of(Field::Start),
        size: of(Field::Size),
        made: record.place(Place::Made),
        code: of(Field::Code),
        target: Some(record.object()).filter(|_| record.has(CALL)),
        from,
        one_way: record.has(ONE_WAY),
        unread: !record.has(HANDED),
    }
}

/// What was said only where it is so.
fn marks(all: &[(bool, &str)]) -> String {
    all.iter().filter(|it| it.0).map(|it| it.1).collect()
}

fn unread_words(unread: u32) -> String {
    match unread {
        0 => String::new(),
        MOST_UNREAD => format!(", {unread} or more to read"),
        _ => format!(", {unread} to read"),
    }
}

fn party_words(party: &Option<Party>) -> String {
    party.as_ref().map_or("a process that has ended".into(), |it| format!("pid {} {:?}", it.pid, it.comm))
}

fn thread_words(it: &Thread) -> String {
    let mut line = marks(&[(it.looping, ", in the loop"), (it.waiting, ", waits in a read")]);
    for (count, what) in [(it.serves, "serves"), (it.calls, "waits in")] {
        if count > 0 {
            line += &format!(", {what} {count} call{}", if count > 1 { "s" } else { "" });
        }
    }
    let innermost = it.innermost.map_or(String::new(), |it| format!(", the innermost made at {it}"));
    format!("seat {} (tid {} {:?}){line}{innermost}{}", it.seat, it.tid, it.comm, unread_words(it.unread))
}

fn buffer_words(it: &Buffer) -> String {
    let target = it.target.as_ref().map_or(String::new(), |it| format!(", for object {it}"));
    let marks = marks(&[(it.one_way, ", one-way"), (it.unread, ", unread")]);
    let Buffer { start, size, made, code, from, .. } = it;
    format!("buffer at {start} made at {made} size {size} code {code:#x} from {}{target}{marks}", party_words(from))
}

fn put_process(to: &mut Vec<u8>, it: &Process) -> io::Result<()> {
    let Process { pid, comm, process, euid, window, thread_count, max_threads, started, .. } = it;
    let history = if process == pid { String::new() } else { format!(", in the history {process}") };
    let marks = marks(&[(it.manager, ", context manager"), (it.spam_detection, ", asks for reports of flooding")]);
    let threads = format!(", {thread_count} threads, {started} of them asked for, of at most {max_threads}");
    writeln!(to, "pid {pid} {comm:?} euid {euid} window {window}{threads}{history}{marks}{}", unread_words(it.unread))?;
    for it in &it.threads {
        writeln!(to, "  {}", thread_words(it))?;
    }
    for it in &it.handles {
        writeln!(to, "  handle {} object {} of {}", it.handle, it.object, party_words(&it.owner))?;
    }
    it.buffers.iter().try_for_each(|it| writeln!(to, "  {}", buffer_words(it)))
}

fn asked(place: &Where) -> Result<Told> {
    let mut told = Told::default();
    each_page(place, PAGE_SIZE, |page| told.take_page(page))?;
    Ok(told)
}

/// How full a process's window is.
#[derive(Debug)]
pub struct Window {
    pub pid: u32,
    pub comm: String,
    pub size: u64,
    pub buffers: u64,
    /// How many bytes of the window the buffers take.
    pub taken: u64,
}

pub fn windows(place: &Where) -> Result<Vec<Window>> {
    let window = |it: Process| Window {
        pid: it.pid,
        size: it.window.into(),
        buffers: it.buffers.len() as u64,
        taken: it.buffers.iter().map(|it| u64::from(it.size)).sum(),
        comm: it.comm,
    };
    Ok(asked(place)?.processes.into_values().map(window).collect())
}

/// What goes on now, as lines or as JSON.
pub fn put(to: &mut Vec<u8>, place: &Where, format: Format) -> Result<()> {
    let told = asked(place)?;
    if format == Format::Text {
        writeln!(to, "after {} steps of {}", told.steps, place.device)?;
        told.processes.values().try_for_each(|it| put_process(to, it))?;
        told.shares.put_text(to, |pid| told.comm(pid))?;
        return Ok(());
    }
    serde_json::to_writer(&mut *to, &serde_json::json!({ "steps": told.steps, "device": place.device }))?;
    to.push(b'\n');
    for it in told.processes.values() {
        serde_json::to_writer(&mut *to, it)?;
        to.push(b'\n');
    }
    told.shares.put_json(to, |pid| told.comm(pid))?;
    Ok(())
}

#[cfg(test)]
mod tests {
    use super::*;

    const PROTOCOL: &str = include_str!("../../../clients/protocol.h");

    /// `MaxThreads` as `max_threads`.
    fn spelled(field: impl std::fmt::Debug) -> String {
        let name = format!("{field:?}");
        let letters = name.char_indices().map(|(at, it)| match it {
            'A'..='Z' if at > 0 => format!("_{}", it.to_ascii_lowercase()),
            _ => it.to_ascii_lowercase().to_string(),
        });
        letters.collect()
    }

    #[test]
    fn a_record_is_as_the_header_has_it() {
        let lines = PROTOCOL.split("struct state_record {").nth(1).and_then(|it| it.split("char comm[16];").next());
        let lines = lines.expect("a record");
        let names = |kind: &str| -> Vec<_> {
            let numbers = lines.lines().filter_map(|it| it.trim().strip_prefix(kind));
            numbers.flat_map(|it| it.split(';').next().unwrap_or_default().trim_start().split(", ")).collect()
        };
        let behind = lines.find("uint32_t ").expect("numbers");
        assert!(lines.rfind("uint64_t ").map_or(false, |it| it < behind), "the places stand first");
        assert_eq!(names("uint64_t "), [Place::Innermost, Place::ObjectPlace, Place::Made].map(spelled));
        use Field::*;
        let ours = [
            Kind,
            Process,
            Pid,
            Tid,
            Seat,
            Euid,
            Flags,
            Window,
            Threads,
            MaxThreads,
            Requested,
            Started,
            Serving,
            Calling,
            Unread,
            Handle,
            ObjectIndex,
            Party,
            Start,
            Size,
            Code,
            Nothing,
        ];
        assert_eq!(names("uint32_t "), ours.map(spelled));
        assert!(PROTOCOL.contains("#define STATE_ROOM 16u") && PROTOCOL.contains("#define STATE_UNREAD 16u"));
        assert!(PROTOCOL.contains("{ STATE_PROCESS = 1, STATE_THREAD, STATE_HANDLE, STATE_BUFFER, STATE_SHARE };"));
        let flags = [MANAGER, DETECTS_SPAM, LOOPS, WAITS, ONE_WAY, HANDED, CALL, OF_USER, OF_ACCOUNT];
        let names = ["MANAGER", "DETECTS_SPAM", "LOOPS", "WAITS", "ONE_WAY", "HANDED", "CALL", "OF_USER", "OF_ACCOUNT"];
        for (flag, name) in flags.iter().zip(names) {
            assert!(PROTOCOL.contains(&format!("#define STATE_{name} {flag}u")), "{name}");
        }
    }
}
