// SPDX-License-Identifier: Apache-2.0 OR MIT
//! Whether entries follow from those before them, by the proved library: it makes each step anew. It is opened where it is there, and
//! only what judges needs it.
use crate::journal::{self, Answer, Entry, Heading, Step};
use crate::record::Parcel;
use crate::source::Source;
use anyhow::{bail, ensure, Context, Result};
use libloading::Library;
use std::env;
use std::ffi::c_void;
use std::fmt;
use std::ptr::null_mut;

/// What of the library's header (include/hullpippin.h) is used.
const DONE: u32 = 0;
const HISTORY_FULL: u32 = 11;
const NO_COMMAND: u32 = 12;
const VERSION: u32 = 2;

#[repr(C)]
struct Handle {
    at: *mut c_void,
}

type Live = *mut Handle;

/// Room for what the library tells of a step. The entry tells it too, in a journal's own bytes.
#[repr(C)]
struct Came {
    kind: u32,
    places: [u64; 2],
    consumed: u32,
    notes: usize,
    more: [u32; 3],
    sizes: [usize; 3],
}

struct Functions {
    new: unsafe extern "C" fn(u32, Live) -> u32,
    open: unsafe extern "C" fn(Live, u32, u32, u32, u32, *mut Came) -> u32,
    attach: unsafe extern "C" fn(Live, u32, u32, *mut Came) -> u32,
    manager: unsafe extern "C" fn(Live, u32, *mut Came) -> u32,
    set_spam: unsafe extern "C" fn(Live, u32, u32, *mut Came) -> u32,
    #[allow(clippy::type_complexity)]
    command: unsafe extern "C" fn(Live, u32, *const u8, usize, *const u8, usize, *const u8, usize, *mut Came) -> u32,
    read: unsafe extern "C" fn(Live, u32, u32, *mut Came) -> u32,
    exit_thread: unsafe extern "C" fn(Live, u32, *mut Came) -> u32,
    exit_process: unsafe extern "C" fn(Live, u32, *mut Came) -> u32,
    entry: unsafe extern "C" fn(Live, *mut u8, usize, *mut usize) -> u32,
    free: unsafe extern "C" fn(Live),
    /// They are gone with it.
    _library: Library,
}

const NAME: &str = "libhullpippin.so.2";

/// The library: what HULLPIPPIN_LIBRARY names, else the one that was installed with the program, else the system's.
fn library_name() -> String {
    let named = env::var("HULLPIPPIN_LIBRARY").ok().filter(|it| !it.is_empty());
    named.or_else(beside_program).unwrap_or_else(|| NAME.into())
}

/// The library in PREFIX/lib where the program is in PREFIX/bin, as tools/install leaves both.
fn beside_program() -> Option<String> {
    let program = env::current_exe().ok()?;
    let path = program.parent()?.parent()?.join("lib").join(NAME);
    path.exists().then(|| path.to_string_lossy().into_owned())
}

impl Functions {
    fn load() -> Result<Functions> {
        let name = library_name();
        // SAFETY: nothing is done when it is opened; it is a library of C without an initializer.
        let library = unsafe { Library::new(&name) }
            .context("no library that judges, which tools/install brings or HULLPIPPIN_LIBRARY names")?;
        macro_rules! found {
            ($function:literal) => {
                // SAFETY: the function is of that type in the header, whose version is looked at below.
                *unsafe { library.get(concat!("hullpippin_", $function, "\0").as_bytes()) }
                    .with_context(|| format!("{name} has no function hullpippin_{}", $function))?
            };
        }
        let version: unsafe extern "C" fn() -> u32 = found!("version");
        // SAFETY: it takes nothing, and reads nothing that changes.
        let version = unsafe { version() };
        ensure!(version >> 16 == VERSION, "{name} is of version {}, and {VERSION} is needed", version >> 16);
        Ok(Functions {
            new: found!("live_new"),
            open: found!("live_open"),
            attach: found!("live_attach"),
            manager: found!("live_manager"),
            set_spam: found!("live_set_spam"),
            command: found!("live_command"),
            read: found!("live_read"),
            exit_thread: found!("live_exit_thread"),
            exit_process: found!("live_exit_process"),
            entry: found!("live_entry"),
            free: found!("free_live"),
            _library: library,
        })
    }
}

/// An engine that has made the steps of all entries so far.
pub struct Judge {
    functions: Functions,
    live: Handle,
    heading: Heading,
    entry: Vec<u8>,
}

/// What the rules give in place of an entry that doesn't follow from those before it.
#[derive(Clone, Debug)]
pub struct Given {
    heading: Heading,
    place: u64,
    /// None where they give no step at all.
    entry: Option<Vec<u8>>,
}

impl Given {
    pub fn answer(&self) -> Option<Answer<'_>> {
        let bytes = self.entry.as_ref()?;
        journal::entry(&self.heading, self.place, 0, bytes).ok().map(|it| it.answer)
    }

    /// Where what was read differs from what the rules give, part by part.
    pub fn differences(&self, recorded: &Answer<'_>) -> Vec<(&'static str, usize)> {
        let (recorded, given) = match (recorded, self.answer()) {
            (Answer::Got { stream, parcel }, Some(Answer::Got { stream: given, parcel: other })) => {
                ([stream, parcel.data, parcel.offsets], [given, other.data, other.offsets])
            }
            _ => return Vec::new(),
        };
        let names = ["returns", "data", "offsets"];
        let parts =
            names.into_iter().zip(recorded.into_iter().zip(given)).filter(|(_, (recorded, given))| recorded != given);
        parts.map(|(name, (recorded, given))| (name, same(recorded, given))).collect()
    }
}

/// How many bytes both begin with.
fn same(one: &[u8], other: &[u8]) -> usize {
    one.iter().zip(other).take_while(|(one, other)| one == other).count()
}

impl fmt::Debug for Judge {
    fn fmt(&self, f: &mut fmt::Formatter<'_>) -> fmt::Result {
        f.write_str("Judge")
    }
}

impl Judge {
    /// An engine for the seats of a journal.
    pub fn new(heading: &Heading) -> Result<Judge> {
        let functions = Functions::load()?;
        let mut live = Handle { at: null_mut() };
        // SAFETY: the handle is empty.
        let status = unsafe { (functions.new)(heading.seats, &mut live) };
        ensure!(status == DONE, "the library makes no engine of {} seats: its status is {status}", heading.seats);
        Ok(Judge { functions, live, heading: *heading, entry: vec![0; 4096] })
    }

    /// Makes the step of an entry: whether that can be done.
    pub fn step(&mut self, seat: u32, step: &Step<'_>) -> u32 {
        let Judge { functions: of, live, .. } = self;
        let mut room = Came { kind: 0, places: [0; 2], consumed: 0, notes: 0, more: [0; 3], sizes: [0; 3] };
        let came = &mut room;
        // SAFETY: the handle has an engine, and each pointer leads to what it says until the call is back.
        unsafe {
            match *step {
                Step::Open { pid, euid, window } => (of.open)(live, seat, pid, euid, window, came),
                Step::Attach { pid } => (of.attach)(live, seat, pid, came),
                Step::Manager => (of.manager)(live, seat, came),
                Step::Spam { on } => (of.set_spam)(live, seat, on.into(), came),
                Step::Command { bytes, parcel, command } => {
                    let record = command.record();
                    let Parcel { data, offsets } =
                        parcel.unwrap_or_else(|| missing(record.map_or(0, |it| it.data_size)));
                    let (command, size) = (bytes.as_ptr(), bytes.len());
                    let (data, data_size) = (data.as_ptr(), data.len());
                    (of.command)(live, seat, command, size, data, data_size, offsets.as_ptr(), offsets.len(), came)
                }
                Step::Read { limit } => (of.read)(live, seat, limit, came),
                Step::ExitThread => (of.exit_thread)(live, seat, came),
                Step::ExitProcess => (of.exit_process)(live, seat, came),
            }
        }
    }

    /// The bytes of the entry that the latest step has made.
    pub fn made(&mut self) -> Result<&[u8]> {
        loop {
            let (room, mut size) = (self.entry.len(), 0);
            // SAFETY: the handle has an engine, and there is as much room as it says.
            let status = unsafe { (self.functions.entry)(&mut self.live, self.entry.as_mut_ptr(), room, &mut size) };
            ensure!(status == DONE, "the library tells no entry: its status is {status}");
            if size <= room {
                return Ok(&self.entry[..size]);
            }
            self.entry.resize(size, 0);
        }
    }

    /// Goes on with an entry: None where it follows from those before it. Nothing is to be asked behind one that doesn't.
    pub fn judged(&mut self, entry: &Entry<'_>) -> Result<Option<Given>> {
        let (heading, place) = (self.heading, entry.place);
        match self.step(entry.seat, &entry.step) {
            DONE => {}
            HISTORY_FULL | NO_COMMAND => return Ok(Some(Given { heading, place, entry: None })),
            status => bail!("the library doesn't make the step at {place}: its status is {status}"),
        }
        let bytes = self.made()?;
        if journal::entry(&heading, place, 0, bytes).map_or(false, |it| it.answer == entry.answer) {
            return Ok(None);
        }
        Ok(Some(Given { heading, place, entry: Some(bytes.to_vec()) }))
    }
}

/// The first entry of a journal that doesn't follow from those before it.
pub fn first_other(path: &str) -> Result<Option<u64>> {
    let mut source = Source::open(path, false)?;
    let mut judge = Judge::new(source.heading())?;
    while let Some(entry) = source.next()? {
        if judge.judged(&entry)?.is_some() {
            return Ok(Some(entry.place));
        }
    }
    Ok(None)
}

/// A step without a parcel is answered as one whose parcel has other lengths than its record says.
fn missing(data_size: u64) -> Parcel<'static> {
    Parcel { data: if data_size == 0 { &[0] } else { &[] }, offsets: &[] }
}

impl Drop for Judge {
    fn drop(&mut self) {
        // SAFETY: the handle has an engine.
        unsafe { (self.functions.free)(&mut self.live) }
    }
}

#[cfg(test)]
mod tests {
    use super::*;
    use std::mem::size_of;

    #[test]
    fn what_was_read_differs_from_a_byte_on() {
        assert_eq!(same(b"abcd", b"abxd"), 2);
        assert_eq!(same(b"ab", b"abxd"), 2);
        assert_eq!(same(b"", b"a"), 0);
    }

    #[test]
    fn the_numbers_are_the_headers() {
        const HEADER: &str = include_str!("../../include/hullpippin.h");
        for (name, number) in [("DONE", DONE), ("HISTORY_FULL", HISTORY_FULL), ("NO_COMMAND", NO_COMMAND)] {
            let line =
                HEADER.lines().find(|it| it.trim_start().starts_with(&format!("HULLPIPPIN_{name} ="))).expect(name);
            assert!(line.contains(&format!("= {number},")), "{line}");
        }
        assert!(HEADER.contains(&format!("#define HULLPIPPIN_VERSION 0x0{VERSION}")));
    }

    /// The size and the alignment of a member's type in C, on this machine.
    fn of_type(name: &str) -> usize {
        match name {
            "uint32_t" | "int32_t" => 4,
            "size_t" => size_of::<usize>(),
            "uint64_t" => 8,
            _ => panic!("a member of the type {name}"),
        }
    }

    /// Where a structure ends whose members stand one behind the other, each where its type may.
    fn size_in_c(members: &str) -> usize {
        let (mut end, mut most) = (0usize, 1);
        for member in members.split(';').map(str::trim).filter(|it| !it.is_empty()) {
            let (kind, names) = member.split_once(' ').expect("a type");
            let size = of_type(kind);
            for name in names.split(',') {
                let count =
                    name.split_once('[').map_or(1, |(_, it)| it.trim_end_matches(']').parse().expect("a number"));
                end = (end + size - 1) / size * size + count * size;
            }
            most = most.max(size);
        }
        (end + most - 1) / most * most
    }

    #[test]
    fn there_is_room_for_what_the_library_tells() {
        const HEADER: &str = include_str!("../../include/hullpippin.h");
        let before = HEADER.split("} hullpippin_answer;").next().expect("the answer's members");
        let members = before.rsplit("typedef struct {").next().expect("the answer's members");
        let bare: String = members.split("/*").map(|it| it.split_once("*/").map_or(it, |(_, behind)| behind)).collect();
        assert_eq!(size_of::<Came>(), size_in_c(&bare), "{bare}");
        // Each function that the judge calls is handed the same.
        for name in ["open", "attach", "manager", "set_spam", "command", "read", "exit_thread", "exit_process"] {
            let call = HEADER.split(&format!("hullpippin_live_{name}(")).nth(1).and_then(|it| it.split(");").next());
            assert!(call.expect(name).ends_with("hullpippin_answer *answer"), "{name}");
        }
    }
}
