// SPDX-License-Identifier: Apache-2.0 OR MIT
//! A recording's files, as docs/FORMATS.md lays them out: what each thread asked of a device, and the kernel's own trace.
use crate::record::{u32_at, u64_at};
use anyhow::{bail, ensure, Context, Result};
use std::ffi::OsStr;
use std::fs;
use std::io::Read;
use std::path::Path;
use std::time::SystemTime;

pub const THREAD_MARK: &[u8; 8] = b"HPREC001";
pub const TRACE_MARK: &[u8; 8] = b"HPTRACE1";
const ORDER: &str = "order";
const HEAD: usize = 64;
const RECORD_HEAD: usize = 24;
const WRITE_READ: u32 = 4;

/// What stands in a file, with when it began and came back; None where it never did.
#[derive(Debug)]
pub struct Call {
    pub begin: u64,
    pub end: Option<u64>,
    pub what: Asked,
}

/// An open device: the process that has opened it, and the number that it gave it.
pub type Opened = (u32, u32);

#[derive(Debug)]
pub enum Asked {
    Open { file: Opened, euid: u32, path: String },
    Window { file: Opened, size: u64 },
    Ioctl { file: Opened, request: u32, argument: u32, result: i32, error: i32 },
    WriteRead(WriteRead),
    Close { file: Opened },
}

#[derive(Debug)]
pub struct WriteRead {
    pub file: Opened,
    pub result: i32,
    pub error: i32,
    pub write_size: u64,
    pub write_before: u64,
    pub write_consumed: u64,
    pub read_size: u64,
    pub read_before: u64,
    /// What was written, from `write_before` on, and its parcels; what was read, and its.
    pub written: Vec<u8>,
    pub sent: Vec<u8>,
    pub returned: Vec<u8>,
    pub received: Vec<u8>,
    /// Whether something of it isn't there.
    pub is_part: bool,
}

#[derive(Debug)]
pub struct Thread {
    pub pid: u32,
    pub tid: u32,
    pub name: String,
    pub missed: u64,
    /// What CLOCK_REALTIME was ahead of CLOCK_MONOTONIC.
    pub ahead: u64,
    pub calls: Vec<Call>,
}

#[derive(Debug, Default)]
pub struct Files {
    pub threads: Vec<Thread>,
    pub trace: Option<String>,
}

fn opened(body: &[u8]) -> Opened {
    (u32_at(body, 0), u32_at(body, 4))
}

fn padded(size: usize) -> usize {
    size.saturating_add(7) & !7
}

/// How many bytes a write and read has before its parts.
const FIXED: usize = 88;

/// Of one that never came back nothing is known that was read: its thread may have been killed while that was kept.
fn write_read(body: &[u8], came_back: bool) -> Result<WriteRead> {
    ensure!(body.len() >= FIXED, "a write and read of {} bytes", body.len());
    let mut at = FIXED;
    let mut part = |place: usize| {
        let size = u32_at(body, place) as usize;
        let end = at.checked_add(size).filter(|it| *it <= body.len()).context("a part goes past its record")?;
        let found = body[at..end].to_vec();
        at = padded(end).min(body.len());
        Ok::<_, anyhow::Error>(found)
    };
    let (written, sent) = (part(64)?, part(68)?);
    let (returned, received) = if came_back { (part(72)?, part(76)?) } else { (Vec::new(), Vec::new()) };
    Ok(WriteRead {
        file: opened(body),
        result: u32_at(body, 8) as i32,
        error: u32_at(body, 12) as i32,
        write_size: u64_at(body, 16),
        write_before: u64_at(body, 24),
        write_consumed: u64_at(body, 32),
        read_size: u64_at(body, 40),
        read_before: u64_at(body, 48),
        written,
        sent,
        returned,
        received,
        is_part: u32_at(body, 80) != 0,
    })
}

fn text(bytes: &[u8]) -> String {
    String::from_utf8_lossy(bytes.split(|it| *it == 0).next().unwrap_or(&[])).into_owned()
}

fn call(kind: u32, begin: u64, end: u64, body: &[u8]) -> Result<Call> {
    let what = match kind {
        1 if body.len() > 16 => Asked::Open { file: opened(body), euid: u32_at(body, 12), path: text(&body[16..]) },
        2 => Asked::Window { file: opened(body), size: u64_at(body, 8) },
        3 => Asked::Ioctl {
            file: opened(body),
            request: u32_at(body, 8),
            argument: u32_at(body, 12),
            result: u32_at(body, 16) as i32,
            error: u32_at(body, 20) as i32,
        },
        WRITE_READ => Asked::WriteRead(write_read(body, end > 0)?),
        5 => Asked::Close { file: opened(body) },
        other => bail!("a record of kind {other}"),
    };
    Ok(Call { begin, end: Some(end).filter(|it| *it > 0), what })
}

/// Whether the last record of a thread is one that it was killed in: what it had read was counted in the record, and not in the file yet.
fn is_cut_off(rest: &[u8], size: usize) -> bool {
    let [written, sent] = [64, 68].map(|at| u32_at(rest, RECORD_HEAD + at) as usize);
    let kept = (RECORD_HEAD + FIXED).saturating_add(padded(written)).saturating_add(sent);
    u32_at(rest, 4) == WRITE_READ && size > rest.len() && kept == rest.len()
}

/// A thread's file, and how many bytes it has.
fn thread(bytes: &[u8]) -> Result<(Thread, usize)> {
    ensure!(bytes.len() >= HEAD, "a thread's file of {} bytes", bytes.len());
    let used = usize::try_from(u64_at(bytes, 8)).ok().filter(|it| (HEAD..=bytes.len()).contains(it));
    let used = used.context("it says that it has more than there is")?;
    let (mut calls, mut at) = (Vec::new(), HEAD);
    while at < used {
        let size = u32_at(bytes, at) as usize;
        let end = at.checked_add(size).filter(|it| *it <= used && size >= RECORD_HEAD);
        let is_cut = end.is_none() && is_cut_off(&bytes[at..used], size);
        let end = end.or(Some(used).filter(|_| is_cut));
        let record = &bytes[at..end.with_context(|| format!("byte {at}: a record of {size} bytes"))?];
        let size = record.len();
        let (kind, begin, end) = (u32_at(record, 4), u64_at(record, 8), u64_at(record, 16));
        let end = if is_cut { 0 } else { end };
        calls.push(call(kind, begin, end, &record[RECORD_HEAD..]).with_context(|| format!("byte {at}"))?);
        at += size;
    }
    let found = Thread {
        pid: u32_at(bytes, 16),
        tid: u32_at(bytes, 20),
        missed: u64_at(bytes, 32),
        ahead: u64_at(bytes, 40),
        name: text(&bytes[48..HEAD]),
        calls,
    };
    Ok((found, used))
}

/// Whether it is a recording: a folder in which a thread has left something, or one file with all of it.
pub fn is_recording(path: &str) -> bool {
    let begins = |path: &Path| {
        let mut mark = [0; THREAD_MARK.len()];
        let is_read = fs::File::open(path).and_then(|mut it| it.read_exact(&mut mark)).is_ok();
        is_read && [THREAD_MARK, TRACE_MARK].contains(&&mark)
    };
    match fs::read_dir(path) {
        Ok(names) => names.flatten().any(|it| it.path().is_file() && begins(&it.path())),
        Err(_) => Path::new(path).is_file() && begins(Path::new(path)),
    }
}

/// When the latest of its files was changed.
fn changed(path: &str) -> Option<SystemTime> {
    let of = |path: &Path| path.metadata().and_then(|it| it.modified()).ok();
    match fs::read_dir(path) {
        Ok(names) => names.flatten().filter(|it| !is_order(&it.file_name())).filter_map(|it| of(&it.path())).max(),
        Err(_) => of(Path::new(path)),
    }
}

/// Whether a file in a recording's folder is its order, or what lies beside that.
fn is_order(name: &OsStr) -> bool {
    Path::new(name).file_stem() == Some(OsStr::new(ORDER))
}

/// Where the order of a recording is laid for all that shows journals, and whether it is there, and of what is recorded now.
pub fn order_of(path: &str) -> (String, bool) {
    let folder = Path::new(path);
    let order = if folder.is_dir() { folder.join(ORDER).display().to_string() } else { format!("{path}.{ORDER}") };
    let made = Path::new(&order).metadata().and_then(|it| it.modified()).ok();
    let is_new = made.zip(changed(path)).map_or(false, |(made, changed)| made >= changed);
    (order, is_new)
}

impl Files {
    /// A folder that the recorder has filled, or one file with all of it.
    pub fn read(path: &str) -> Result<Files> {
        Files::gathered(path).with_context(|| path.to_string())
    }

    fn gathered(path: &str) -> Result<Files> {
        let mut files = Files::default();
        if !Path::new(path).is_dir() {
            let bytes = fs::read(path)?;
            files.take_all(&bytes)?;
        } else {
            let mut names: Vec<_> = fs::read_dir(path)?.map(|it| it.map(|it| it.path())).collect::<Result<_, _>>()?;
            names.sort();
            for name in names.into_iter().filter(|it| it.is_file()) {
                let bytes = fs::read(&name).with_context(|| name.display().to_string())?;
                let is_trace = name.file_name().map_or(false, |it| it == "trace");
                if is_trace {
                    files.trace = Some(String::from_utf8_lossy(&bytes).into_owned());
                } else if bytes.starts_with(THREAD_MARK) {
                    files.threads.push(thread(&bytes).with_context(|| name.display().to_string())?.0);
                }
            }
        }
        ensure!(!files.threads.is_empty(), "no recording: no thread has left anything here");
        files.threads.sort_by_key(|it| (it.pid, it.tid, it.calls.first().map(|it| it.begin)));
        Ok(files)
    }

    /// What one file has.
    #[cfg(feature = "fuzz")]
    pub fn of_bytes(bytes: &[u8]) -> Result<Files> {
        let mut files = Files::default();
        files.take_all(bytes)?;
        Ok(files)
    }

    /// One file: threads' files one behind the other, and perhaps the trace.
    fn take_all(&mut self, bytes: &[u8]) -> Result<()> {
        let mut at = 0;
        while at < bytes.len() {
            let rest = &bytes[at..];
            if rest.starts_with(THREAD_MARK) {
                let (thread, used) = thread(rest).with_context(|| format!("from byte {at} on"))?;
                self.threads.push(thread);
                at += used;
            } else if rest.starts_with(TRACE_MARK) {
                let size = usize::try_from(u64_at(rest, 8)).ok().and_then(|it| it.checked_add(16));
                let size =
                    size.filter(|it| *it <= rest.len()).with_context(|| format!("byte {at}: the trace is cut off"))?;
                self.trace = Some(String::from_utf8_lossy(&rest[16..size]).into_owned());
                at += size;
            } else {
                bail!("byte {at}: neither a thread's file nor a trace begins here");
            }
        }
        Ok(())
    }
}
