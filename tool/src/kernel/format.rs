// SPDX-License-Identifier: Apache-2.0 OR MIT
//! Which form a file has, told by how it begins, not by its name.
use super::ftrace;
use super::lines::words;
use super::perfetto::varint;
use anyhow::{Context, Result};
use std::fs::File;
use std::io::{self, BufRead, Read};

/// How much is looked at.
const LOOKED: usize = 1 << 16;

#[derive(Clone, Copy, Debug, PartialEq, Eq)]
pub enum Format {
    /// ftrace's text.
    Trace,
    /// A page of systrace's with such text in it.
    Page,
    /// What trace-cmd and perf have recorded.
    TraceCmd,
    PerfData,
    /// A trace of Perfetto's own.
    Perfetto,
    Gzip,
    /// The driver's files of one moment.
    State,
    Stats,
    Transactions,
    Log,
    /// A bug report, as text or zipped.
    Report,
    Zip,
}

impl Format {
    /// What it is called in messages.
    pub fn words(self) -> &'static str {
        match self {
            Format::Trace => "ftrace's text",
            Format::Page => "a page of systrace's",
            Format::TraceCmd => "a recording of trace-cmd's",
            Format::PerfData => "a recording of perf's",
            Format::Perfetto => "a trace of Perfetto's",
            Format::Gzip => "compressed by gzip",
            Format::State => "a state file of the driver's",
            Format::Stats => "a stats file of the driver's",
            Format::Transactions => "a transactions file of the driver's",
            Format::Log => "a transaction log of the driver's",
            Format::Report => "a bug report",
            Format::Zip => "a zip file",
        }
    }

    /// Whether it tells events one after the other.
    pub fn is_trace(self) -> bool {
        matches!(self, Format::Trace | Format::Page | Format::TraceCmd | Format::PerfData | Format::Perfetto)
    }
}

const MARKS: [(&[u8], Format); 4] = [
    (b"PK\x03\x04", Format::Zip),
    (b"\x17\x08\x44tracing", Format::TraceCmd),
    (b"PERFILE2", Format::PerfData),
    (b"\x1f\x8b", Format::Gzip),
];

/// What the first line that says something tells.
fn of_line(line: &[u8]) -> Option<Format> {
    let is = |text: &str| line.starts_with(text.as_bytes());
    let mut words = words(line);
    let is_entry = |it: &[u8]| it.strip_suffix(b":").map_or(false, |it| it.iter().all(u8::is_ascii_digit));
    match () {
        _ if is("binder state:") || is("binder proc state:") => Some(Format::State),
        _ if is("binder stats:") => Some(Format::Stats),
        _ if is("binder transactions:") => Some(Format::Transactions),
        _ if is("# tracer:") || is("TRACE:") || ftrace::line(line).is_some() => Some(Format::Trace),
        _ if is("== dumpstate: ") || is("------ BINDER ") => Some(Format::Report),
        _ if words.next().map_or(false, is_entry) && matches!(words.next(), Some(b"call" | b"reply" | b"async")) => {
            Some(Format::Log)
        }
        _ => None,
    }
}

/// The form of what begins so; None where it is none of these, a journal perhaps.
pub fn of(head: &[u8]) -> Option<Format> {
    if let Some((_, format)) = MARKS.iter().find(|it| head.starts_with(it.0)) {
        return Some(*format);
    }
    if is_perfetto(head) {
        return Some(Format::Perfetto);
    }
    let is_page = |it: &[u8]| it.trim_start_with(b"<!DOCTYPE") || it.trim_start_with(b"<html");
    if is_page(head) {
        return Some(Format::Page);
    }
    head.split(|it| *it == b'\n').find_map(of_line)
}

/// Whether it is packets, one behind the other, each with a mark and its length before it, and of bytes that no text has.
fn is_perfetto(head: &[u8]) -> bool {
    const PACKETS: usize = 3;
    const MARK: u8 = 0x0a;
    let mut rest = head;
    for _ in 0..PACKETS {
        let (length, behind) = match rest.split_first().filter(|it| *it.0 == MARK).and_then(|it| varint(it.1)) {
            Some(found) => found,
            None => return false,
        };
        match usize::try_from(length).ok().and_then(|it| behind.get(it..)) {
            Some(behind) => rest = behind,
            // A packet that goes on behind what is looked at.
            None => break,
        }
    }
    head.iter().any(|it| *it < 9)
}

trait TrimStart {
    fn trim_start_with(&self, begin: &[u8]) -> bool;
}

impl TrimStart for [u8] {
    /// Whether it begins so, in any case, behind blanks.
    fn trim_start_with(&self, begin: &[u8]) -> bool {
        let from = self.iter().position(|it| !it.is_ascii_whitespace()).unwrap_or(0);
        self[from..].get(..begin.len()).map_or(false, |it| it.eq_ignore_ascii_case(begin))
    }
}

/// The form of a file, or of what comes on standard input, which can be read from its beginning still. None where it is a journal, or
/// nothing that is known.
pub fn of_path(path: &str) -> Result<Option<Format>> {
    let mut head = Vec::new();
    if path == "-" {
        return Ok(of(io::stdin().lock().fill_buf()?));
    }
    // Who opens a file that isn't there says so, here as there.
    File::open(path).and_then(|it| it.take(LOOKED as u64).read_to_end(&mut head)).with_context(|| path.to_string())?;
    Ok(of(&head))
}

#[cfg(test)]
mod tests {
    use super::*;

    #[test]
    fn a_form_is_told_by_its_content() {
        let told: [(&str, Option<Format>); 14] = [
            ("# tracer: nop\n#\n", Some(Format::Trace)),
            ("capturing trace... done\nTRACE:\n# tracer: nop\n", Some(Format::Trace)),
            ("   sh-116  [001] ..... 5.911656: binder_return: cmd=0x7206\n", Some(Format::Trace)),
            ("<!DOCTYPE html>\n<html>", Some(Format::Page)),
            ("\n <HTML>", Some(Format::Page)),
            ("binder state:\nproc 5\n", Some(Format::State)),
            ("binder proc state:\nproc 5\n", Some(Format::State)),
            ("binder stats:\n", Some(Format::Stats)),
            ("binder transactions:\n", Some(Format::Transactions)),
            ("2: call  from 114:114 to 112:0 context binder node 1", Some(Format::Log)),
            ("========\n== dumpstate: 2026-11-29 05:20:07\n========\n", Some(Format::Report)),
            ("BNDJ0002", None),
            ("#!/bin/sh\necho\n", None),
            ("", None),
        ];
        for (head, format) in told {
            assert_eq!(of(head.as_bytes()), format, "{head:?}");
        }
        assert_eq!(of(b"PK\x03\x04xx"), Some(Format::Zip));
        assert_eq!(of(b"\x17\x08\x44tracing6"), Some(Format::TraceCmd));
        assert_eq!(of(b"\n\x02\x08\x01\n\x03\x08\x80\x01\n\x02\x08\x01"), Some(Format::Perfetto));
        assert_eq!(of(b"\n\ntext\n"), None);
    }
}
