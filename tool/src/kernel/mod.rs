// SPDX-License-Identifier: Apache-2.0 OR MIT
//! What Linux's own driver tells of itself, on phones, emulators and desktops: its events, its files of one moment, and bug reports,
//! which have these. Each form is told by its content.
mod binder_lines;
pub mod counts;
mod errno;
pub mod following;
pub mod format;
mod ftrace;
pub mod lines;
pub mod log;
pub mod look;
pub mod names;
pub mod perfetto;
pub mod report;
pub mod state;
mod threads;
pub mod trace;
pub mod tracefs;
mod verbs;
#[cfg(feature = "whole")]
pub mod zipped;

use crate::following::ObjectId;
use anyhow::{bail, Result};
use format::Format;
use trace::Trace;

/// What stands in place of an object's index where a kernel numbers it: no step of a journal makes so many.
const OF_KERNEL: u32 = u32::MAX;

/// The object that a kernel calls node so and so.
pub fn node(number: u64) -> ObjectId {
    ObjectId { place: number, index: OF_KERNEL }
}

/// Whether a kernel numbers it.
pub fn is_node(object: ObjectId) -> bool {
    object.index == OF_KERNEL
}

/// An object of a journal, or a kernel's number of a node.
pub fn object(word: &str) -> Result<ObjectId, String> {
    match word.parse() {
        Ok(number) => Ok(node(number)),
        Err(_) => word.parse().map_err(|it: String| format!("{it}; of a kernel the number of a node")),
    }
}

/// A kernel's trace, where this is one; None where it is a journal, or nothing that is known.
pub fn trace_of(path: &str) -> Result<Option<Trace>> {
    match format::of_path(path)? {
        Some(format) if format.is_trace() => Trace::open(path, format).map(Some),
        Some(format) => bail!("{}: {}", crate::play::name(path), advice(format)),
        None => Ok(None),
    }
}

/// What may be done with a file of another form than a command reads.
pub fn advice(format: Format) -> String {
    let what = match format {
        Format::Gzip => "which isn't read: gunzip unpacks it",
        Format::Stats => "which `stats` reads",
        Format::State | Format::Transactions => "which `state`, `holders` and `leaks` read",
        Format::Log => "which `calls` and `explain` read",
        Format::Report | Format::Zip => "which `state`, `holders`, `leaks`, `stats`, `calls` and `explain` read",
        _ => "which `calls`, `stats`, `slow`, `diagram`, `export` and `top` read",
    };
    format!("this is {}, {what}", format.words())
}

/// Of a file that is no journal, what it is.
pub fn explain_fault(path: &str, fault: anyhow::Error) -> anyhow::Error {
    match format::of_path(path) {
        Ok(Some(format)) => anyhow::anyhow!("{}: {}", crate::play::name(path), advice(format)),
        _ => fault,
    }
}
