// SPDX-License-Identifier: Apache-2.0 OR MIT
//! What libFuzzer calls: each reader of what others have written, and the views of what it has read. Whatever the bytes, there is an answer
//! or a named error; a panic is found, as is what takes too long or too much.
use crate::aidl;
use crate::chronicle::Chronicle;
use crate::judging::files::Files;
use crate::kernel::lines::Lines;
use crate::kernel::trace::{Reader, Seen};
use crate::kernel::{counts, format, log, look, names, perfetto, report, state, zipped};
use crate::out::Palette;
use crate::told::Wanted;
use std::io::Cursor;

fn lines(bytes: &[u8]) -> Lines<'_> {
    Lines::new(Box::new(bytes))
}

/// All lines of a trace, and those of its calls.
fn trace(bytes: &[u8]) {
    let wanted = Wanted::default();
    let chronicle = Chronicle::new(&wanted, Palette::default());
    let (mut reader, mut told) = (Reader::default(), Vec::new());
    let mut tell = |seen: Seen<'_>, following: &_| {
        if let Seen::Event(event) = seen {
            chronicle.told_by(event, following, &mut told);
        }
        Ok(())
    };
    for (number, line) in bytes.split(|it| *it == b'\n').enumerate() {
        if reader.line(number as u64 + 1, line, &mut tell).is_err() {
            return;
        }
    }
    let _ = reader.end(&mut tell);
}

/// The first byte says which reader is meant, so that one corpus serves all.
fn read(bytes: &[u8]) {
    let (kind, bytes) = match bytes.split_first() {
        Some(found) => found,
        None => return,
    };
    match kind {
        b't' => trace(bytes),
        b's' => drop(state::read(&mut lines(bytes)).map(|it| look::Look::of_state(it).put_state(&mut Vec::new()))),
        b'c' => drop(counts::read(&mut lines(bytes))),
        b'l' => drop(log::read(&mut lines(bytes))),
        b'r' => drop(report::parts(&mut lines(bytes))),
        b'z' => drop(zipped::unzip(Cursor::new(bytes))),
        b'f' => drop(format::of(bytes)),
        b'p' => drop(perfetto::Recording::read(bytes)),
        b'n' => drop(names::said::Said::default().read(&mut lines(bytes))),
        b'g' => drop(Files::of_bytes(bytes).map(|it| names::registered::Registered::default().add_files(&it))),
        b'a' => drop(std::str::from_utf8(bytes).map(aidl::reader::read)),
        _ => {}
    }
}

/// # Safety
///
/// `data` leads to `size` bytes.
#[no_mangle]
pub unsafe extern "C" fn LLVMFuzzerTestOneInput(data: *const u8, size: usize) -> i32 {
    if size > 0 {
        // SAFETY: so libFuzzer says.
        read(unsafe { std::slice::from_raw_parts(data, size) });
    }
    0
}
