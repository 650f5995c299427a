// SPDX-License-Identifier: Apache-2.0 OR MIT
//! What a method was called with, as far as its parcel has simple types; all else as bytes from there on.
use super::reader::Argument;
use crate::parcel::put_hex;
use crate::record::{u32_at, u64_at, Flat, OBJECT_SIZE};

/// How much of a text, and of bytes, is told.
const MOST_TEXT: usize = 40;
const MOST_BYTES: usize = 16;

/// A type as a parcel lays it out.
#[derive(Clone, Copy, Debug, PartialEq, Eq)]
pub enum Kind {
    Boolean,
    Int,
    Long,
    Float,
    Double,
    Text,
    Object,
    /// Anything else.
    Other,
}

/// A value's words, and where the next one begins; None where it isn't all there, or isn't one.
fn value(kind: Kind, data: &[u8], at: usize) -> Option<(String, usize)> {
    let whole = |size: usize| data.get(at..at.checked_add(size)?).map(|_| at + size);
    match kind {
        Kind::Boolean => {
            let end = whole(4)?;
            let words = match u32_at(data, at) {
                0 => "false",
                1 => "true",
                _ => return None,
            };
            Some((words.into(), end))
        }
        Kind::Int => Some(((u32_at(data, at) as i32).to_string(), whole(4)?)),
        Kind::Long => Some(((u64_at(data, at) as i64).to_string(), whole(8)?)),
        Kind::Float => Some((f32::from_bits(u32_at(data, at)).to_string(), whole(4)?)),
        Kind::Double => Some((f64::from_bits(u64_at(data, at)).to_string(), whole(8)?)),
        Kind::Text => text(data, at),
        Kind::Object => object(data, at),
        Kind::Other => None,
    }
}

/// A text of 16-bit units with their count before them, -1 where there is none, and a zero behind it.
fn text(data: &[u8], at: usize) -> Option<(String, usize)> {
    let count = u32_at(data, at);
    data.get(at..at.checked_add(4)?)?;
    if count == u32::MAX {
        return Some(("null".into(), at + 4));
    }
    let size = (count as usize).checked_add(1)?.checked_mul(2)?;
    let end = (at + 4).checked_add(size)?.checked_add(3)? & !3;
    let units = data.get(at + 4..(at + 4).checked_add(size)?)?.chunks_exact(2);
    data.get(..end)?;
    let units: Vec<u16> = units.map(|it| u16::from_le_bytes([it[0], it[1]])).collect();
    let (last, units) = units.split_last()?;
    let text = String::from_utf16(units).ok().filter(|_| *last == 0)?;
    let more = if text.chars().count() > MOST_TEXT { ".." } else { "" };
    let text: String = text.chars().take(MOST_TEXT).collect();
    Some((format!("{:?}{more}", text), end))
}

fn object(data: &[u8], at: usize) -> Option<(String, usize)> {
    let flat = Flat::read(data, at as u64)?;
    let words = match (flat.binder, flat.kind) {
        (0, kind) if kind.is_binder() => "null".into(),
        (binder, kind) if kind.is_binder() => format!("binder {binder:#x}"),
        (handle, kind) if kind.is_handle() => format!("handle {handle}"),
        _ => return None,
    };
    Some((words, at + OBJECT_SIZE))
}

/// The words of all arguments, with so many bytes behind each object; and where what couldn't be read begins, if anything is left.
fn read(kinds: &[Kind], data: &[u8], from: usize, behind_object: usize) -> (Vec<String>, Option<usize>) {
    let (mut words, mut at) = (Vec::new(), from);
    for kind in kinds {
        match value(*kind, data, at) {
            Some((word, end)) => {
                words.push(word);
                at = end + if *kind == Kind::Object { behind_object } else { 0 };
            }
            None => return (words, Some(at.min(data.len()))),
        }
    }
    (words, Some(at).filter(|at| *at != data.len()))
}

/// What a method was called with, behind the interface's name in its parcel, as `("hello", binder 0x1000, false, 8)`. Newer systems lay
/// four bytes of stability behind each object: what uses the parcel up is what it is.
pub fn words(arguments: &[Argument], kind_of: impl Fn(&Argument) -> Kind, data: &[u8], from: usize) -> String {
    const STABILITY: usize = 4;
    let taken: Vec<&Argument> = arguments.iter().filter(|it| !it.is_out || it.is_array).collect();
    let kinds: Vec<Kind> = taken.into_iter().map(kind_of).collect();
    let plain = read(&kinds, data, from, 0);
    let with_stability = read(&kinds, data, from, STABILITY);
    let (words, rest) = match (plain.1, with_stability.1) {
        (None, _) => plain,
        (_, None) => with_stability,
        // Neither fits: behind the first object nobody knows.
        (Some(_), Some(_)) => {
            let known = kinds.iter().position(|it| *it == Kind::Object).map_or(kinds.len(), |it| it + 1);
            read(&kinds[..known], data, from, 0)
        }
    };
    let mut told = words.join(", ");
    if let Some(rest) = rest.map(|at| &data[at..]).filter(|it| !it.is_empty()) {
        told += if told.is_empty() { "" } else { ", " };
        told += &bytes(rest);
    }
    format!("({told})")
}

fn bytes(rest: &[u8]) -> String {
    let mut told = Vec::new();
    put_hex(&mut told, &rest[..rest.len().min(MOST_BYTES)]);
    let more = if rest.len() > MOST_BYTES { ".." } else { "" };
    format!("{} bytes {}{more}", rest.len(), String::from_utf8_lossy(&told))
}

#[cfg(test)]
mod tests {
    use super::*;
    use crate::parcel::tests::aidl;

    fn binder(ptr: u64) -> Vec<u8> {
        [&0x7362_2a85u32.to_le_bytes()[..], &[0; 4], &ptr.to_le_bytes(), &[0; 8]].concat()
    }

    fn told(kinds: &[Kind], data: &[u8]) -> String {
        let argument = |at: usize| Argument { kind: at.to_string(), is_array: false, is_out: false };
        let arguments: Vec<_> = (0..kinds.len()).map(argument).collect();
        words(&arguments, |it| kinds[it.kind.parse::<usize>().unwrap()], data, 0)
    }

    const SERVICE: [Kind; 4] = [Kind::Text, Kind::Object, Kind::Boolean, Kind::Int];

    #[test]
    fn a_service_is_added_with_stability_or_without() {
        let rest = [0u32.to_le_bytes(), 8u32.to_le_bytes()].concat();
        let old = [aidl("hello"), binder(0x1000), rest.clone()].concat();
        let new = [aidl("hello"), binder(0x1000), 12u32.to_le_bytes().to_vec(), rest].concat();
        assert_eq!(told(&SERVICE, &old), "(\"hello\", binder 0x1000, false, 8)");
        assert_eq!(told(&SERVICE, &new), "(\"hello\", binder 0x1000, false, 8)");
        let neither = [&old[..], &[1, 2, 3, 4, 5, 6, 7, 8]].concat();
        assert_eq!(told(&SERVICE, &neither), "(\"hello\", binder 0x1000, 16 bytes 00000000080000000102030405060708)");
    }

    #[test]
    fn what_is_not_simple_is_told_as_bytes() {
        let data = [aidl("a"), vec![0xff; 20]].concat();
        assert_eq!(
            told(&[Kind::Text, Kind::Other, Kind::Int], &data),
            format!("(\"a\", 20 bytes {}..)", "ff".repeat(16))
        );
        assert_eq!(told(&[Kind::Int], &[1, 2]), "(2 bytes 0102)");
        assert_eq!(told(&[], &[]), "()");
        assert_eq!(told(&[Kind::Text], &u32::MAX.to_le_bytes()), "(null)");
        assert_eq!(told(&[Kind::Text], &0xffff_fffeu32.to_le_bytes()), "(4 bytes feffffff)");
        assert_eq!(told(&[Kind::Boolean], &7u32.to_le_bytes()), "(4 bytes 07000000)");
        assert_eq!(
            told(&[Kind::Long, Kind::Int], &[&(-2i64).to_le_bytes()[..], &(-3i32).to_le_bytes()].concat()),
            "(-2, -3)"
        );
    }
}
