// SPDX-License-Identifier: Apache-2.0 OR MIT
//! What the bytes of a parcel say to people: interface tokens, texts, a dump.
use crate::record::u32_at;
use std::ops::Range;

/// The longest text that is looked for, in letters.
const LONGEST: usize = 4096;
/// How far texts are looked for in a parcel, and how many are told.
const SEARCHED: usize = 1 << 16;
const MOST_TEXTS: usize = 16;

/// A text that was found in a parcel, and between which bytes it stands.
#[derive(Clone, Debug, PartialEq, Eq)]
pub struct Text {
    pub text: String,
    pub at: usize,
    /// The byte behind it and what fills it up to a multiple of 4.
    pub end: usize,
}

/// AIDL's text: how many units, so many units of UTF-16, a zero, up to a multiple of 4. None where one has a letter that
/// isn't printed.
pub fn text_at(data: &[u8], at: usize) -> Option<Text> {
    let count = u32_at(data, at) as usize;
    if count == 0 || count > LONGEST {
        return None;
    }
    let from = at.checked_add(4)?;
    let (bytes, end) = (data.get(from..from + 2 * count)?, from + 2 * count);
    if data.get(end..end + 2)? != [0, 0] {
        return None;
    }
    let units = bytes.chunks_exact(2).map(|it| u16::from_le_bytes([it[0], it[1]]));
    let text: String = char::decode_utf16(units).collect::<Result<_, _>>().ok()?;
    if text.chars().any(char::is_control) {
        return None;
    }
    Some(Text { text, at, end: (end + 2 + 3) & !3 })
}

fn is_word(letter: char) -> bool {
    letter.is_ascii_alphanumeric() || "._$:@/".contains(letter)
}

/// The name of an interface that a call begins with. AIDL's stands behind a policy, a source of work and a header, of which
/// older systems have fewer; HIDL's is of one byte a letter, with a zero behind it.
pub fn token(data: &[u8]) -> Option<Text> {
    let of_aidl = |it: &Text| it.text.contains('.') && it.text.chars().all(is_word);
    let aidl = [12, 8, 4, 0].into_iter().filter_map(|at| text_at(data, at)).find(of_aidl);
    aidl.or_else(|| hidl_token(data))
}

fn hidl_token(data: &[u8]) -> Option<Text> {
    let end = data.iter().take(LONGEST).position(|it| *it == 0)?;
    let text = std::str::from_utf8(&data[..end]).ok()?;
    let is_token = text.contains('@') && text.contains("::") && text.chars().all(is_word);
    is_token.then(|| Text { text: text.into(), at: 0, end: (end + 1 + 3) & !3 })
}

/// AIDL's texts from a byte on, but for those that lie within objects.
pub fn texts(data: &[u8], from: usize, objects: &[Range<usize>]) -> Vec<Text> {
    let mut found = Vec::new();
    let mut at = (from + 3) & !3;
    while at + 8 <= data.len().min(SEARCHED) && found.len() < MOST_TEXTS {
        if let Some(object) = objects.iter().find(|it| it.contains(&at)) {
            at = object.end;
        } else if let Some(text) = text_at(data, at).filter(|it| it.text.chars().count() > 1) {
            at = text.end;
            found.push(text);
        } else {
            at += 4;
        }
    }
    found
}

const DIGITS: &[u8; 16] = b"0123456789abcdef";

pub fn put_hex(to: &mut Vec<u8>, bytes: &[u8]) {
    for byte in bytes {
        to.push(DIGITS[usize::from(byte >> 4)]);
        to.push(DIGITS[usize::from(byte & 15)]);
    }
}

/// A line of a dump: the place, the bytes of a row in hex, and as ASCII.
fn put_line(to: &mut Vec<u8>, indent: usize, row: usize, at: usize, bytes: &[u8]) {
    to.resize(to.len() + indent, b' ');
    put_hex(to, &(at as u32).to_be_bytes()[if at < 0x1_0000 { 2 } else { 0 }..]);
    to.push(b' ');
    for index in 0..row {
        if index % 8 == 0 {
            to.push(b' ');
        }
        match bytes.get(index) {
            Some(byte) => to.extend([DIGITS[usize::from(byte >> 4)], DIGITS[usize::from(byte & 15)], b' ']),
            None => to.extend(b"   "),
        }
    }
    to.extend(b" |");
    to.extend(bytes.iter().map(|it| if (0x20..0x7f).contains(it) { *it } else { b'.' }));
    to.extend(b"|\n");
}

/// How many bytes a line of a dump has: 16, or 8 where the terminal is too narrow for them.
pub fn row_for(width: Option<usize>) -> usize {
    match width {
        Some(width) if width < WIDEST_LINE => 8,
        _ => 16,
    }
}

/// A line of 16 bytes with the deepest indent and a long place.
const WIDEST_LINE: usize = 8 + 8 + 2 + 3 * 16 + 1 + 2 + 16 + 1;

/// A dump of at most so many bytes, so many in a line; what is left out is told.
pub fn put_dump(to: &mut Vec<u8>, indent: usize, row: usize, data: &[u8], most: usize) {
    let shown = &data[..data.len().min(most)];
    for (index, bytes) in shown.chunks(row.max(1)).enumerate() {
        put_line(to, indent, row, row * index, bytes);
    }
    if shown.len() < data.len() {
        to.resize(to.len() + indent, b' ');
        to.extend(format!(".. {} bytes more\n", data.len() - shown.len()).into_bytes());
    }
}

/// The four letters that a code is made of, where it is.
pub fn letters(code: u32) -> Option<String> {
    let bytes = code.to_be_bytes();
    bytes.iter().all(u8::is_ascii_graphic).then(|| bytes.iter().map(|it| char::from(*it)).collect())
}

#[cfg(test)]
pub(crate) mod tests {
    use super::*;

    /// A text as AIDL lays it out.
    pub(crate) fn aidl(text: &str) -> Vec<u8> {
        let units: Vec<u16> = text.encode_utf16().collect();
        let mut bytes = (units.len() as u32).to_le_bytes().to_vec();
        bytes.extend(units.iter().flat_map(|it| it.to_le_bytes()));
        bytes.extend([0, 0]);
        bytes.resize((bytes.len() + 3) & !3, 0);
        bytes
    }

    #[test]
    fn tokens_are_found_behind_their_headers() {
        for header in [0, 4, 8, 12] {
            let mut data = vec![0xff; header];
            data.extend(aidl("android.os.IServiceManager"));
            let token = token(&data).unwrap();
            assert_eq!((&token.text[..], token.at, token.end), ("android.os.IServiceManager", header, data.len()));
        }
        let token = token(b"android.hidl.base@1.0::IBase\0\0\0\0").unwrap();
        assert_eq!((&token.text[..], token.end), ("android.hidl.base@1.0::IBase", 32));
    }

    #[test]
    fn what_is_no_token_is_none() {
        assert_eq!(token(&aidl("no dots")), None);
        assert_eq!(token(b"hello\0\0\0"), None);
        assert_eq!(token(&[0xff; 64]), None);
        assert_eq!(token(&[]), None);
    }

    #[test]
    fn texts_are_found_but_within_objects() {
        let data = [aidl("one"), vec![9; 4], aidl("two")].concat();
        let found =
            |objects: &[Range<usize>]| texts(&data, 0, objects).into_iter().map(|it| it.text).collect::<Vec<_>>();
        assert_eq!(found(&[]), ["one", "two"]);
        let within = 0..12;
        assert_eq!(found(std::slice::from_ref(&within)), ["two"]);
    }

    #[test]
    fn a_text_is_whole_or_none() {
        let data = aidl("hello");
        assert_eq!(text_at(&data, 0).map(|it| it.end), Some(16));
        assert_eq!(text_at(&data[..15], 0), None);
        assert_eq!(text_at(&data, usize::MAX), None);
        let mut bad = data;
        bad[4] = 7;
        assert_eq!(text_at(&bad, 0), None);
    }

    #[test]
    fn a_dump_is_of_lines_of_16() {
        let mut to = Vec::new();
        put_dump(&mut to, 2, 16, b"0123456789abcdefXY\x01Z", 18);
        let first = "  0000  30 31 32 33 34 35 36 37  38 39 61 62 63 64 65 66  |0123456789abcdef|\n";
        // Fourteen bytes of three columns, a space in the middle, and two spaces.
        let second = format!("  0010  58 59{}|XY|\n  .. 2 bytes more\n", " ".repeat(14 * 3 + 1 + 2));
        let lines = format!("{first}{second}");
        assert_eq!(String::from_utf8(to).unwrap(), lines);
    }

    #[test]
    fn a_dump_on_a_narrow_terminal_is_of_lines_of_8() {
        let mut to = Vec::new();
        put_dump(&mut to, 0, row_for(Some(60)), b"0123456789", 10);
        let second = format!("0008  38 39{}|89|\n", " ".repeat(6 * 3 + 2));
        let lines = format!("0000  30 31 32 33 34 35 36 37  |01234567|\n{second}");
        assert_eq!(String::from_utf8(to).unwrap(), lines);
        assert_eq!([row_for(None), row_for(Some(85)), row_for(Some(86))], [16, 8, 16]);
    }

    #[test]
    fn codes_of_letters_are_told() {
        assert_eq!(letters(0x5f50_4e47).as_deref(), Some("_PNG"));
        assert_eq!(letters(7), None);
    }
}
