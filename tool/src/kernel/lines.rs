// SPDX-License-Identifier: Apache-2.0 OR MIT
//! Lines of text that others have written: none is held that is longer than any a kernel writes.
use anyhow::{bail, Result};
use std::io::{BufRead, Read};

/// No line of a kernel's is longer, in bytes.
const MOST: usize = 1 << 16;

pub struct Lines<'a> {
    input: Box<dyn BufRead + 'a>,
    held: Vec<u8>,
    number: u64,
    /// The last line broke off in the midst.
    is_cut: bool,
}

impl<'a> Lines<'a> {
    pub fn new(input: Box<dyn BufRead + 'a>) -> Lines<'a> {
        Lines { input, held: Vec::new(), number: 0, is_cut: false }
    }

    /// The next whole line, without its end. None behind the last.
    pub fn next(&mut self) -> Result<Option<&[u8]>> {
        self.held.clear();
        let read = (&mut self.input).take(MOST as u64 + 1).read_until(b'\n', &mut self.held)?;
        if read == 0 {
            return Ok(None);
        }
        self.number += 1;
        if self.held.last() == Some(&b'\n') {
            self.held.pop();
            if self.held.last() == Some(&b'\r') {
                self.held.pop();
            }
            return Ok(Some(&self.held));
        }
        if read > MOST {
            bail!("line {} is longer than {MOST} bytes, which no line of a kernel's is", self.number);
        }
        self.is_cut = true;
        Ok(None)
    }

    /// The number of the line that was read last, from 1.
    pub fn number(&self) -> u64 {
        self.number
    }

    /// At the end: whether the last line was whole.
    pub fn check_end(&self) -> Result<()> {
        if self.is_cut {
            bail!("line {} breaks off; it is left out", self.number);
        }
        Ok(())
    }
}

/// A number in decimal, or in hex with 0x before it; None where it is none, or has more than 64 bits.
pub fn number(word: &[u8]) -> Option<u64> {
    match word.strip_prefix(b"0x") {
        Some(digits) => digits_of(digits, 16),
        None => digits_of(word, 10),
    }
}

/// A number of digits alone, to this base.
pub fn digits_of(digits: &[u8], base: u32) -> Option<u64> {
    if digits.is_empty() {
        return None;
    }
    digits.iter().try_fold(0u64, |sum, it| {
        let digit = char::from(*it).to_digit(base)?;
        sum.checked_mul(base.into())?.checked_add(digit.into())
    })
}

/// The same of 32 bits.
pub fn number_u32(word: &[u8]) -> Option<u32> {
    number(word).and_then(|it| it.try_into().ok())
}

/// The words of a line, which blanks part.
pub fn words(line: &[u8]) -> impl Iterator<Item = &[u8]> {
    line.split(|it| *it == b' ' || *it == b'\t').filter(|it| !it.is_empty())
}

/// A line for a message: its letters, at most so many.
pub fn shown(line: &[u8]) -> String {
    const MOST_SHOWN: usize = 60;
    let text = String::from_utf8_lossy(&line[..line.len().min(MOST_SHOWN)]).into_owned();
    format!("{text:?}")
}

#[cfg(test)]
mod tests {
    use super::*;

    #[test]
    fn lines_are_whole_or_told() {
        let mut lines = Lines::new(Box::new(&b"one\r\ntwo\nthr"[..]));
        assert_eq!(lines.next().unwrap(), Some(&b"one"[..]));
        assert_eq!(lines.next().unwrap(), Some(&b"two"[..]));
        assert_eq!(lines.next().unwrap(), None);
        assert_eq!(lines.check_end().unwrap_err().to_string(), "line 3 breaks off; it is left out");
    }

    #[test]
    fn no_line_is_held_that_is_too_long() {
        let long = vec![b'x'; 1 << 20];
        let mut lines = Lines::new(Box::new(&long[..]));
        assert!(lines.next().unwrap_err().to_string().starts_with("line 1 is longer than 65536 bytes"));
        assert!(lines.held.capacity() < 1 << 18);
    }

    #[test]
    fn numbers_are_decimal_or_hex_and_fit() {
        assert_eq!(
            [number(b"0x5f504e47"), number(b"7"), number(b"18446744073709551615")],
            [Some(0x5f50_4e47), Some(7), Some(u64::MAX)]
        );
        for word in ["", "0x", "-1", "7x", "18446744073709551616", "0x1ffffffffffffffff"] {
            assert_eq!(number(word.as_bytes()), None, "{word}");
        }
    }
}
