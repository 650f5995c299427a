// SPDX-License-Identifier: Apache-2.0 OR MIT
//! The words of an .aidl file, without comments.

/// A word with the number of its line, from 1.
#[derive(Clone, Copy, Debug, PartialEq, Eq)]
pub struct Word<'a> {
    pub text: &'a str,
    pub line: usize,
}

/// What is wrong with a file, and in which line.
#[derive(Clone, Debug, PartialEq, Eq)]
pub struct Fault {
    pub line: usize,
    pub what: String,
}

fn is_name(letter: u8) -> bool {
    letter.is_ascii_alphanumeric() || letter == b'_' || letter == b'.'
}

/// How long what stands here is that says nothing; None where it doesn't end.
fn blank(rest: &[u8]) -> Option<usize> {
    match rest {
        [b'/', b'/', ..] => Some(rest.iter().position(|it| *it == b'\n').unwrap_or(rest.len())),
        [b'/', b'*', more @ ..] => more.windows(2).position(|it| it == b"*/").map(|it| it + 4),
        [first, ..] if first.is_ascii_whitespace() => Some(1),
        _ => Some(0),
    }
}

/// How long a text in quotes is, with them; None where it doesn't end in its line.
fn quoted(rest: &[u8]) -> Option<usize> {
    let mut at = 1;
    while let Some(letter) = rest.get(at) {
        match letter {
            b'\\' => at += 2,
            b'\n' => return None,
            it if *it == rest[0] => return Some(at + 1),
            _ => at += 1,
        }
    }
    None
}

/// The words of a file.
pub fn words(text: &str) -> Result<Vec<Word<'_>>, Fault> {
    let bytes = text.as_bytes();
    let (mut at, mut line) = (0, 1);
    let mut words = Vec::new();
    while at < bytes.len() {
        let rest = &bytes[at..];
        let skipped = blank(rest).ok_or_else(|| Fault { line, what: "a comment doesn't end".into() })?;
        if skipped > 0 {
            line += rest[..skipped.min(rest.len())].iter().filter(|it| **it == b'\n').count();
            at += skipped;
            continue;
        }
        let length = match rest[0] {
            b'"' | b'\'' => quoted(rest).ok_or_else(|| Fault { line, what: "a text doesn't end".into() })?,
            first if is_name(first) => rest.iter().position(|it| !is_name(*it)).unwrap_or(rest.len()),
            first if first.is_ascii() => 1,
            _ => return Err(Fault { line, what: "a letter that no word has".into() }),
        };
        // What is cut at is ASCII, or within a text; a text's end is ASCII.
        let word = text.get(at..at + length).ok_or_else(|| Fault { line, what: "a text breaks off".into() })?;
        words.push(Word { text: word, line });
        at += length;
    }
    Ok(words)
}

#[cfg(test)]
mod tests {
    use super::*;

    #[test]
    fn words_are_told_with_their_lines() {
        let of = |text| words(text).unwrap().iter().map(|it| (it.text.to_string(), it.line)).collect::<Vec<_>>();
        let told = of("/** { */ a.b// ;\n\"x { \\\" \" (1)");
        let wanted = [("a.b", 1), ("\"x { \\\" \"", 2), ("(", 2), ("1", 2), (")", 2)];
        assert_eq!(told, wanted.map(|(text, line)| (text.to_string(), line)));
    }

    #[test]
    fn what_does_not_end_is_named() {
        let fault = |text| words(text).unwrap_err();
        assert_eq!(fault("a\n/* b"), Fault { line: 2, what: "a comment doesn't end".into() });
        assert_eq!(fault("\"b\n\""), Fault { line: 1, what: "a text doesn't end".into() });
        assert_eq!(fault("\"b\\"), Fault { line: 1, what: "a text doesn't end".into() });
        assert_eq!(fault("é"), Fault { line: 1, what: "a letter that no word has".into() });
    }
}
