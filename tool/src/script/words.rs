// SPDX-License-Identifier: Apache-2.0 OR MIT
//! The words of a line.

/// What kind of word it is, by how it begins.
#[derive(Clone, Debug, PartialEq, Eq)]
pub enum Kind {
    /// Letters without quotes: a name, a verb, a number, bytes in hex.
    Bare,
    /// A text in double quotes: `"hello"`.
    Text(String),
    /// Four letters in single quotes, as the number that they stand for: `'_PNG'`.
    Letters(u32),
    /// One of `( ) , | =`.
    Sign,
}

#[derive(Clone, Debug, PartialEq, Eq)]
pub struct Word {
    pub kind: Kind,
    /// The word as it stands in the line, quotes among it.
    pub text: String,
    /// Where it begins in the line, in letters from 1.
    pub column: usize,
}

/// Something that is no word: the column where it stands, and what is wrong with it.
pub type Bad = (usize, String);

const SIGNS: &str = "(),|=";

struct Letters<'a> {
    line: &'a [char],
    at: usize,
}

impl Letters<'_> {
    fn peek(&self) -> Option<char> {
        self.line.get(self.at).copied()
    }

    fn next(&mut self) -> Option<char> {
        let letter = self.peek()?;
        self.at += 1;
        Some(letter)
    }

    /// All from here on that are so.
    fn skip(&mut self, is_so: impl Fn(char) -> bool) {
        while self.peek().map_or(false, &is_so) {
            self.at += 1;
        }
    }

    /// What stands between quotes, the first of which was read.
    fn quoted(&mut self, quote: char) -> Result<String, Bad> {
        let from = self.at;
        let mut text = String::new();
        loop {
            match self.next() {
                Some(letter) if letter == quote => return Ok(text),
                Some('\\') => text.push(self.escaped()?),
                Some(letter) => text.push(letter),
                None => return Err((from, format!("this text has no {quote} behind it"))),
            }
        }
    }

    /// What a backslash and what follows it stand for.
    fn escaped(&mut self) -> Result<char, Bad> {
        let column = self.at;
        let bad = || (column, "a backslash may stand before n, t, 0, a quote, another one, or as \\x41".to_string());
        match self.next().ok_or_else(bad)? {
            'n' => Ok('\n'),
            't' => Ok('\t'),
            '0' => Ok('\0'),
            letter @ ('"' | '\'' | '\\') => Ok(letter),
            'x' => {
                let digits: String = [self.next(), self.next()].into_iter().flatten().collect();
                let number = u8::from_str_radix(&digits, 16).ok().filter(|_| digits.len() == 2);
                number.filter(u8::is_ascii).map(char::from).ok_or_else(bad)
            }
            _ => Err(bad()),
        }
    }
}

/// Four letters as a code has them, the first in the highest byte.
fn letters(text: &str, column: usize) -> Result<u32, Bad> {
    let bytes = text.as_bytes();
    if bytes.len() != 4 {
        return Err((column, format!("a code has four letters, as '_PNG', and this has {}", bytes.len())));
    }
    Ok(bytes.iter().fold(0, |sum, it| sum << 8 | u32::from(*it)))
}

/// The words of a line, up to a `#` outside of quotes.
pub fn words(line: &str) -> Result<Vec<Word>, Bad> {
    let line: Vec<char> = line.chars().collect();
    let mut letters_left = Letters { line: &line, at: 0 };
    let mut words = Vec::new();
    loop {
        letters_left.skip(|it| it == ' ' || it == '\t' || it == '\r');
        let from = letters_left.at;
        let kind = match letters_left.peek() {
            None | Some('#') => return Ok(words),
            Some(quote @ ('"' | '\'')) => {
                letters_left.at += 1;
                let text = letters_left.quoted(quote)?;
                if quote == '"' {
                    Kind::Text(text)
                } else {
                    Kind::Letters(letters(&text, from + 1)?)
                }
            }
            Some(letter) if SIGNS.contains(letter) => {
                letters_left.at += 1;
                Kind::Sign
            }
            Some(_) => {
                letters_left.skip(|it| !it.is_whitespace() && !SIGNS.contains(it) && !"\"'#".contains(it));
                // A space that is none of ours begins no word.
                letters_left.at = letters_left.at.max(from + 1);
                Kind::Bare
            }
        };
        let text = line[from..letters_left.at].iter().collect();
        words.push(Word { kind, text, column: from + 1 });
    }
}

/// A number: decimal, 0x and hex, or with K or M behind it.
pub fn number(word: &str) -> Option<u64> {
    if let Some(digits) = word.strip_prefix("0x") {
        return digits.bytes().all(|it| it.is_ascii_hexdigit()).then(|| u64::from_str_radix(digits, 16).ok()).flatten();
    }
    let units = [('K', 1 << 10), ('M', 1 << 20)];
    let unit = units.iter().find(|it| word.ends_with(it.0));
    let digits = unit.map_or(word, |it| &word[..word.len() - it.0.len_utf8()]);
    let is_number = !digits.is_empty() && digits.bytes().all(|it| it.is_ascii_digit());
    digits.parse::<u64>().ok().filter(|_| is_number)?.checked_mul(unit.map_or(1, |it| it.1))
}

#[cfg(test)]
mod tests {
    use super::*;

    #[test]
    fn a_line_is_words_up_to_its_comment() {
        let words = words("  a tx 0 \"x # \\\"y\" '_PNG' obj(1,0x2)# rest").unwrap();
        let texts: Vec<_> = words.iter().map(|it| (it.column, &it.text[..])).collect();
        let expected = [
            (3, "a"),
            (5, "tx"),
            (8, "0"),
            (10, "\"x # \\\"y\""),
            (20, "'_PNG'"),
            (27, "obj"),
            (30, "("),
            (31, "1"),
            (32, ","),
            (33, "0x2"),
            (36, ")"),
        ];
        assert_eq!(texts, expected);
        assert_eq!(words[3].kind, Kind::Text("x # \"y".into()));
        assert_eq!(words[4].kind, Kind::Letters(0x5f50_4e47));
        assert_eq!(super::words("# all").unwrap(), []);
    }

    #[test]
    fn what_is_no_word_is_told_with_its_column() {
        assert_eq!(words("a \"b").unwrap_err(), (3, "this text has no \" behind it".into()));
        assert_eq!(words("a 'abc'").unwrap_err(), (3, "a code has four letters, as '_PNG', and this has 3".into()));
        assert_eq!(words("a \"b\\q\"").unwrap_err().0, 5);
        assert_eq!(words("a \"\\x8\"").unwrap_err().0, 4);
        assert_eq!(words("a \"\\xff\"").unwrap_err().0, 4);
    }

    #[test]
    fn numbers_have_units() {
        assert_eq!(["7", "0x1f", "4K", "2M", "0"].map(number), [Some(7), Some(31), Some(4096), Some(2 << 20), Some(0)]);
        for word in ["", "K", "0x", "0xg", "-1", "1G", "+1", "18446744073709551616", "18014398509481985K"] {
            assert_eq!(number(word), None, "{word}");
        }
    }
}
