// SPDX-License-Identifier: Apache-2.0 OR MIT
//! Lines, and what they give names to.
use super::expects::{expected, Expected};
use super::parcels::{bytes_of, pieces, Piece};
use super::verbs::{parts, Latest, Number, Part};
use super::words::{self, words, Bad, Kind, Word};
use super::Fault;
use crate::record::FLAGS;
use std::collections::HashMap;

pub type Reads<T> = Result<T, Bad>;

/// What a name stands for.
#[derive(Clone, Debug, PartialEq, Eq)]
pub enum Named {
    Number(u64),
    Text(String),
    Pieces(Vec<Piece>),
    /// What was to be named made no sense, and that has been told.
    Nothing,
}

/// What a line says.
#[derive(Clone, Debug, PartialEq, Eq)]
pub enum Said {
    Nothing,
    Seats(u32),
    Step { seat: u32, parts: Vec<Part> },
    Expect(Expected),
}

#[derive(Clone, Debug, PartialEq, Eq)]
pub struct Line {
    /// Which line of the script it is, from 1.
    pub number: usize,
    pub said: Said,
}

impl Line {
    pub fn expected(&self) -> Option<&Expected> {
        match &self.said {
            Said::Expect(expected) => Some(expected),
            _ => None,
        }
    }
}

/// The words of a line, one after the other.
pub struct Cursor<'a> {
    words: &'a [Word],
    at: usize,
    /// The column behind the last word, at which a missing word is told.
    end: usize,
    names: &'a HashMap<String, Named>,
}

fn found(word: Option<&Word>) -> String {
    word.map_or("the end of the line".into(), |it| format!("`{}`", it.text))
}

impl Cursor<'_> {
    pub fn peek(&self) -> Option<&Word> {
        self.words.get(self.at)
    }

    pub fn is_at_end(&self) -> bool {
        self.peek().is_none()
    }

    /// Why the word that comes next may not stand there.
    pub fn bad<T>(&self, expected: &str) -> Reads<T> {
        let column = self.peek().map_or(self.end, |it| it.column);
        Err((column, format!("expected {expected}, found {}", found(self.peek()))))
    }

    fn bad_word<T>(word: &Word, expected: &str) -> Reads<T> {
        Err((word.column, format!("expected {expected}, found {}", found(Some(word)))))
    }

    pub fn next(&mut self, expected: &str) -> Reads<Word> {
        match self.peek().cloned() {
            Some(word) => {
                self.at += 1;
                Ok(word)
            }
            None => self.bad(expected),
        }
    }

    /// Goes past a word, where it is the next.
    pub fn skip(&mut self, word: &str) -> bool {
        let is_it = self.peek().map_or(false, |it| it.text == word);
        self.at += usize::from(is_it);
        is_it
    }

    pub fn sign(&mut self, sign: &str) -> Reads<()> {
        match self.skip(sign) {
            true => Ok(()),
            false => self.bad(&format!("`{sign}`")),
        }
    }

    /// Sees that no word follows; one that does is told.
    pub fn finish(&self) -> Reads<()> {
        match self.peek() {
            None => Ok(()),
            Some(_) => self.bad("the end of the line"),
        }
    }

    /// Gives what a name stands for to who takes it; false: that isn't what is wanted there.
    pub fn named(&self, word: &Word, expected: &str, take: impl FnOnce(&Named) -> bool) -> Reads<()> {
        match self.names.get(&word.text) {
            Some(Named::Nothing) => Ok(()),
            Some(named) if word.kind == Kind::Bare && take(named) => Ok(()),
            _ => Self::bad_word(word, expected),
        }
    }

    /// Whether a number comes next, or a name of one.
    pub fn is_number(&self) -> bool {
        let names_one = |it: &Word| matches!(self.names.get(&it.text), Some(Named::Number(_)));
        self.peek().map_or(false, |it| match it.kind {
            Kind::Letters(_) => true,
            Kind::Bare => words::number(&it.text).is_some() || flag(&it.text).is_some() || names_one(it),
            _ => false,
        })
    }

    /// A number, or several with `|` between them.
    pub fn number(&mut self, bits: u32) -> Reads<u64> {
        let mut sum = self.term(bits)?;
        while self.skip("|") {
            sum |= self.term(bits)?;
        }
        Ok(sum)
    }

    fn term(&mut self, bits: u32) -> Reads<u64> {
        let word = self.next("a number")?;
        let value = match word.kind {
            Kind::Letters(code) => u64::from(code),
            _ => match words::number(&word.text).or_else(|| flag(&word.text)) {
                Some(number) => number,
                None => self.named_number(&word)?,
            },
        };
        match bits < 64 && value >> bits != 0 {
            true => Err((word.column, format!("{value} has more than {bits} bits"))),
            false => Ok(value),
        }
    }

    fn named_number(&self, word: &Word) -> Reads<u64> {
        let mut value = 0;
        self.named(word, "a number", |it| match it {
            Named::Number(number) => {
                value = *number;
                true
            }
            _ => false,
        })?;
        Ok(value)
    }

    /// A number that may have a minus before it.
    pub fn signed(&mut self, bits: u32) -> Reads<u64> {
        let digits = self.peek().and_then(|it| it.text.strip_prefix('-')).and_then(words::number);
        match digits.filter(|it| *it <= 1 << (bits - 1)) {
            Some(number) => {
                self.at += 1;
                Ok(number.wrapping_neg())
            }
            None => self.number(bits),
        }
    }

    /// A number, or the latest handle, or the one so many before.
    pub fn handle(&mut self) -> Reads<Number> {
        self.latest(Latest::Handle, 32)
    }

    pub fn latest(&mut self, of: Latest, bits: u32) -> Reads<Number> {
        let back = |text: &str| match text.strip_prefix("last")? {
            "" => Some(0),
            rest => rest.strip_prefix('-').and_then(|it| it.parse().ok()),
        };
        match self.peek().and_then(|it| Some((back(&it.text)?, it.column))) {
            Some((back, column)) => {
                self.at += 1;
                Ok(Number::Last { of, back, column })
            }
            None => Ok(Number::Is(self.number(bits)?)),
        }
    }

    pub fn text(&mut self) -> Reads<String> {
        let word = self.next("a text")?;
        let mut text = String::new();
        match &word.kind {
            Kind::Text(it) => text = it.clone(),
            _ => self.named(&word, "a text", |it| match it {
                Named::Text(it) => {
                    text = it.clone();
                    true
                }
                _ => false,
            })?,
        }
        Ok(text)
    }

    pub fn hex(&mut self) -> Reads<Vec<u8>> {
        let expected = "bytes in hex, two digits for each, or - for none";
        let word = self.next(expected)?;
        match bytes_of(&word.text).filter(|_| word.kind == Kind::Bare) {
            Some(bytes) => Ok(bytes),
            None => Self::bad_word(&word, expected),
        }
    }
}

/// The header's names of flags are numbers too.
fn flag(word: &str) -> Option<u64> {
    FLAGS.iter().find(|it| it.1 == word).map(|it| u64::from(it.0))
}

/// Words that name something else, and can't be given another meaning.
const TAKEN: [&str; 14] =
    ["seats", "let", "expect", "last", "code", "flags", "data", "i32", "i64", "s16", "hex", "obj", "handle", "post"];

/// What lines before have named.
#[derive(Clone, Debug, Default)]
pub struct Reader {
    names: HashMap<String, Named>,
    seats: HashMap<String, u32>,
    /// How many seats there are; None before the line `seats`.
    count: Option<u32>,
    /// Whether the line `seats` made no sense, so that nobody knows who sits where.
    is_bad: bool,
    /// The number of the line with the latest step, to which an `expect` belongs.
    latest: Option<usize>,
}

fn is_name(text: &str) -> bool {
    let is_first = |it: char| it.is_ascii_alphabetic() || it == '_';
    text.chars().next().map_or(false, is_first) && text.chars().all(|it| is_first(it) || it.is_ascii_digit())
}

impl Reader {
    pub fn has_seats(&self) -> bool {
        self.count.is_some()
    }

    /// What a line says, or what is wrong with it.
    pub fn line(&mut self, number: usize, text: &str) -> Result<Line, Fault> {
        let said = words(text).and_then(|words| self.said(number, &words));
        said.map(|said| Line { number, said }).map_err(|(column, what)| Fault { line: number, column, what })
    }

    fn said(&mut self, number: usize, words: &[Word]) -> Reads<Said> {
        let first = match words.first() {
            Some(first) => first,
            None => return Ok(Said::Nothing),
        };
        let end = words.last().map_or(1, |it| it.column + it.text.chars().count());
        let names = std::mem::take(&mut self.names);
        let mut cursor = Cursor { words, at: 1, end, names: &names };
        let mut named = None;
        let said = match &first.text[..] {
            "seats" => self.seats(&mut cursor, first),
            "let" => self.name(&mut cursor, &mut named),
            "expect" => self.expect(&mut cursor, number, first),
            _ => self.step(&mut cursor, number, first),
        };
        self.names = names;
        self.names.extend(named);
        said
    }

    fn seats(&mut self, cursor: &mut Cursor<'_>, first: &Word) -> Reads<Said> {
        if self.count.is_some() {
            return Err((first.column, "the seats have been told already".into()));
        }
        let named = self.count_seats(cursor);
        self.is_bad = named.is_err();
        let count = named.as_ref().map_or(0, |it| *it);
        self.count = Some(count);
        named.map(Said::Seats)
    }

    fn count_seats(&mut self, cursor: &mut Cursor<'_>) -> Reads<u32> {
        if cursor.is_number() {
            let count = cursor.number(32)?;
            return cursor.finish().map(|()| count as u32);
        }
        let mut count = 0;
        while count == 0 || !cursor.is_at_end() {
            let word = cursor.next("the names of the seats, or how many there are")?;
            if !is_name(&word.text) || TAKEN.contains(&&word.text[..]) {
                return Cursor::bad_word(&word, "a name: letters, digits and _, and no word of the language");
            }
            if self.seats.insert(word.text.clone(), count).is_some() {
                return Err((word.column, format!("two seats are called {}", word.text)));
            }
            count += 1;
        }
        Ok(count)
    }

    /// `let NAME = ..`: a number, a text, or parts of a parcel.
    fn name(&mut self, cursor: &mut Cursor<'_>, named: &mut Option<(String, Named)>) -> Reads<Said> {
        let word = cursor.next("a name")?;
        if !is_name(&word.text) || TAKEN.contains(&&word.text[..]) {
            return Cursor::bad_word(&word, "a name: letters, digits and _, and no word of the language");
        }
        if cursor.names.contains_key(&word.text) || self.seats.contains_key(&word.text) {
            return Err((word.column, format!("{} has a meaning already", word.text)));
        }
        *named = Some((word.text.clone(), Named::Nothing));
        cursor.sign("=")?;
        let value = value(cursor)?;
        cursor.finish()?;
        *named = Some((word.text, value));
        Ok(Said::Nothing)
    }

    fn expect(&mut self, cursor: &mut Cursor<'_>, line: usize, first: &Word) -> Reads<Said> {
        let of = match self.latest {
            Some(of) => of,
            None => {
                return Err((first.column, "nothing was done before that, of which one could expect anything".into()))
            }
        };
        let column = cursor.peek().map_or(first.column, |it| it.column);
        let what = expected(cursor)?;
        cursor.finish()?;
        Ok(Said::Expect(Expected { line, column, of, what }))
    }

    fn step(&mut self, cursor: &mut Cursor<'_>, number: usize, first: &Word) -> Reads<Said> {
        let seat = self.seat(first)?;
        // What is expected of a line that makes no sense is told of by that line.
        self.latest = Some(number);
        let parts = parts(cursor)?;
        cursor.finish()?;
        Ok(Said::Step { seat, parts })
    }

    fn seat(&self, word: &Word) -> Reads<u32> {
        let count = match self.count {
            Some(count) => count,
            None => {
                return Err((word.column, "the first line has to be `seats`, with their names or their number".into()))
            }
        };
        let number = words::number(&word.text).and_then(|it| u32::try_from(it).ok());
        match self.seats.get(&word.text).copied().or(number) {
            Some(seat) if seat < count || self.is_bad => Ok(seat),
            Some(_) => Err((word.column, format!("there are {count} seats, the first of them 0"))),
            None if self.is_bad && is_name(&word.text) => Ok(0),
            None => Err((word.column, format!("no seat is called {}{}", word.text, self.seat_names()))),
        }
    }

    fn seat_names(&self) -> String {
        let mut seats: Vec<_> = self.seats.iter().collect();
        seats.sort_by_key(|it| it.1);
        let seats: Vec<_> = seats.into_iter().map(|it| &it.0[..]).collect();
        if seats.is_empty() {
            return String::new();
        }
        format!("; there are {}", seats.join(", "))
    }
}

fn value(cursor: &mut Cursor<'_>) -> Reads<Named> {
    let is_text = matches!(cursor.peek(), Some(Word { kind: Kind::Text(_), .. }));
    let names_text = cursor.peek().map_or(false, |it| matches!(cursor.names.get(&it.text), Some(Named::Text(_))));
    if is_text || names_text {
        return cursor.text().map(Named::Text);
    }
    if cursor.is_number() {
        return cursor.number(64).map(Named::Number);
    }
    if cursor.is_at_end() {
        return cursor.bad("a number, a text, or parts of a parcel");
    }
    pieces(cursor).map(Named::Pieces)
}
