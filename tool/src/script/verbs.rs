// SPDX-License-Identifier: Apache-2.0 OR MIT
//! What a seat does: the verbs of docs/FORMATS.md, with what each needs.
use super::parcels::{hex_word, pieces, Laid, Piece};
use super::reader::{Cursor, Reads};

/// What was last given to a seat.
#[derive(Clone, Copy, Debug, PartialEq, Eq)]
pub enum Latest {
    Handle,
    Buffer,
}

impl Latest {
    pub fn name(self) -> &'static str {
        match self {
            Latest::Handle => "handles",
            Latest::Buffer => "buffers",
        }
    }
}

/// A number that is known, or that comes of what was played before.
#[derive(Clone, Debug, PartialEq, Eq)]
pub enum Number {
    Is(u64),
    Last { of: Latest, back: usize, column: usize },
}

/// A part of a line, once its names are looked up.
#[derive(Clone, Debug, PartialEq, Eq)]
pub enum Part {
    Word(String),
    Number(Number),
    Parcel(Vec<Piece>),
}

fn number(value: u64) -> Part {
    Part::Number(Number::Is(value))
}

/// What follows a verb.
#[derive(Clone, Copy, Debug, PartialEq, Eq)]
enum Needs {
    Word,
    Long,
    Handle,
    Buffer,
    Switch,
    Limit,
    Hex,
}

static VERBS: [(&str, &[Needs]); 27] = [
    ("open", &[Needs::Word, Needs::Word, Needs::Word]),
    ("attach", &[Needs::Word]),
    ("manager", &[]),
    ("spam", &[Needs::Switch]),
    ("read", &[Needs::Limit]),
    ("exitthread", &[]),
    ("exitprocess", &[]),
    ("write", &[Needs::Hex, Needs::Hex]),
    ("enter", &[]),
    ("exitloop", &[]),
    ("free", &[Needs::Buffer]),
    ("increfs", &[Needs::Handle]),
    ("acquire", &[Needs::Handle]),
    ("release", &[Needs::Handle]),
    ("decrefs", &[Needs::Handle]),
    ("increfsdone", &[Needs::Long, Needs::Long]),
    ("acquiredone", &[Needs::Long, Needs::Long]),
    ("askdeath", &[Needs::Handle, Needs::Long]),
    ("cleardeath", &[Needs::Handle, Needs::Long]),
    ("deaddone", &[Needs::Long]),
    ("look", &[]),
    ("await", &[Needs::Word]),
    ("serve", &[]),
    ("collect", &[]),
    ("withdraw", &[]),
    // These two have words of their own.
    ("tx", &[]),
    ("reply", &[]),
];

/// How much is read where a line doesn't say.
const LIMIT: u64 = 256;

/// The verb and what it needs; `post` may stand before one.
pub fn parts(cursor: &mut Cursor<'_>) -> Reads<Vec<Part>> {
    let mut parts = Vec::new();
    if cursor.skip("post") {
        parts.push(Part::Word("post".into()));
    }
    let names = || VERBS.iter().map(|it| it.0).collect::<Vec<_>>().join(", ");
    let needs = match cursor.peek().and_then(|it| VERBS.iter().find(|verb| verb.0 == it.text)) {
        Some((verb, needs)) => {
            parts.push(Part::Word(verb.to_string()));
            needs
        }
        None => return cursor.bad(&format!("a verb ({})", names())),
    };
    let verb = cursor.next("a verb")?;
    match &verb.text[..] {
        "tx" => {
            parts.push(Part::Number(cursor.latest(Latest::Handle, 64)?));
            message(cursor, &mut parts)?;
        }
        "reply" => message(cursor, &mut parts)?,
        _ => {
            for it in *needs {
                parts.push(need(cursor, *it)?);
            }
        }
    }
    Ok(parts)
}

fn need(cursor: &mut Cursor<'_>, needs: Needs) -> Reads<Part> {
    Ok(match needs {
        Needs::Word => number(cursor.number(32)?),
        Needs::Long => number(cursor.number(64)?),
        Needs::Handle => Part::Number(cursor.handle()?),
        Needs::Buffer => Part::Number(cursor.latest(Latest::Buffer, 64)?),
        Needs::Limit if cursor.is_at_end() => number(LIMIT),
        Needs::Limit => number(cursor.number(32)?),
        Needs::Switch if cursor.skip("on") => number(1),
        Needs::Switch if cursor.skip("off") => number(0),
        Needs::Switch if cursor.skip("0") => number(0),
        Needs::Switch if cursor.skip("1") => number(1),
        Needs::Switch => return cursor.bad("on or off"),
        Needs::Hex => Part::Word(hex_word(&cursor.hex()?)),
    })
}

/// A code, flags and a parcel: by their names, or one after the other as in a script of docs/FORMATS.md.
fn message(cursor: &mut Cursor<'_>, parts: &mut Vec<Part>) -> Reads<()> {
    if cursor.is_number() {
        parts.push(number(cursor.number(32)?));
        parts.push(number(cursor.number(32)?));
        let laid = Laid { data: cursor.hex()?, offsets: offsets(cursor)? };
        parts.push(Part::Word(laid.words()));
        return Ok(());
    }
    let code = if cursor.skip("code") { cursor.number(32)? } else { 0 };
    let flags = if cursor.skip("flags") { cursor.number(32)? } else { 0 };
    parts.extend([number(code), number(flags), Part::Parcel(pieces(cursor)?)]);
    Ok(())
}

fn offsets(cursor: &mut Cursor<'_>) -> Reads<Vec<u64>> {
    let mut offsets = Vec::new();
    if cursor.skip("-") {
        return Ok(offsets);
    }
    loop {
        offsets.push(cursor.number(64)?);
        if !cursor.skip(",") {
            return Ok(offsets);
        }
    }
}
