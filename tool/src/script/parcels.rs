// SPDX-License-Identifier: Apache-2.0 OR MIT
//! Parcels as scripts spell them: numbers, texts, objects, one behind the other.
use super::reader::{Cursor, Named, Reads};
use super::verbs::Number;
use super::words::Kind;
use crate::parcel::put_hex;
use crate::record;

/// A part of a parcel, as a script spells it.
#[derive(Clone, Debug, PartialEq, Eq)]
pub enum Piece {
    Bytes(Vec<u8>),
    /// What kind it is, its ptr or handle, and its cookie.
    Object(record::Kind, Number, Number),
}

impl Piece {
    pub fn numbers(&self) -> impl Iterator<Item = &Number> {
        let both = match self {
            Piece::Bytes(_) => [None, None],
            Piece::Object(_, binder, cookie) => [Some(binder), Some(cookie)],
        };
        both.into_iter().flatten()
    }
}

/// Words that begin an object.
static OBJECTS: [(&str, record::Kind); 4] = [
    ("obj", record::Kind::Binder),
    ("weakobj", record::Kind::WeakBinder),
    ("handle", record::Kind::Handle),
    ("weakhandle", record::Kind::WeakHandle),
];

/// A parcel's data, and where objects stand in it.
#[derive(Clone, Debug, Default, PartialEq, Eq)]
pub struct Laid {
    pub data: Vec<u8>,
    pub offsets: Vec<u64>,
}

impl Laid {
    /// Lays pieces out; `value` tells what a number is.
    pub fn new<E>(pieces: &[Piece], mut value: impl FnMut(&Number) -> Result<u64, E>) -> Result<Laid, E> {
        let mut laid = Laid::default();
        for piece in pieces {
            match piece {
                Piece::Bytes(bytes) => laid.data.extend(bytes),
                Piece::Object(kind, binder, cookie) => {
                    laid.offsets.push(laid.data.len() as u64);
                    // Its type and its flags, which are 0, have four bytes each.
                    laid.data.extend(u64::from(kind.number()).to_le_bytes());
                    laid.data.extend(value(binder)?.to_le_bytes());
                    laid.data.extend(value(cookie)?.to_le_bytes());
                }
            }
        }
        Ok(laid)
    }

    /// The offsets as a parcel has them: eight bytes each, the lowest first.
    pub fn offset_bytes(&self) -> Vec<u8> {
        self.offsets.iter().flat_map(|it| it.to_le_bytes()).collect()
    }

    /// As a script has them: bytes in hex, numbers with commas, `-` for none.
    pub fn words(&self) -> String {
        let offsets: Vec<String> = self.offsets.iter().map(u64::to_string).collect();
        let offsets = if offsets.is_empty() { "-".into() } else { offsets.join(",") };
        format!("{} {offsets}", hex_word(&self.data))
    }
}

pub fn hex_word(bytes: &[u8]) -> String {
    let mut word = Vec::new();
    put_hex(&mut word, bytes);
    if word.is_empty() {
        word.push(b'-');
    }
    String::from_utf8_lossy(&word).into_owned()
}

/// The bytes of a word in hex.
pub fn bytes_of(word: &str) -> Option<Vec<u8>> {
    if word == "-" {
        return Some(Vec::new());
    }
    let is_hex = word.len() % 2 == 0 && word.bytes().all(|it| it.is_ascii_hexdigit());
    let pairs = word.as_bytes().chunks_exact(2).filter_map(|it| std::str::from_utf8(it).ok());
    is_hex.then(|| pairs.filter_map(|it| u8::from_str_radix(it, 16).ok()).collect())
}

/// AIDL's text: how many units, these, a zero, up to a multiple of 4.
fn wide_text(text: &str) -> Vec<u8> {
    let units: Vec<u16> = text.encode_utf16().collect();
    let mut bytes = (units.len() as u32).to_le_bytes().to_vec();
    bytes.extend(units.iter().flat_map(|it| it.to_le_bytes()));
    bytes.extend([0; 2]);
    bytes.resize((bytes.len() + 3) & !3, 0);
    bytes
}

/// All pieces up to the end of the line.
pub fn pieces(cursor: &mut Cursor<'_>) -> Reads<Vec<Piece>> {
    let mut pieces = Vec::new();
    while !cursor.is_at_end() {
        piece(cursor, &mut pieces)?;
    }
    Ok(pieces)
}

fn piece(cursor: &mut Cursor<'_>, to: &mut Vec<Piece>) -> Reads<()> {
    let expected = "i32, i64, s16, hex, a text, obj(ptr, cookie), handle(n) or the name of such";
    let word = cursor.next(expected)?;
    if let Kind::Text(text) = &word.kind {
        to.push(Piece::Bytes(text.clone().into_bytes()));
        return Ok(());
    }
    if let Some((_, kind)) = OBJECTS.iter().find(|it| it.0 == word.text) {
        to.push(object(cursor, *kind)?);
        return Ok(());
    }
    let bytes = match &word.text[..] {
        "i32" => cursor.signed(32)?.to_le_bytes()[..4].to_vec(),
        "i64" => cursor.signed(64)?.to_le_bytes()[..8].to_vec(),
        "s16" => wide_text(&cursor.text()?),
        "hex" => cursor.hex()?,
        _ => {
            return cursor.named(&word, expected, |it| match it {
                Named::Pieces(pieces) => {
                    to.extend(pieces.iter().cloned());
                    true
                }
                _ => false,
            })
        }
    };
    to.push(Piece::Bytes(bytes));
    Ok(())
}

fn object(cursor: &mut Cursor<'_>, kind: record::Kind) -> Reads<Piece> {
    cursor.sign("(")?;
    let (binder, cookie) = if kind.is_handle() {
        (cursor.handle()?, Number::Is(0))
    } else {
        let ptr = cursor.number(64)?;
        cursor.sign(",")?;
        (Number::Is(ptr), Number::Is(cursor.number(64)?))
    };
    cursor.sign(")")?;
    Ok(Piece::Object(kind, binder, cookie))
}

#[cfg(test)]
mod tests {
    use super::*;

    #[test]
    fn bytes_are_pairs_of_digits() {
        assert_eq!(bytes_of("0aFf"), Some(vec![10, 255]));
        assert_eq!(bytes_of("-"), Some(Vec::new()));
        assert_eq!([bytes_of("0"), bytes_of("0g"), bytes_of("é")], [None, None, None]);
    }

    #[test]
    fn a_wide_text_is_filled_up() {
        assert_eq!(wide_text("hi"), [2, 0, 0, 0, b'h', 0, b'i', 0, 0, 0, 0, 0]);
        assert_eq!(wide_text(""), [0; 8]);
    }
}
