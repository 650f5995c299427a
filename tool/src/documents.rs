// SPDX-License-Identifier: Apache-2.0 OR MIT
//! The names, numbers and texts of docs/FORMATS.md are those of this program.
use crate::codes::{Code, COMMANDS, RETURNS};
use crate::record::{FLAGS, KINDS};
use crate::refusals::{Kind, Reason};

const FORMATS: &str = include_str!("../../docs/FORMATS.md");

/// The rows of the document's tables, cell by cell.
fn rows() -> Vec<Vec<&'static str>> {
    let cells = |line: &'static str| line.trim_matches('|').split('|').map(|it| it.trim().trim_matches('`')).collect();
    FORMATS.lines().filter(|it| it.starts_with("| ") || it.starts_with("| `")).map(cells).collect()
}

/// Name, code and size of a table of codes.
fn documented(beginning: &str) -> Vec<(String, String, String)> {
    let rows = rows().into_iter().filter(|it| it[0].starts_with(beginning) && it.len() == 5);
    rows.map(|it| (it[0].into(), it[1].into(), it[3].into())).collect()
}

fn ours(codes: &[Code]) -> Vec<(String, String, String)> {
    let size = |it: &Code| (4 + it.shape.size()).to_string();
    codes.iter().map(|it| (it.name.into(), format!("{:#010x}", it.number), size(it))).collect()
}

#[test]
fn codes_are_those_of_the_document() {
    assert_eq!(ours(&COMMANDS), documented("BC_"));
    assert_eq!(ours(&RETURNS), documented("BR_"));
}

#[test]
fn refusals_are_those_of_the_document() {
    for kind in Kind::ALL {
        let is_of = |it: &str| it.strip_prefix(kind.letter()).map_or(false, |it| it.parse::<u8>().is_ok());
        let documented: Vec<_> =
            rows().into_iter().filter(|it| is_of(it[0])).map(|it| (it[0].to_string(), it[1], it[2])).collect();
        let ours: Vec<_> =
            Reason::all().filter(|it| it.kind == kind).map(|it| (it.name(), it.word(), it.text())).collect();
        assert_eq!(ours, documented);
    }
}

#[test]
fn flags_and_objects_are_those_of_the_document() {
    let rows = rows();
    for (number, name) in FLAGS {
        let row = rows.iter().find(|it| Some(it[0]) == name.strip_prefix("TF_")).expect(name);
        assert_eq!(row[1], format!("{number:#04x}"));
    }
    for (_, number, name) in KINDS {
        let row = rows.iter().find(|it| it[0] == name && it.len() == 3).expect(name);
        assert_eq!(row[1], format!("{number:#x}"));
    }
}

/// The first and the last seat number of a row such as `1 to 16` or `32 to 65,536`.
fn bounds(cell: &str) -> (u32, u32) {
    let number = |it: &str| it.trim().replace(',', "").parse().expect("a number of seats");
    let (least, most) = cell.split_once(" to ").expect("from one number to another");
    (number(least), number(most))
}

#[test]
fn versions_are_those_of_the_document() {
    let rows: Vec<_> = rows().into_iter().filter(|it| it[0].len() == 8 && it[0].starts_with("BNDJ")).collect();
    assert!(rows.len() >= 2, "{rows:?}");
    for row in rows {
        let (least, most) = bounds(row[1]);
        let taken = |seats: u32| {
            let bytes = [row[0].as_bytes(), &seats.to_le_bytes(), &[0; 8]].concat();
            crate::journal::Heading::read(&bytes).is_ok()
        };
        assert_eq!([least - 1, least, most, most + 1].map(taken), [false, true, true, false], "{row:?}");
    }
}
