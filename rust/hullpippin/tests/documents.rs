// SPDX-License-Identifier: Apache-2.0 OR MIT
//! The names, numbers and texts of docs/FORMATS.md are those of this crate.
use hullpippin::{
    BadParcel, Cause, Command, Fault, FlatObject, Note, ObjectKind, Objects, Parcel, Return, Returns, TransactionData, ACCEPT_FDS,
    CLEAR_BUF, ONE_WAY, ROOT_OBJECT, STATUS_CODE, UPDATE_TXN,
};
use std::fmt::{Debug, Display};

const FORMATS: &str = concat!(env!("CARGO_MANIFEST_DIR"), "/../../docs/FORMATS.md");

/// The rows of the document's tables, cell by cell.
fn rows() -> Vec<Vec<String>> {
    let text = std::fs::read_to_string(FORMATS).expect("docs/FORMATS.md");
    let cells = |line: &str| line.split('|').map(|cell| cell.trim().trim_matches('`').to_string()).collect();
    text.lines().filter(|line| line.starts_with('|')).map(cells).collect()
}

/// The name and the text of each member of an enum, as its table has them.
fn documented(letter: char) -> Vec<(String, String, String)> {
    let is_of = |name: &str| name.strip_prefix(letter).map_or(false, |rest| rest.parse::<u32>().is_ok());
    rows()
        .into_iter()
        .filter(|row| is_of(&row[1]))
        .map(|row| (row[1].clone(), row[2].clone(), row[3].clone()))
        .collect()
}

fn ours<T: Copy + Debug + Display>(all: &[T], name: impl Fn(T) -> &'static str) -> Vec<(String, String, String)> {
    all.iter().map(|it| (name(*it).to_string(), format!("{it:?}"), it.to_string())).collect()
}

#[test]
fn refusals_are_those_of_the_document() {
    assert_eq!(ours(Fault::ALL, Fault::name), documented('F'));
    assert_eq!(ours(Cause::ALL, Cause::name), documented('X'));
    assert_eq!(ours(Note::ALL, Note::name), documented('N'));
}

#[test]
fn numbers_come_back() {
    for number in 0..20 {
        assert_eq!(Fault::from_number(number).map(Fault::number), (1..=16).contains(&number).then_some(number));
        assert_eq!(Cause::from_number(number).map(Cause::number), (1..=16).contains(&number).then_some(number));
        assert_eq!(Note::from_number(number).map(Note::number), (1..=11).contains(&number).then_some(number));
    }
}

#[test]
fn flags_are_those_of_the_document() {
    let ours = [
        ("ONE_WAY", ONE_WAY),
        ("ROOT_OBJECT", ROOT_OBJECT),
        ("STATUS_CODE", STATUS_CODE),
        ("ACCEPT_FDS", ACCEPT_FDS),
        ("CLEAR_BUF", CLEAR_BUF),
        ("UPDATE_TXN", UPDATE_TXN),
    ];
    let is_flag = |row: &Vec<String>| row.len() > 3 && (row[3] == "handed on" || row[3].starts_with("acts"));
    let documented: Vec<_> = rows().into_iter().filter(is_flag).map(|row| (row[1].clone(), row[2].clone())).collect();
    assert_eq!(ours.map(|(name, value)| (name.to_string(), format!("{value:#04x}"))).to_vec(), documented);
}

fn commands() -> Vec<Command> {
    let record = TransactionData::default();
    vec![
        Command::Transaction(record),
        Command::Reply(record),
        Command::FreeBuffer(1),
        Command::Increfs(1),
        Command::Acquire(1),
        Command::Release(1),
        Command::Decrefs(1),
        Command::IncrefsDone(1, 2),
        Command::AcquireDone(1, 2),
        Command::EnterLooper,
        Command::ExitLooper,
        Command::RequestDeathNotification(1, 2),
        Command::ClearDeathNotification(1, 2),
        Command::DeadBinderDone(1),
    ]
}

#[test]
fn commands_are_those_of_the_document() {
    let told = |it: &Command| (it.name().to_string(), format!("{:#010x}", it.code()), it.to_bytes().len().to_string());
    let rows = rows().into_iter().filter(|row| row[1].starts_with("BC_") && row.len() == 7);
    let documented = rows.map(|row| (row[1].clone(), row[2].clone(), row[4].clone())).collect::<Vec<_>>();
    assert_eq!(commands().iter().map(told).collect::<Vec<_>>(), documented);
}

#[test]
fn commands_are_read_as_they_are_spelled() {
    for command in commands() {
        let bytes = command.to_bytes();
        assert_eq!(Command::from_bytes(&bytes), Ok((command, bytes.len())));
        assert_eq!(Command::from_bytes(&bytes[..bytes.len() - 1]), Err(Fault::ShortCommand));
    }
    assert_eq!(Command::from_bytes(&0x0000_630b_u32.to_le_bytes()), Err(Fault::RefusedCommand));
    assert_eq!(Command::from_bytes(&0x0000_720c_u32.to_le_bytes()), Err(Fault::UnknownCommand));
}

#[test]
fn returns_are_those_of_the_document() {
    let mut count = 0;
    for row in rows().into_iter().filter(|row| row[1].starts_with("BR_") && row.len() == 7) {
        let code = u32::from_str_radix(row[2].trim_start_matches("0x"), 16).expect("a code");
        let size = row[4].parse::<usize>().expect("a size");
        let mut bytes = code.to_le_bytes().to_vec();
        bytes.resize(size, 0);
        let (found, read) = Return::from_bytes(&bytes).expect("a return");
        assert_eq!((found.name(), read), (&row[1][..], size));
        assert_eq!(Return::from_bytes(&bytes[..size - 1]), Err(Fault::ShortCommand));
        count += 1;
    }
    assert_eq!(count, 13);
}

#[test]
fn objects_are_those_of_the_document() {
    for kind in [ObjectKind::Binder, ObjectKind::WeakBinder, ObjectKind::Handle, ObjectKind::WeakHandle] {
        let row = rows().into_iter().find(|row| row.len() == 5 && row[3] == format!("{kind:?}")).expect("a row");
        assert_eq!(row[2], format!("{:#x}", kind.number()));
        assert_eq!(ObjectKind::from_number(kind.number()), Some(kind));
    }
    assert_eq!(ObjectKind::from_number(0), None);
}

#[test]
fn streams_end_behind_what_is_no_return() {
    let stream = [0x06, 0x72, 0, 0, 1, 2, 3, 4, 0x06, 0x72, 0, 0];
    let found = Returns::of(&stream).collect::<Vec<_>>();
    assert_eq!(found, [Ok(Return::TransactionComplete), Err(Fault::UnknownCommand)]);
}

#[test]
fn parcels_tell_their_objects() {
    let objects = [FlatObject::binder(0x1000, 0x20), FlatObject::handle(7)];
    let mut parcel = Parcel::from(&b"hi"[..]);
    for object in objects {
        parcel.push(object);
    }
    let offsets = parcel.offset_bytes();
    let found = Objects::of(parcel.data(), &offsets).collect::<Vec<_>>();
    assert_eq!(found, [Ok((8, objects[0])), Ok((32, objects[1]))]);
    let cut = Objects::of(&parcel.data()[..55], &offsets).collect::<Vec<_>>();
    assert_eq!(cut, [Ok((8, objects[0])), Err(BadParcel { cause: Cause::BadObject, index: 1 })]);
    let odd = Objects::of(parcel.data(), &offsets[1..]).collect::<Vec<_>>();
    assert_eq!(odd, [Err(BadParcel { cause: Cause::OffsetsSize, index: 0 })]);
}

#[test]
fn records_are_read_as_they_are_spelled() {
    let record =
        TransactionData { target: 1, code: 2, sender_pid: -3, offsets: u64::MAX, ..TransactionData::default() };
    assert_eq!(TransactionData::from_bytes(&record.to_bytes()), Some(record));
    assert_eq!(TransactionData::from_bytes(&record.to_bytes()[..63]), None);
}
