// SPDX-License-Identifier: Apache-2.0 OR MIT
//! An index beside a journal: what the steps had come to at some places, so that one needn't begin at the first.
//!
//! FILE.index begins with eight bytes and the place of its table; then come spaces, one after the other; then the table.
use crate::following::Space;
use crate::play::Player;
use anyhow::{bail, ensure, Context, Result};
use bincode::Options;
use serde::de::DeserializeOwned;
use serde::{Deserialize, Serialize};
use std::fs::{rename, File};
use std::io::{BufWriter, Seek, SeekFrom, Write};
use std::os::unix::fs::FileExt;

const MARK: &[u8; 8] = b"HPIX0002";
const HEAD: u64 = 16;
/// How many entries lie at least between two spaces.
const APART: u64 = 16384;
/// How many bytes of journal there are at least for each byte of index.
const THRIFT: u64 = 4;
/// The bytes of the journal before the last indexed place, by which it is known again.
const KNOWN: usize = 64;

#[derive(Clone, Copy, Debug, Serialize, Deserialize)]
struct Key {
    place: u64,
    /// Where the entry stands in the journal.
    at: u64,
    /// Where the space stands in the index, and how long it is.
    from: u64,
    size: u64,
}

#[derive(Debug, Default, Serialize, Deserialize)]
struct Table {
    /// Who wrote it: spaces of another version aren't read.
    version: String,
    keys: Vec<Key>,
    /// How far it goes, and what stands before that.
    covered: u64,
    known: Vec<u8>,
}

/// What an index knows of a place: the byte at which its entry stands, and what the steps before have come to.
pub struct Found {
    pub place: u64,
    pub at: u64,
    pub space: Space,
}

pub fn path_of(journal: &str) -> String {
    format!("{journal}.index")
}

/// Bytes that follow one another in a file.
fn bytes_at(file: &File, at: u64, size: u64) -> Result<Vec<u8>> {
    let length = file.metadata()?.len();
    ensure!(at.checked_add(size).map_or(false, |end| end <= length), "it has no {size} bytes at byte {at}");
    let mut bytes = vec![0; usize::try_from(size)?];
    file.read_exact_at(&mut bytes, at)?;
    Ok(bytes)
}

fn decode<T: DeserializeOwned>(bytes: &[u8]) -> Result<T> {
    let options = bincode::DefaultOptions::new().with_limit(bytes.len() as u64);
    options.deserialize(bytes).context("it can't be read")
}

fn encode<T: Serialize>(value: &T) -> Result<Vec<u8>> {
    Ok(bincode::DefaultOptions::new().serialize(value)?)
}

fn table(file: &File) -> Result<Table> {
    let head = bytes_at(file, 0, HEAD)?;
    ensure!(head[..8] == MARK[..], "it is no index");
    let at = crate::record::u64_at(&head, 8);
    let length = file.metadata()?.len();
    ensure!(at >= HEAD && at <= length, "its table would stand at byte {at}");
    let table: Table = decode(&bytes_at(file, at, length - at)?)?;
    let (theirs, ours) = (&table.version[..], env!("CARGO_PKG_VERSION"));
    ensure!(theirs == ours, "version {theirs} wrote it, and this is {ours}; `hullpippin index` makes it anew");
    Ok(table)
}

/// The nearest place before this one that the journal's index knows, if it has one.
pub fn nearest(journal: &str, place: u64) -> Result<Option<Found>> {
    let file = match File::open(path_of(journal)) {
        Ok(file) => file,
        Err(_) => return Ok(None),
    };
    let table = table(&file)?;
    let size = table.known.len() as u64;
    let known = table.covered.checked_sub(size).and_then(|at| bytes_at(&File::open(journal).ok()?, at, size).ok());
    ensure!(known.map_or(false, |it| it == table.known), "it is of another journal; `hullpippin index` makes it anew");
    let key = match table.keys.iter().rev().find(|it| it.place <= place) {
        Some(key) => *key,
        None => return Ok(None),
    };
    let space = decode(&bytes_at(&file, key.from, key.size)?)?;
    Ok(Some(Found { place: key.place, at: key.at, space }))
}

/// An index that is being written.
struct Writer {
    file: BufWriter<File>,
    at: u64,
    table: Table,
}

impl Writer {
    fn new(path: &str) -> Result<Writer> {
        let file = File::options().write(true).create_new(true).open(path).with_context(|| path.to_string())?;
        let mut file = BufWriter::new(file);
        file.write_all(MARK)?;
        file.write_all(&[0; 8])?;
        let version = env!("CARGO_PKG_VERSION").into();
        Ok(Writer { file, at: HEAD, table: Table { version, ..Table::default() } })
    }

    fn put(&mut self, bytes: &[u8]) -> Result<u64> {
        let from = self.at;
        self.file.write_all(bytes)?;
        self.at += bytes.len() as u64;
        Ok(from)
    }

    /// Keeps a space, where enough of the journal lies behind the latest one.
    fn keep(&mut self, player: &Player) -> Result<()> {
        let (place, at) = (player.source.place(), player.source.at());
        let latest = self.table.keys.last().copied().unwrap_or(Key { place: 0, at: 0, from: 0, size: 0 });
        if place < latest.place + APART || at - latest.at < THRIFT * latest.size {
            return Ok(());
        }
        let bytes = encode(&player.space)?;
        let from = self.put(&bytes)?;
        self.table.keys.push(Key { place, at, from, size: bytes.len() as u64 });
        Ok(())
    }

    fn finish(mut self, journal: &str, covered: u64) -> Result<()> {
        let known = covered.min(KNOWN as u64);
        self.table.covered = covered;
        self.table.known = bytes_at(&File::open(journal)?, covered - known, known)?;
        let bytes = encode(&self.table)?;
        let at = self.put(&bytes)?;
        let mut file = self.file.into_inner()?;
        file.seek(SeekFrom::Start(8))?;
        file.write_all(&at.to_le_bytes())?;
        Ok(())
    }
}

/// Writes the index of a journal beside it. What stood there is replaced once the new one is whole.
pub fn make(journal: &str) -> Result<()> {
    if journal == "-" {
        bail!("standard input has no file to lay an index beside");
    }
    let (path, part) = (path_of(journal), format!("{}.part", path_of(journal)));
    let mut player = Player::open(journal, false)?;
    let mut writer = Writer::new(&part)?;
    let made = fill(&mut player, &mut writer).and_then(|()| writer.finish(journal, player.source.at()));
    let made = made.and_then(|()| rename(&part, &path).with_context(|| path.clone()));
    if made.is_err() {
        // It was made here, and nobody else has any use for it.
        let _ = std::fs::remove_file(&part);
    }
    made
}

fn fill(player: &mut Player, writer: &mut Writer) -> Result<()> {
    while player.next(|| Ok(()))?.is_some() {
        writer.keep(player)?;
    }
    player.ended(Default::default())
}
