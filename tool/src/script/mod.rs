// SPDX-License-Identifier: Apache-2.0 OR MIT
//! Scripts in which seats, numbers and parcels have names. They come to the scripts of docs/FORMATS.md, line by line, so what they
//! mean is what these mean: each line of a script stands at its number there too, and what is only for us leaves an empty one.
mod engine;
mod expects;
mod parcels;
mod reader;
#[cfg(feature = "repl")]
mod repl;
mod room;
mod runs;
mod told;
mod verbs;
mod words;

#[cfg(feature = "repl")]
pub use repl::repl;
pub use runs::Setting;

use crate::play::name;
use anyhow::{bail, Context, Result};
use reader::{Line, Reader};
use room::Room;
use runs::Run;
use std::fs;
use std::io::{self, Read, Write};

/// What is wrong with a line, and where; columns are in letters, both from 1.
#[derive(Clone, Debug, PartialEq, Eq)]
pub struct Fault {
    pub line: usize,
    pub column: usize,
    pub what: String,
}

/// A fault with the line that it is in, and a caret under the word.
fn spelled(path: &str, fault: &Fault, text: &str) -> String {
    let line = text.lines().nth(fault.line - 1).unwrap_or_default();
    // A tab before the word is one before the caret too, so that both stand alike.
    let before: String = line.chars().take(fault.column - 1).map(|it| if it == '\t' { it } else { ' ' }).collect();
    format!("{path}:{}:{}: {}\n    {line}\n    {before}^\n", fault.line, fault.column, fault.what)
}

fn put_faults(path: &str, faults: &[Fault], text: &str) {
    let told: String = faults.iter().map(|it| spelled(path, it, text)).collect();
    // Nobody is told where standard error is closed.
    let _ = io::stderr().write_all(told.as_bytes());
}

fn text_of(path: &str) -> Result<String> {
    let mut text = String::new();
    match path {
        "-" => io::stdin().read_to_string(&mut text).map(|_| ()),
        _ => fs::read_to_string(path).map(|it| text = it),
    }
    .with_context(|| name(path))?;
    Ok(text)
}

/// All lines of a script, or all that is wrong with them.
fn lines_of(text: &str) -> Result<Vec<Line>, Vec<Fault>> {
    let mut reader = Reader::default();
    let (mut lines, mut faults) = (Vec::new(), Vec::new());
    for (index, line) in text.lines().enumerate() {
        match reader.line(index + 1, line) {
            Ok(line) => lines.push(line),
            Err(fault) => faults.push(fault),
        }
    }
    if !reader.has_seats() && faults.is_empty() {
        faults.push(Fault { line: 1, column: 1, what: "the script has no line `seats`".into() });
    }
    if faults.is_empty() {
        Ok(lines)
    } else {
        Err(faults)
    }
}

/// What is asked of `script`.
#[derive(Debug, Default)]
pub struct Asked<'a> {
    pub path: &'a str,
    pub player: Option<&'a str>,
    pub turns: u32,
    pub journal: Option<&'a str>,
    pub emit: Option<&'a str>,
    /// Whether what lines said is told as JSON.
    pub as_json: bool,
}

/// Prints what a script comes to, or plays it and says whether what it expects holds.
pub fn script(asked: &Asked<'_>, to: &mut Vec<u8>) -> Result<()> {
    if asked.journal == Some("-") && (asked.as_json || asked.emit == Some("-")) {
        bail!("--journal - takes standard output, and something else wants it too");
    }
    let (path, text) = (name(asked.path), text_of(asked.path)?);
    let lines = match lines_of(&text) {
        Ok(lines) => lines,
        Err(faults) => {
            put_faults(&path, &faults, &text);
            bail!("{path}: {} of its lines make no sense, and nothing was run", faults.len());
        }
    };
    let mut run = Run::new(asked.player.map(|it| Setting { player: it.into(), turns: asked.turns }));
    for line in &lines {
        if let Err(fault) = run.add(line)? {
            put_faults(&path, &[fault], &text);
            bail!("{path}: nothing is run from there on");
        }
    }
    match (asked.emit, asked.player) {
        (Some(emit), _) => write(emit, run.script().as_bytes())?,
        (None, None) => to.extend(run.script().into_bytes()),
        (None, Some(_)) => {}
    }
    if asked.player.is_none() {
        return Ok(());
    }
    play(&mut run, asked.journal, to)?;
    put_outcome(asked, &lines, &run, &text, to)
}

/// What came of a run: what each line said, or whether what it expects holds.
fn put_outcome(asked: &Asked<'_>, lines: &[Line], run: &Run, text: &str, to: &mut Vec<u8>) -> Result<()> {
    let path = name(asked.path);
    let expected: Vec<_> = lines.iter().flat_map(Line::expected).collect();
    let faults: Vec<_> = expected.iter().filter_map(|it| it.check(run.answer(it.of))).collect();
    put_faults(&path, &faults, text);
    let (all, held) = (expected.len(), expected.len() - faults.len());
    let verdict = format!("{path}: {held} of {all} expectations hold\n");
    if asked.as_json {
        for (number, said) in run.printed() {
            serde_json::to_writer(&mut *to, &told::Told::read(number, said))?;
            to.push(b'\n');
        }
    } else if asked.journal == Some("-") {
        eprint!("{verdict}");
    } else {
        to.extend(verdict.into_bytes());
    }
    if held < all {
        bail!("{path}: {} of its expectations don't hold", faults.len());
    }
    Ok(())
}

/// Plays all lines. The journal goes to a file; for `-` to what is printed, by a file of one's own, since the player prints too.
fn play(run: &mut Run, journal: Option<&str>, to: &mut Vec<u8>) -> Result<()> {
    if journal != Some("-") {
        return run.play(journal);
    }
    let room = Room::new()?;
    let journal = room.journal();
    run.play(Some(&journal))?;
    to.extend(fs::read(&journal).with_context(|| journal.clone())?);
    Ok(())
}

fn write(path: &str, bytes: &[u8]) -> Result<()> {
    match path {
        "-" => io::stdout().write_all(bytes)?,
        _ => fs::write(path, bytes).with_context(|| path.to_string())?,
    }
    Ok(())
}
