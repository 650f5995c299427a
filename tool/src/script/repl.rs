// SPDX-License-Identifier: Apache-2.0 OR MIT
//! Scripts line by line: each is played with those before it, and what came of it is shown as `show` does.
use super::expects::Expected;
use super::reader::{Line, Reader, Said};
use super::room::Room;
use super::runs::{Answer, Run, Setting};
use super::{spelled, Fault};
use crate::play::{Player, Range};
use crate::show::{put_entry, Style};
use crate::state;
use anyhow::{Context, Result};
use rustyline::error::ReadlineError;
use rustyline::Editor;
use std::fs;
use std::io::{self, Write};

const HELP: &str = "\
seats NAME ..          who there is; the first line
let NAME = ..          a number, a text, or parts of a parcel
NAME VERB ..           what a seat does; VERB alone tells what it needs
expect ..              accepted, got BR_REPLY data .., X5, BadObject, of the line before
:state                 what all that has come to
:undo                  takes the latest line back
:script                what the lines come to, as a script for the player
:save FILE             writes the lines
:quit                  as the end of the input does
";

/// The lines that were typed so far, and what they have come to.
struct Session {
    reader: Reader,
    /// How the reader was before each line.
    before: Vec<Reader>,
    lines: Vec<String>,
    run: Run,
    room: Room,
    style: Style,
    has_played: bool,
}

const NAME: &str = "repl";

impl Session {
    /// Takes a line, and gives what is to be printed.
    fn line(&mut self, text: &str) -> Result<String> {
        let number = self.lines.len() + 1;
        let before = self.reader.clone();
        let line = self.reader.line(number, text).and_then(|line| {
            let is_wanted = self.reader.has_seats() || line.said == Said::Nothing;
            let what = "the first line has to be `seats`, with their names or their number".to_string();
            is_wanted.then_some(line).ok_or(Fault { line: number, column: 1, what })
        });
        self.before.push(before);
        self.lines.push(text.into());
        let done = match line {
            Ok(line) => self.play(&line),
            Err(fault) => Ok(Err(fault)),
        };
        match done {
            Ok(Ok(told)) => Ok(told),
            Ok(Err(fault)) => {
                self.undo();
                // The line that was taken back is the only one of the text.
                Ok(spelled(NAME, &Fault { line: 1, ..fault }, text).replacen(":1:", &format!(":{number}:"), 1))
            }
            Err(error) => {
                self.undo();
                Ok(format!("{error:#}\n"))
            }
        }
    }

    fn play(&mut self, line: &Line) -> Result<Result<String, Fault>> {
        if let Some(expected) = line.expected() {
            return Ok(self.expect(expected, line));
        }
        if let Err(fault) = self.run.add(line)? {
            return Ok(Err(fault));
        }
        if !matches!(line.said, Said::Step { .. }) {
            return Ok(Ok(String::new()));
        }
        let journal = self.room.journal();
        self.run.play(Some(&journal))?;
        self.has_played = true;
        match self.run.answer(line.number).cloned() {
            Some(answer) => self.told(&answer).map(Ok),
            None => Ok(Ok("it wasn't run, since a line before waits; :undo takes lines back\n".into())),
        }
    }

    fn expect(&mut self, expected: &Expected, line: &Line) -> Result<String, Fault> {
        match expected.check(self.run.answer(expected.of)) {
            Some(fault) => Err(Fault { line: line.number, ..fault }),
            None => {
                // It stands at its number in the script too, as an empty line.
                let _ = self.run.add(line);
                Ok("it holds\n".into())
            }
        }
    }

    /// The steps of an answer, as `show` tells them; its word where it has none.
    fn told(&self, answer: &Answer) -> Result<String> {
        let (from, to) = match answer.places {
            Some(places) => places,
            None => return Ok(format!("{}\n", answer.word)),
        };
        let mut lines = Vec::new();
        let range = Range { from, to: Some(to), ..Range::default() };
        let mut player = Player::open(&self.room.journal(), false)?;
        let bounds = player.bounds(range)?;
        player.each_within(&bounds, |seen| match seen {
            Some((entry, space, facts)) => Ok(put_entry(&mut lines, &self.style, entry, space, facts)?),
            None => Ok(()),
        })?;
        Ok(String::from_utf8_lossy(&lines).into_owned())
    }

    fn undo(&mut self) {
        if let Some(reader) = self.before.pop() {
            self.reader = reader;
            self.run.cut(self.lines.len());
            self.lines.pop();
        }
    }

    /// What a word that begins with a colon does; None where one wants to go.
    fn command(&mut self, text: &str) -> Result<Option<String>> {
        let (word, rest) = text.split_once(' ').unwrap_or((text, ""));
        Ok(Some(match word {
            ":quit" => return Ok(None),
            ":help" => HELP.into(),
            ":script" => self.run.script(),
            ":undo" => {
                self.undo();
                String::new()
            }
            ":save" => {
                let lines: String = self.lines.iter().map(|it| format!("{it}\n")).collect();
                fs::write(rest.trim(), lines).with_context(|| rest.trim().to_string())?;
                String::new()
            }
            ":state" if self.has_played => {
                // Played once more, since a line may have been taken back.
                self.run.play(Some(&self.room.journal()))?;
                let mut told = Vec::new();
                state::put_text(&mut told, &state::at(&self.room.journal(), None)?)?;
                String::from_utf8_lossy(&told).into_owned()
            }
            ":state" => "nothing was done so far\n".into(),
            other => format!("there is no {other}; there are :help, :quit, :save, :script, :state, :undo\n"),
        }))
    }
}

/// Reads lines until their end.
pub fn repl(setting: Setting, style: Style) -> Result<()> {
    setting.check()?;
    let run = Run::new(Some(setting));
    let (reader, before, lines, room) = (Reader::default(), Vec::new(), Vec::new(), Room::new()?);
    let mut session = Session { reader, before, lines, run, room, style, has_played: false };
    let mut editor = Editor::<()>::new();
    loop {
        let text = match editor.readline("> ") {
            Ok(text) => text,
            Err(ReadlineError::Eof | ReadlineError::Interrupted) => return Ok(()),
            Err(error) => return Err(error).context("standard input"),
        };
        editor.add_history_entry(&text);
        let told = match text.trim().strip_prefix(':') {
            Some(_) => session.command(text.trim()),
            None => session.line(&text).map(Some),
        };
        let told = match told {
            Ok(Some(told)) => told,
            Ok(None) => return Ok(()),
            Err(error) => format!("{error:#}\n"),
        };
        io::stdout().write_all(told.as_bytes())?;
        io::stdout().flush()?;
    }
}
