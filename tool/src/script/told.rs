// SPDX-License-Identifier: Apache-2.0 OR MIT
//! What the player prints of a line (docs/FORMATS.md, Output lines), as a value of JSON.
use serde::Serialize;

/// A command of a write that changed nothing, by its index, and why.
#[derive(Debug, PartialEq, Eq, Serialize)]
struct Note {
    command: u64,
    note: String,
}

/// A line that has run. What it has not is left out; `stop` and `requests` are null where there is none.
#[derive(Debug, Default, PartialEq, Eq, Serialize)]
pub struct Told {
    line: usize,
    kind: String,
    #[serde(skip_serializing_if = "Option::is_none")]
    from: Option<u64>,
    #[serde(skip_serializing_if = "Option::is_none")]
    to: Option<u64>,
    #[serde(skip_serializing_if = "Option::is_none")]
    consumed: Option<u64>,
    #[serde(skip_serializing_if = "Option::is_none")]
    notes: Option<Vec<Note>>,
    #[serde(skip_serializing_if = "Option::is_none")]
    stop: Option<Option<String>>,
    #[serde(skip_serializing_if = "Option::is_none")]
    returns: Option<String>,
    #[serde(skip_serializing_if = "Option::is_none")]
    data: Option<String>,
    #[serde(skip_serializing_if = "Option::is_none")]
    offsets: Option<String>,
    #[serde(skip_serializing_if = "Option::is_none")]
    fault: Option<String>,
    #[serde(skip_serializing_if = "Option::is_none")]
    why: Option<String>,
    #[serde(skip_serializing_if = "Option::is_none")]
    requests: Option<Option<u64>>,
    #[serde(skip_serializing_if = "Option::is_none")]
    stamp: Option<u64>,
    #[serde(skip_serializing_if = "Option::is_none")]
    ready: Option<u64>,
    #[serde(skip_serializing_if = "Option::is_none")]
    taken: Option<bool>,
}

impl Told {
    /// What was printed of a line, behind its number.
    pub fn read(line: usize, text: &str) -> Told {
        let words: Vec<&str> = text.split(' ').collect();
        let number = |index: usize| words.get(index).and_then(|it| it.parse().ok());
        let word = |index: usize| words.get(index).map(|it| it.to_string());
        // No bytes are a dash.
        let bytes = |index: usize| word(index).map(|it| if it == "-" { String::new() } else { it });
        let told = Told { line, kind: words[0].into(), ..Told::default() };
        let steps = |told: Told, index: usize| Told { from: number(index), to: number(index + 1), ..told };
        match words[0] {
            "opened" | "set" | "exited" => steps(told, 1),
            "wrote" => {
                let stop = words.iter().position(|it| *it == "stop").and_then(|it| word(it + 1));
                let notes = words
                    .iter()
                    .filter_map(|it| it.split_once(':'))
                    .filter_map(|(command, note)| Some(Note { command: command.parse().ok()?, note: note.into() }));
                let (consumed, notes) = (number(1), Some(notes.collect()));
                steps(Told { consumed, notes, stop: Some(stop), ..told }, 2)
            }
            "got" => steps(Told { returns: bytes(1), data: bytes(2), offsets: bytes(3), ..told }, 4),
            "refused" => steps(Told { fault: word(1), ..told }, 2),
            "back" => Told { why: word(1), ..told },
            "served" => Told { requests: Some(number(1)), ..told },
            "page" => Told { stamp: number(1), ready: number(2), taken: number(3).map(|it: u64| it == 1), ..told },
            _ => told,
        }
    }
}
