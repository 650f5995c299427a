// SPDX-License-Identifier: Apache-2.0 OR MIT
//! What a script expects of its lines.
use super::parcels::{hex_word, pieces, Laid};
use super::reader::{Cursor, Reads};
use super::runs::Answer;
use super::verbs::Number;
use super::Fault;
use crate::codes::{Returns, RETURNS};
use crate::refusals::Reason;

/// What has to come of a line.
#[derive(Clone, Debug, PartialEq, Eq)]
pub enum What {
    /// A command was written, and nothing was refused or noted.
    Accepted,
    /// The first word of what is printed.
    Word(&'static str),
    Reason(Vec<Reason>),
    /// What was read, but for BR_NOOP; and its parcel, where that is told.
    Got(Vec<&'static str>, Option<Laid>),
}

/// Lines that stand for what the player prints.
static WORDS: [&str; 10] =
    ["opened", "set", "exited", "refused", "handed", "idle", "passed", "served", "page", "turns"];

#[derive(Clone, Debug, PartialEq, Eq)]
pub struct Expected {
    pub line: usize,
    pub column: usize,
    /// The line of which it is expected.
    pub of: usize,
    pub what: What,
}

pub fn expected(cursor: &mut Cursor<'_>) -> Reads<What> {
    let words = || WORDS.join(", ");
    let expected = format!("accepted, got, {}, or a reason as X5 or BadObject", words());
    if cursor.skip("accepted") {
        return Ok(What::Accepted);
    }
    if cursor.skip("got") {
        return got(cursor);
    }
    let text = match cursor.peek() {
        Some(word) => word.text.clone(),
        None => return cursor.bad(&expected),
    };
    let reasons = Reason::named(&text);
    let what = match WORDS.iter().find(|it| **it == text) {
        Some(word) => What::Word(word),
        None if !reasons.is_empty() => What::Reason(reasons),
        None => return cursor.bad(&expected),
    };
    cursor.skip(&text);
    Ok(what)
}

fn got(cursor: &mut Cursor<'_>) -> Reads<What> {
    let mut names = Vec::new();
    while !cursor.is_at_end() {
        if cursor.skip("data") {
            let column = cursor.peek().map_or(0, |it| it.column);
            let known = |it: &Number| match it {
                Number::Is(value) => Ok(*value),
                Number::Last { .. } => Err((column, "`last` says nothing of what is to be read".to_string())),
            };
            let laid = Laid::new(&pieces(cursor)?, known)?;
            return Ok(What::Got(names, Some(laid)));
        }
        match cursor.peek().and_then(|it| RETURNS.iter().find(|code| code.name == it.text)) {
            Some(code) => names.push(code.name),
            None => return cursor.bad("the name of a return, as BR_REPLY, or data"),
        }
        cursor.next("a return")?;
    }
    Ok(What::Got(names, None))
}

/// The returns that were read, but for BR_NOOP, which is in each.
fn names_of(answer: &Answer) -> Vec<&'static str> {
    let names = Returns(&answer.stream).flatten().map(|it| it.code.name);
    names.filter(|it| *it != "BR_NOOP").collect()
}

impl What {
    fn holds(&self, answer: &Answer) -> bool {
        match self {
            What::Accepted => answer.word == "wrote" && answer.reasons.is_empty(),
            What::Word(word) => answer.word == *word,
            What::Reason(reasons) => answer.reasons.iter().any(|it| reasons.contains(it)),
            What::Got(names, laid) => {
                let has_parcel = |it: &Laid| answer.data == it.data && answer.offsets == it.offset_bytes();
                answer.word == "got" && names_of(answer) == *names && laid.as_ref().map_or(true, has_parcel)
            }
        }
    }

    fn words(&self) -> String {
        match self {
            What::Accepted => "accepted".into(),
            What::Word(word) => word.to_string(),
            What::Reason(reasons) => {
                reasons.iter().map(|it| format!("{} {}", it.name(), it.word())).collect::<Vec<_>>().join(" or ")
            }
            What::Got(names, laid) => {
                let data = laid.as_ref().map_or(String::new(), |it| format!(", data {}", it.words()));
                format!("got {}{data}", listed(names))
            }
        }
    }
}

fn listed(names: &[&str]) -> String {
    if names.is_empty() {
        "nothing but BR_NOOP".into()
    } else {
        names.join(" ")
    }
}

fn told(answer: &Answer) -> String {
    let reasons: String = answer.reasons.iter().map(|it| format!(", {} {}", it.name(), it.word())).collect();
    match &answer.word[..] {
        "got" if answer.data.is_empty() => format!("got {}", listed(&names_of(answer))),
        "got" => format!("got {}, data {}", listed(&names_of(answer)), hex_word(&answer.data)),
        "wrote" if reasons.is_empty() => "accepted".into(),
        word => format!("{word}{reasons}"),
    }
}

impl Expected {
    /// What is wrong, where it doesn't hold.
    pub fn check(&self, answer: Option<&Answer>) -> Option<Fault> {
        let is = match answer {
            Some(answer) if self.what.holds(answer) => return None,
            Some(answer) => format!("line {} was answered: {}", self.of, told(answer)),
            None => format!("line {} wasn't run", self.of),
        };
        let what = format!("expected {}, and {is}", self.what.words());
        Some(Fault { line: self.line, column: self.column, what })
    }
}
