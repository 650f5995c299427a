// SPDX-License-Identifier: Apache-2.0 OR MIT
//! What is written beside marks, arrows and spans: numbers, words and commas, nothing that SVG or Mermaid takes for anything else.
use super::model::{Arrow, Diagram, Doing, Event, Kind, Row, Span, Target};
use crate::parcel::letters;

/// A code with its letters, where these are letters and digits.
fn code_words(code: u32) -> String {
    let is_plain = |it: &String| it.chars().all(|it| it.is_ascii_alphanumeric() || it == '_');
    letters(code).filter(is_plain).map_or_else(|| format!("{code:#x}"), |it| format!("{code:#x} {it}"))
}

/// A name that a client has chosen, as far as it has nothing that means something.
pub fn plain(name: &str) -> String {
    name.chars().map(|it| if it.is_alphanumeric() || " ._-:/".contains(it) { it } else { '_' }).collect()
}

fn target_words(target: Target) -> String {
    match target {
        Target::Handle(handle) => format!("handle {handle}"),
        Target::Node(node) => format!("node {node}"),
    }
}

/// What is sent, in a word or two.
pub fn kind_words(kind: Kind) -> String {
    match kind {
        Kind::Call { target, code } => format!("call, {}, code {}", target_words(target), code_words(code)),
        Kind::OneWay { target, code, turn } => {
            format!("one-way, {}, code {}, turn {turn}", target_words(target), code_words(code))
        }
        Kind::Reply { call } => format!("reply to {call}"),
    }
}

/// The same, and whether nobody has read it.
pub fn sent_words(arrow: &Arrow) -> String {
    format!("{}{}", kind_words(arrow.kind), if arrow.got.is_none() { ", unread" } else { "" })
}

fn got_words(arrow: &Arrow) -> String {
    let made = arrow.made;
    match arrow.kind {
        Kind::Call { .. } => format!("gets call {made}"),
        Kind::OneWay { turn, .. } => format!("gets one-way {made}, turn {turn}"),
        Kind::Reply { call } => format!("gets reply {made} to {call}"),
    }
}

/// What a thread does for a while.
pub fn span_words(span: &Span) -> String {
    let Span { seat, since, .. } = span;
    match span.doing {
        Doing::Gone => format!("seat {seat}"),
        Doing::Idle => format!("seat {seat}, thread of the process opened at {since}"),
        Doing::Waits => format!("seat {seat} waits in the call at {since}"),
        Doing::Serves => format!("seat {seat} serves the call at {since}"),
    }
}

/// What a row's entry did.
pub fn row_words(diagram: &Diagram, row: &Row) -> String {
    match row.event {
        Event::Sent(index) => sent_words(&diagram.arrows[index]),
        Event::Got(index) => got_words(&diagram.arrows[index]),
        Event::Opened(pid) => format!("opens pid {pid}"),
        Event::Attached(pid) => format!("attaches to pid {pid}"),
        Event::ManagerSet => "becomes the manager".into(),
        Event::SpamSet(true) => "asks for reports of flooding".into(),
        Event::SpamSet(false) => "asks for no more reports of flooding".into(),
        Event::Death(Some(cookie)) => format!("is told of a death, cookie {cookie:#x}"),
        Event::Death(None) => "is told of a death".into(),
        Event::DeadReply => "reads BR_DEAD_REPLY".into(),
        Event::FailedReply => "reads BR_FAILED_REPLY".into(),
        Event::SpamSuspect => "reads BR_ONEWAY_SPAM_SUSPECT".into(),
        Event::ThreadExit => "thread exits".into(),
        Event::ProcessExit => "process exits".into(),
        Event::Refused(reason) => format!("{} {}", reason.name(), reason.word()),
    }
}
