// SPDX-License-Identifier: Apache-2.0 OR MIT
//! In which order the rules look at a step for a reason to refuse it, as the tables of docs/RULES.md have it.
use crate::codes::{Message, Payload, BC_REPLY, BC_TRANSACTION};
use crate::explain::{cells, RULES};
use crate::journal::Step;
use crate::refusals::Reason;

/// The rows of all tables of the rules.
fn rows() -> impl Iterator<Item = Vec<String>> {
    RULES.lines().filter(|it| it.starts_with("| ")).map(cells)
}

/// The reason with this name, as `X6`.
fn reason(name: &str) -> Option<Reason> {
    Reason::all().find(|it| it.name() == name)
}

/// A request's name in the rules; None of a command, whose reasons have rows of their own.
fn request(step: &Step<'_>) -> Option<&'static str> {
    Some(match step {
        Step::Open { .. } => "Open",
        Step::Attach { .. } => "Attach",
        Step::Manager => "SetManager",
        Step::Spam { .. } => "SetSpam",
        Step::Read { .. } => "Read",
        Step::ExitThread => "ExitThread",
        Step::ExitProcess => "ExitProcess",
        Step::Command { .. } => return None,
    })
}

/// Whether the second cell of a cause's row means such a transaction or reply.
fn is_of_message(cell: &str, command: &Message) -> bool {
    let record = match command.payload {
        Payload::Record(record) => record,
        _ => return false,
    };
    if command.code.number == BC_REPLY {
        return matches!(cell, "both" | "reply");
    }
    match cell {
        "both" | "transaction" => true,
        "transaction, handle 0" => record.handle() == 0,
        "transaction, handle not 0" => record.handle() != 0,
        "one-way" => record.is_one_way(),
        "two-way" => !record.is_one_way(),
        _ => false,
    }
}

/// Whether the second cell of a note's row names such a command.
fn names(cell: &str, command: &Message) -> bool {
    let handle = match command.payload {
        Payload::Handle(handle) | Payload::HandleCookie(handle, _) => Some(handle),
        _ => None,
    };
    let of_zero = cell.strip_suffix(" of 0");
    let all = of_zero.unwrap_or(cell).replace("BC_REQUEST_ and", "BC_REQUEST_DEATH_NOTIFICATION,");
    all.split(", ").any(|it| it == command.code.name) && (of_zero.is_none() || handle == Some(0))
}

/// The reasons that are looked at for a step, in their order, up to the one that held.
pub fn looked(step: &Step<'_>, held: Option<Reason>) -> Vec<Reason> {
    let of_request = |name: &str| {
        let row = rows().find(|it| it.len() == 4 && it[0].split(' ').next() == Some(name)).unwrap_or_default();
        row.get(2).map(|it| it.split(", ").filter_map(reason).collect()).unwrap_or_default()
    };
    let of_command = |command: &Message| {
        let is_message = matches!(command.code.number, BC_TRANSACTION | BC_REPLY);
        let is_looked_at = |row: &Vec<String>| match row[0].chars().next() {
            Some('X') => is_message && is_of_message(&row[2], command),
            Some('N') => names(&row[2], command),
            _ => false,
        };
        let rest = rows().filter(|it| it.len() > 3 && is_looked_at(it)).filter_map(|it| reason(&it[0]));
        reason("F4").into_iter().chain(rest).collect()
    };
    let mut looked: Vec<Reason> = match step {
        Step::Command { command, .. } => of_command(command),
        _ => request(step).map(of_request).unwrap_or_default(),
    };
    if let Some(at) = looked.iter().position(|it| Some(*it) == held) {
        looked.truncate(at + 1);
    }
    looked
}

/// The section of the rules on such a step.
pub fn section(step: &Step<'_>) -> &'static str {
    let command = match step {
        Step::Command { command, .. } => command.code.name,
        Step::Read { .. } => return "Work items and reading",
        Step::ExitThread | Step::ExitProcess => return "Exits",
        _ => return "Requests and steps",
    };
    match command {
        "BC_TRANSACTION" | "BC_REPLY" => "Calls and replies",
        "BC_FREE_BUFFER" => "Buffers and windows",
        "BC_INCREFS" | "BC_ACQUIRE" | "BC_RELEASE" | "BC_DECREFS" => "References",
        "BC_INCREFS_DONE" | "BC_ACQUIRE_DONE" => "Notices to the owner",
        "BC_ENTER_LOOPER" | "BC_EXIT_LOOPER" => "Work items and reading",
        _ => "Death notifications",
    }
}

#[cfg(test)]
mod tests {
    use super::*;
    use crate::codes::{command, COMMANDS};

    fn told(step: &Step<'_>) -> String {
        looked(step, None).iter().map(|it| it.name()).collect::<Vec<_>>().join(" ")
    }

    /// A command of zeros, but for these bytes behind its code.
    fn of(name: &str, bytes: &[(usize, u8)]) -> String {
        let code = COMMANDS.iter().find(|it| it.name == name).expect(name);
        let mut spelled = code.number.to_le_bytes().to_vec();
        spelled.resize(4 + code.shape.size(), 0);
        bytes.iter().for_each(|(at, byte)| spelled[4 + at] = *byte);
        told(&Step::Command { command: command(&spelled).expect(name), bytes: &spelled, parcel: None })
    }

    /// The orders that docs/RULES.md gives, written from it.
    #[test]
    fn reasons_are_looked_at_in_the_order_of_the_rules() {
        assert_eq!(told(&Step::Open { pid: 1, euid: 1, window: 1 }), "F7 F8 F5 F6");
        assert_eq!(told(&Step::Attach { pid: 1 }), "F5 F9");
        assert_eq!(told(&Step::Manager), "F4 F10");
        assert_eq!(told(&Step::Read { limit: 1 }), "F4 F11 F12");
        assert_eq!([told(&Step::ExitThread), told(&Step::ExitProcess), told(&Step::Spam { on: true })], ["F4"; 3]);
        // A transaction's flags stand at 20, and 1 is one-way; its handle stands at 0.
        assert_eq!(of("BC_TRANSACTION", &[(20, 1)]), "F4 X2 X3 X4 X7 X8 X9 X10 X11 X12 X13 X14");
        assert_eq!(of("BC_TRANSACTION", &[]), "F4 X2 X3 X4 X5 X6 X7 X8 X9 X10 X11 X12 X13");
        assert_eq!(of("BC_TRANSACTION", &[(0, 7)]), "F4 X1 X4 X5 X6 X7 X8 X9 X10 X11 X12 X13");
        assert_eq!(of("BC_REPLY", &[]), "F4 X15 X16 X7 X8 X9 X10 X11 X12 X13");
        assert_eq!(of("BC_FREE_BUFFER", &[]), "F4 N5 N6");
        assert_eq!([of("BC_INCREFS", &[]), of("BC_INCREFS", &[(0, 1)])], ["F4 N1 N4", "F4 N1"]);
        assert_eq!([of("BC_ACQUIRE", &[]), of("BC_ACQUIRE", &[(0, 1)])], ["F4 N1 N3 N4", "F4 N1 N3"]);
        assert_eq!([of("BC_RELEASE", &[]), of("BC_DECREFS", &[])], ["F4 N1 N2"; 2]);
        assert_eq!([of("BC_INCREFS_DONE", &[]), of("BC_ACQUIRE_DONE", &[])], ["F4 N7 N8"; 2]);
        assert_eq!(of("BC_REQUEST_DEATH_NOTIFICATION", &[]), "F4 N1 N9");
        assert_eq!(of("BC_CLEAR_DEATH_NOTIFICATION", &[]), "F4 N1 N10");
        assert_eq!([of("BC_DEAD_BINDER_DONE", &[]), of("BC_ENTER_LOOPER", &[])], ["F4 N11", "F4"]);
    }

    #[test]
    fn no_more_is_looked_at_than_the_reason_that_held() {
        let held = reason("F11");
        let names: Vec<_> = looked(&Step::Read { limit: 1 }, held).iter().map(|it| it.name()).collect();
        assert_eq!(names, ["F4", "F11"]);
    }

    #[test]
    fn sections_are_those_of_the_document() {
        for name in
            ["Work items and reading", "Exits", "Requests and steps", "Calls and replies", "Buffers and windows"]
        {
            assert!(RULES.contains(&format!("\n## {name}\n")), "{name}");
        }
        for name in ["References", "Notices to the owner", "Death notifications", "Refusals"] {
            assert!(RULES.contains(&format!("\n## {name}\n")), "{name}");
        }
    }
}
