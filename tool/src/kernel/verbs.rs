// SPDX-License-Identifier: Apache-2.0 OR MIT
//! The names of commands and returns as Linux has them, some more than the engine takes: the low byte of a code is the number.

/// Those of a process, from 0 on.
pub const COMMANDS: [&str; 22] = [
    "BC_TRANSACTION",
    "BC_REPLY",
    "BC_ACQUIRE_RESULT",
    "BC_FREE_BUFFER",
    "BC_INCREFS",
    "BC_ACQUIRE",
    "BC_RELEASE",
    "BC_DECREFS",
    "BC_INCREFS_DONE",
    "BC_ACQUIRE_DONE",
    "BC_ATTEMPT_ACQUIRE",
    "BC_REGISTER_LOOPER",
    "BC_ENTER_LOOPER",
    "BC_EXIT_LOOPER",
    "BC_REQUEST_DEATH_NOTIFICATION",
    "BC_CLEAR_DEATH_NOTIFICATION",
    "BC_DEAD_BINDER_DONE",
    "BC_TRANSACTION_SG",
    "BC_REPLY_SG",
    "BC_REQUEST_FREEZE_NOTIFICATION",
    "BC_CLEAR_FREEZE_NOTIFICATION",
    "BC_FREEZE_NOTIFICATION_DONE",
];

/// Those of the driver, from 0 on.
pub const RETURNS: [&str; 23] = [
    "BR_ERROR",
    "BR_OK",
    "BR_TRANSACTION",
    "BR_REPLY",
    "BR_ACQUIRE_RESULT",
    "BR_DEAD_REPLY",
    "BR_TRANSACTION_COMPLETE",
    "BR_INCREFS",
    "BR_ACQUIRE",
    "BR_RELEASE",
    "BR_DECREFS",
    "BR_ATTEMPT_ACQUIRE",
    "BR_NOOP",
    "BR_SPAWN_LOOPER",
    "BR_FINISHED",
    "BR_DEAD_BINDER",
    "BR_CLEAR_DEATH_NOTIFICATION_DONE",
    "BR_FAILED_REPLY",
    "BR_FROZEN_REPLY",
    "BR_ONEWAY_SPAM_SUSPECT",
    "BR_TRANSACTION_PENDING_FROZEN",
    "BR_FROZEN_BINDER",
    "BR_CLEAR_FREEZE_NOTIFICATION_DONE",
];

/// The byte between size and number that says whose a code is.
const OF_PROCESS: u32 = b'c' as u32;
const OF_DRIVER: u32 = b'r' as u32;

fn named(code: u32, kind: u32, names: &'static [&'static str]) -> Option<&'static str> {
    (code >> 8 & 0xff == kind).then(|| names.get((code & 0xff) as usize).copied()).flatten()
}

/// What a command is called; None where this is none that is known.
pub fn command(code: u32) -> Option<&'static str> {
    named(code, OF_PROCESS, &COMMANDS)
}

pub fn returned(code: u32) -> Option<&'static str> {
    named(code, OF_DRIVER, &RETURNS)
}

#[cfg(test)]
mod tests {
    use super::*;
    use crate::codes;

    #[test]
    fn names_are_those_of_the_codes() {
        codes::COMMANDS.iter().for_each(|it| assert_eq!(command(it.number), Some(it.name)));
        codes::RETURNS.iter().for_each(|it| assert_eq!(returned(it.number), Some(it.name)));
        assert_eq!([command(0x7206), returned(0x6300), command(0x63ff)], [None; 3]);
    }

    /// Where the machine has Linux's own header, the order of its enumerations is this one.
    #[test]
    fn names_are_those_of_linux() {
        let header = match std::fs::read_to_string("/usr/include/linux/android/binder.h") {
            Ok(header) => header,
            Err(_) => return,
        };
        let mut seen = 0;
        for line in header.lines().filter(|it| it.contains("= _IO")) {
            let name = line.split_whitespace().next().unwrap_or("");
            let number = line.split(['\'', ',', ')']).filter_map(|it| it.trim().parse::<usize>().ok()).next();
            let ours = if name.starts_with("BC_") { &COMMANDS[..] } else { &RETURNS[..] };
            if let (Some(number), true) = (number, name.starts_with("BC_") || name.starts_with("BR_")) {
                let name = name.replace("_SEC_CTX", "");
                assert_eq!(ours[number], name);
                seen += 1;
            }
        }
        assert!(seen > 30, "{seen}");
    }
}
