// SPDX-License-Identifier: Apache-2.0 OR MIT
//! Faults, causes and notes by their names and with their texts, as docs/FORMATS.md lists them.

/// The kinds of reasons: why a request was refused, why a transaction or reply was, and why another command changed nothing.
#[derive(Clone, Copy, Debug, PartialEq, Eq, Hash, PartialOrd, Ord)]
pub enum Kind {
    Fault,
    Cause,
    Note,
}

/// Why something was refused, or changed nothing.
#[derive(Clone, Copy, Debug, PartialEq, Eq, Hash, PartialOrd, Ord)]
pub struct Reason {
    pub kind: Kind,
    /// Which of its kind it is, from 1: the 6 of `X6`.
    pub number: u8,
}

static FAULTS: [(&str, &str); 16] = [
    ("ShortCommand", "the command is cut short"),
    ("UnknownCommand", "no such command"),
    ("RefusedCommand", "the command is not supported"),
    ("NoProcess", "the seat has no process"),
    ("HasProcess", "the seat has a process"),
    ("PidTaken", "a live process has this pid"),
    ("PidRange", "the pid is out of range"),
    ("WindowSize", "the size of the window is out of range"),
    ("NoSuchPid", "no live process has this pid"),
    ("ManagerBusy", "there is a manager"),
    ("ReadTooSmall", "the limit of the read is too small"),
    ("Again", "there is nothing to read"),
    ("HistoryFull", "the history is full"),
    ("NoMemory", "out of memory"),
    ("StreamTooLong", "the stream is too long"),
    ("SeatCount", "the number of seats is out of range"),
];

static CAUSES: [(&str, &str); 16] = [
    ("NotStronglyNamed", "the handle is not strongly named"),
    ("NoManager", "there is no manager"),
    ("OwnManager", "the manager calls itself"),
    ("DeadOwner", "the owner has ended"),
    ("NotServing", "the thread does not serve its innermost call"),
    ("Unread", "the thread has a call or a reply to read"),
    ("OutsideArea", "the parcel is outside the area"),
    ("OffsetsSize", "the offsets are no whole numbers"),
    ("BadObject", "an offset or an object is bad"),
    ("UnsupportedObject", "an object is not supported"),
    ("OtherCookie", "the cookie differs"),
    ("NotHeld", "a sent handle is not held"),
    ("NoRoom", "the window has no room"),
    ("OverBudget", "the one-way buffers take over half of the window"),
    ("NoCall", "there is no call to reply to"),
    ("CallerGone", "the caller has ended"),
];

static NOTES: [(&str, &str); 11] = [
    ("NoSuchNumber", "no such handle"),
    ("NothingAsked", "nothing was asked for"),
    ("NotStrong", "there is no strong reference to share"),
    ("OwnManager", "the manager is the caller's own"),
    ("NoSuchBuffer", "no such buffer"),
    ("NotHandedOut", "the buffer is not yet handed out"),
    ("NoSuchObject", "no such object"),
    ("NoHandshake", "nothing is to be acknowledged"),
    ("AlreadyAsked", "a death notification stands already"),
    ("NoneAsked", "no death notification with that cookie"),
    ("NoneTold", "no death was told with that cookie"),
];

impl Kind {
    pub const ALL: [Kind; 3] = [Kind::Fault, Kind::Cause, Kind::Note];

    pub fn letter(self) -> char {
        match self {
            Kind::Fault => 'F',
            Kind::Cause => 'X',
            Kind::Note => 'N',
        }
    }

    fn table(self) -> &'static [(&'static str, &'static str)] {
        match self {
            Kind::Fault => &FAULTS,
            Kind::Cause => &CAUSES,
            Kind::Note => &NOTES,
        }
    }

    /// How many reasons of this kind there are.
    pub fn count(self) -> u8 {
        self.table().len() as u8
    }
}

impl Reason {
    /// The reason of that kind and number, which has to be one.
    pub fn new(kind: Kind, number: u8) -> Option<Reason> {
        (1..=kind.count()).contains(&number).then_some(Reason { kind, number })
    }

    fn row(self) -> (&'static str, &'static str) {
        self.kind.table()[usize::from(self.number - 1)]
    }

    /// The short name, as `X6`.
    pub fn name(self) -> String {
        format!("{}{}", self.kind.letter(), self.number)
    }

    /// The name as a word, as `Unread`.
    pub fn word(self) -> &'static str {
        self.row().0
    }

    pub fn text(self) -> &'static str {
        self.row().1
    }

    /// All reasons of all kinds, by kind and number.
    pub fn all() -> impl Iterator<Item = Reason> {
        Kind::ALL.into_iter().flat_map(|kind| (1..=kind.count()).map(move |number| Reason { kind, number }))
    }

    /// Those that are called so: by `X6` or by `Unread`, in small or capital letters. Two have the word OwnManager.
    pub fn named(word: &str) -> Vec<Reason> {
        Reason::all()
            .filter(|it| it.name().eq_ignore_ascii_case(word) || it.word().eq_ignore_ascii_case(word))
            .collect()
    }
}

#[cfg(test)]
mod tests {
    use super::*;

    #[test]
    fn names_and_words_find_their_reasons() {
        let cause = |number| Reason { kind: Kind::Cause, number };
        assert_eq!(Reason::named("x6"), [cause(6)]);
        assert_eq!(Reason::named("BadObject"), [cause(9)]);
        let names: Vec<_> = Reason::named("OwnManager").into_iter().map(Reason::name).collect();
        assert_eq!(names, ["X3", "N4"]);
        assert_eq!(Reason::named("X17"), []);
    }

    #[test]
    fn numbers_are_from_1() {
        assert_eq!(Reason::new(Kind::Note, 0), None);
        assert_eq!(Reason::new(Kind::Note, 12), None);
        assert_eq!(Reason::new(Kind::Note, 11).map(Reason::word), Some("NoneTold"));
    }
}
