// SPDX-License-Identifier: Apache-2.0 OR MIT
//! Why something was refused, or changed nothing: the numbers of the header by their names.
use std::error::Error;
use std::fmt;

/// An enum of numbers from 1 on, each with a name and a text.
macro_rules! numbered {
    ($(#[$doc:meta])* $kind:ident, $letter:literal: $($number:literal $name:ident $text:literal,)*) => {
        $(#[$doc])*
        #[derive(Clone, Copy, Debug, PartialEq, Eq, Hash, PartialOrd, Ord)]
        pub enum $kind {
            $(
                #[doc = concat!($letter, $number, ": ", $text, ".")]
                $name = $number,
            )*
        }

        impl $kind {
            /// All that there are, in the order of their numbers.
            pub const ALL: &'static [$kind] = &[$($kind::$name),*];

            /// The number that the header and a journal have for it.
            pub fn number(self) -> u32 {
                self as u32
            }

            /// The one that has this number, if one has.
            pub fn from_number(number: u32) -> Option<$kind> {
                $kind::ALL.get((number as usize).checked_sub(1)?).copied()
            }

            /// The name that the player prints for it.
            pub fn name(self) -> &'static str {
                match self {
                    $($kind::$name => concat!($letter, $number),)*
                }
            }
        }

        impl fmt::Display for $kind {
            fn fmt(&self, f: &mut fmt::Formatter<'_>) -> fmt::Result {
                f.write_str(match self {
                    $($kind::$name => $text,)*
                })
            }
        }

        impl Error for $kind {}
    };
}

numbered! {
    /// Why a request was refused, or a stream of commands stopped before its end.
    ///
    /// ```
    /// use hullpippin::Fault;
    /// assert_eq!(Fault::from_number(12), Some(Fault::Again));
    /// assert_eq!(Fault::Again.name(), "F12");
    /// assert_eq!(Fault::Again.to_string(), "there is nothing to read");
    /// ```
    Fault, "F":
    1 ShortCommand "the command is cut short",
    2 UnknownCommand "no such command",
    3 RefusedCommand "the command is not supported",
    4 NoProcess "the seat has no process",
    5 HasProcess "the seat has a process",
    6 PidTaken "a live process has this pid",
    7 PidRange "the pid is out of range",
    8 WindowSize "the size of the window is out of range",
    9 NoSuchPid "no live process has this pid",
    10 ManagerBusy "there is a manager",
    11 ReadTooSmall "the limit of the read is too small",
    12 Again "there is nothing to read",
    13 HistoryFull "the history is full",
    14 NoMemory "out of memory",
    15 StreamTooLong "the stream is too long",
    16 SeatCount "the number of seats is out of range",
}

numbered! {
    /// Why a transaction or a reply was refused, which its sender reads as `BR_FAILED_REPLY` or `BR_DEAD_REPLY`.
    Cause, "X":
    1 NotStronglyNamed "the handle is not strongly named",
    2 NoManager "there is no manager",
    3 OwnManager "the manager calls itself",
    4 DeadOwner "the owner has ended",
    5 NotServing "the thread does not serve its innermost call",
    6 Unread "the thread has a call or a reply to read",
    7 OutsideArea "the parcel is outside the area",
    8 OffsetsSize "the offsets are no whole numbers",
    9 BadObject "an offset or an object is bad",
    10 UnsupportedObject "an object is not supported",
    11 OtherCookie "the cookie differs",
    12 NotHeld "a sent handle is not held",
    13 NoRoom "the window has no room",
    14 OverBudget "the one-way buffers take over half of the window",
    15 NoCall "there is no call to reply to",
    16 CallerGone "the caller has ended",
}

numbered! {
    /// Why a command changed nothing, though it was run.
    Note, "N":
    1 NoSuchNumber "no such handle",
    2 NothingAsked "nothing was asked for",
    3 NotStrong "there is no strong reference to share",
    4 OwnManager "the manager is the caller's own",
    5 NoSuchBuffer "no such buffer",
    6 NotHandedOut "the buffer is not yet handed out",
    7 NoSuchObject "no such object",
    8 NoHandshake "nothing is to be acknowledged",
    9 AlreadyAsked "a death notification stands already",
    10 NoneAsked "no death notification with that cookie",
    11 NoneTold "no death was told with that cookie",
}
