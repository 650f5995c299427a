// SPDX-License-Identifier: Apache-2.0 OR MIT
//! Returns, as a read has them. The library reads their bytes.
use crate::answers::fault;
use crate::{Fault, TransactionData};
use hullpippin_sys as sys;
use std::fmt;

/// A return. The numbers behind a name are, in their order, those of the record.
#[derive(Clone, Copy, Debug, PartialEq, Eq, Hash)]
pub enum Return {
    /// A call of an object of the process that reads.
    Transaction(TransactionData),
    /// The reply to the thread's own call.
    Reply(TransactionData),
    /// Whom the thread called, or replied to, has ended.
    DeadReply,
    /// What the thread wrote was accepted.
    TransactionComplete,
    /// Others have weak references to an object: ptr, cookie.
    Increfs(u64, u64),
    /// Others have strong references to an object: ptr, cookie.
    Acquire(u64, u64),
    /// Others have no strong reference to an object any more: ptr, cookie.
    Release(u64, u64),
    /// Others have no reference to an object any more: ptr, cookie.
    Decrefs(u64, u64),
    /// It says nothing; each read begins with one.
    Noop,
    /// The owner of a handle has ended: the cookie that was asked with.
    DeadBinder(u64),
    /// The death of a handle's owner is told no longer: the cookie that was asked with.
    ClearDeathNotificationDone(u64),
    /// What the thread wrote was refused.
    FailedReply,
    /// What the thread wrote was accepted, and its process floods the receiver.
    OnewaySpamSuspect,
}

impl Return {
    /// The return's name in the Linux header, as `BR_REPLY`.
    pub fn name(&self) -> &'static str {
        match self {
            Return::Transaction(_) => "BR_TRANSACTION",
            Return::Reply(_) => "BR_REPLY",
            Return::DeadReply => "BR_DEAD_REPLY",
            Return::TransactionComplete => "BR_TRANSACTION_COMPLETE",
            Return::Increfs(..) => "BR_INCREFS",
            Return::Acquire(..) => "BR_ACQUIRE",
            Return::Release(..) => "BR_RELEASE",
            Return::Decrefs(..) => "BR_DECREFS",
            Return::Noop => "BR_NOOP",
            Return::DeadBinder(_) => "BR_DEAD_BINDER",
            Return::ClearDeathNotificationDone(_) => "BR_CLEAR_DEATH_NOTIFICATION_DONE",
            Return::FailedReply => "BR_FAILED_REPLY",
            Return::OnewaySpamSuspect => "BR_ONEWAY_SPAM_SUSPECT",
        }
    }

    /// The return that bytes begin with, and how many bytes it has.
    pub fn from_bytes(bytes: &[u8]) -> Result<(Return, usize), Fault> {
        let mut told = sys::hullpippin_return::default();
        // SAFETY: a slice's pointer isn't null, and the bytes are so many.
        match unsafe { sys::hullpippin_next_return(bytes.as_ptr(), bytes.len(), &mut told) } {
            0 => Ok((Return::told(&told), told.size)),
            number => Err(fault(number)),
        }
    }

    /// The return that the library tells.
    fn told(told: &sys::hullpippin_return) -> Return {
        match told.code {
            sys::HULLPIPPIN_BR_TRANSACTION => Return::Transaction(TransactionData::told(&told.transaction)),
            sys::HULLPIPPIN_BR_REPLY => Return::Reply(TransactionData::told(&told.transaction)),
            sys::HULLPIPPIN_BR_DEAD_REPLY => Return::DeadReply,
            sys::HULLPIPPIN_BR_TRANSACTION_COMPLETE => Return::TransactionComplete,
            sys::HULLPIPPIN_BR_INCREFS => Return::Increfs(told.pointer, told.cookie),
            sys::HULLPIPPIN_BR_ACQUIRE => Return::Acquire(told.pointer, told.cookie),
            sys::HULLPIPPIN_BR_RELEASE => Return::Release(told.pointer, told.cookie),
            sys::HULLPIPPIN_BR_DECREFS => Return::Decrefs(told.pointer, told.cookie),
            sys::HULLPIPPIN_BR_NOOP => Return::Noop,
            sys::HULLPIPPIN_BR_DEAD_BINDER => Return::DeadBinder(told.cookie),
            sys::HULLPIPPIN_BR_CLEAR_DEATH_NOTIFICATION_DONE => Return::ClearDeathNotificationDone(told.cookie),
            sys::HULLPIPPIN_BR_FAILED_REPLY => Return::FailedReply,
            sys::HULLPIPPIN_BR_ONEWAY_SPAM_SUSPECT => Return::OnewaySpamSuspect,
            code => panic!("the library tells return {code:#x}"),
        }
    }
}

impl fmt::Display for Return {
    fn fmt(&self, f: &mut fmt::Formatter<'_>) -> fmt::Result {
        f.write_str(self.name())?;
        match *self {
            Return::Transaction(it) => write!(
                f,
                " code {} flags {:#x} of pid {} euid {} buffer {:#x}",
                it.code, it.flags, it.sender_pid, it.sender_euid, it.buffer
            ),
            Return::Reply(it) => write!(f, " code {} flags {:#x} buffer {:#x}", it.code, it.flags, it.buffer),
            Return::Increfs(ptr, cookie)
            | Return::Acquire(ptr, cookie)
            | Return::Release(ptr, cookie)
            | Return::Decrefs(ptr, cookie) => write!(f, " ptr {ptr:#x} cookie {cookie:#x}"),
            Return::DeadBinder(cookie) | Return::ClearDeathNotificationDone(cookie) => write!(f, " cookie {cookie:#x}"),
            _ => Ok(()),
        }
    }
}

/// The returns of a stream, one by one. Behind bytes that are none it ends.
///
/// ```
/// use hullpippin::{Return, Returns};
/// let stream = [0x06, 0x72, 0, 0, 0x11, 0x72, 0, 0];
/// let returns: Result<Vec<_>, _> = Returns::of(&stream).collect();
/// assert_eq!(returns, Ok(vec![Return::TransactionComplete, Return::FailedReply]));
/// ```
#[derive(Clone, Debug)]
pub struct Returns<'a> {
    rest: &'a [u8],
}

impl<'a> Returns<'a> {
    /// The returns of a stream, such as that of [`Answer::Got`](crate::Answer::Got).
    pub fn of(stream: &'a [u8]) -> Returns<'a> {
        Returns { rest: stream }
    }
}

impl Iterator for Returns<'_> {
    type Item = Result<Return, Fault>;

    fn next(&mut self) -> Option<Result<Return, Fault>> {
        if self.rest.is_empty() {
            return None;
        }
        let found = Return::from_bytes(self.rest);
        self.rest = match found {
            Ok((_, size)) => &self.rest[size..],
            Err(_) => &[],
        };
        Some(found.map(|(it, _)| it))
    }
}
