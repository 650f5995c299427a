// SPDX-License-Identifier: Apache-2.0 OR MIT
//! Commands, and the record of a transaction, with their bytes, which the library spells and reads.
use crate::answers::fault;
use crate::Fault;
use hullpippin_sys as sys;
use std::fmt;

/// `TF_ONE_WAY`, a flag of a transaction: nobody waits for a reply.
pub const ONE_WAY: u32 = sys::HULLPIPPIN_TF_ONE_WAY;
/// `TF_ROOT_OBJECT`, a flag that is handed on: the parcel is a root object.
pub const ROOT_OBJECT: u32 = sys::HULLPIPPIN_TF_ROOT_OBJECT;
/// `TF_STATUS_CODE`, a flag that is handed on: the data is a status.
pub const STATUS_CODE: u32 = sys::HULLPIPPIN_TF_STATUS_CODE;
/// `TF_ACCEPT_FDS`, a flag that is handed on: the reply may bring descriptors.
pub const ACCEPT_FDS: u32 = sys::HULLPIPPIN_TF_ACCEPT_FDS;
/// `TF_CLEAR_BUF`, a flag that is handed on: the receiver's driver clears the buffer at its end.
pub const CLEAR_BUF: u32 = sys::HULLPIPPIN_TF_CLEAR_BUF;
/// `TF_UPDATE_TXN`, a flag that is handed on: the call replaces an older one that nobody has read.
pub const UPDATE_TXN: u32 = sys::HULLPIPPIN_TF_UPDATE_TXN;

/// The record of a transaction or reply, 64 bytes (`struct binder_transaction_data`).
#[derive(Clone, Copy, Debug, Default, PartialEq, Eq, Hash)]
pub struct TransactionData {
    /// A handle in the low 32 bits, or, as it is read, the ptr of the receiver's object.
    pub target: u64,
    /// The cookie of the receiver's object, as it is read.
    pub cookie: u64,
    /// The number of the method that is called.
    pub code: u32,
    /// Flags, such as [`ONE_WAY`].
    pub flags: u32,
    /// The pid of the process that calls, as it is read; 0 of a one-way call and of a reply.
    pub sender_pid: i32,
    /// The effective user id of the process that sends, as it is read.
    pub sender_euid: u32,
    /// How many bytes of data the parcel has.
    pub data_size: u64,
    /// How many bytes of offsets the parcel has, 8 for each object.
    pub offsets_size: u64,
    /// Where the data lies: in the area of a write, or in the receiver's window.
    pub buffer: u64,
    /// Where the offsets lie, in the same area or window.
    pub offsets: u64,
}

impl TransactionData {
    /// How many bytes a record has.
    pub const SIZE: usize = 64;

    /// The record as the 64 bytes that the Linux header lays out.
    pub fn to_bytes(&self) -> [u8; TransactionData::SIZE] {
        let mut bytes = [0; TransactionData::SIZE];
        bytes.copy_from_slice(&Command::Transaction(*self).to_bytes()[4..]);
        bytes
    }

    /// The record that bytes begin with, where there are enough of them.
    pub fn from_bytes(bytes: &[u8]) -> Option<TransactionData> {
        let mut command = Command::Transaction(TransactionData::default()).to_bytes();
        command[4..].copy_from_slice(bytes.get(..TransactionData::SIZE)?);
        match Command::from_bytes(&command) {
            Ok((Command::Transaction(record), _)) => Some(record),
            _ => None,
        }
    }

    /// The record in the form in which the library takes it.
    pub(crate) fn given(&self) -> sys::hullpippin_transaction {
        sys::hullpippin_transaction {
            target: self.target,
            cookie: self.cookie,
            code: self.code,
            flags: self.flags,
            sender_pid: self.sender_pid,
            sender_euid: self.sender_euid,
            data_size: self.data_size,
            offsets_size: self.offsets_size,
            buffer: self.buffer,
            offsets: self.offsets,
        }
    }

    /// The record that the library tells.
    pub(crate) fn told(told: &sys::hullpippin_transaction) -> TransactionData {
        TransactionData {
            target: told.target,
            cookie: told.cookie,
            code: told.code,
            flags: told.flags,
            sender_pid: told.sender_pid,
            sender_euid: told.sender_euid,
            data_size: told.data_size,
            offsets_size: told.offsets_size,
            buffer: told.buffer,
            offsets: told.offsets,
        }
    }
}

/// A command of the stream that a write runs. The numbers behind a name are, in their order, those of the record.
///
/// ```
/// use hullpippin::Command;
/// let command = Command::FreeBuffer(0x10000);
/// assert_eq!(command.to_bytes(), [0x03, 0x63, 0x08, 0x40, 0, 0, 1, 0, 0, 0, 0, 0]);
/// assert_eq!(Command::from_bytes(&command.to_bytes()), Ok((command, 12)));
/// assert_eq!(command.to_string(), "BC_FREE_BUFFER 0x10000");
/// ```
#[derive(Clone, Copy, Debug, PartialEq, Eq, Hash)]
pub enum Command {
    /// Calls what the process has under a handle.
    Transaction(TransactionData),
    /// Replies to the call that the thread serves.
    Reply(TransactionData),
    /// Gives the buffer at a pointer back.
    FreeBuffer(u64),
    /// Takes a weak reference of a handle.
    Increfs(u32),
    /// Takes a strong reference of a handle.
    Acquire(u32),
    /// Lets go of a strong reference of a handle.
    Release(u32),
    /// Lets go of a weak reference of a handle.
    Decrefs(u32),
    /// Acknowledges `BR_INCREFS`: ptr, cookie.
    IncrefsDone(u64, u64),
    /// Acknowledges `BR_ACQUIRE`: ptr, cookie.
    AcquireDone(u64, u64),
    /// The thread is in the loop from now on.
    EnterLooper,
    /// The thread has left the loop.
    ExitLooper,
    /// Asks to be told of the death of a handle's owner: handle, cookie.
    RequestDeathNotification(u32, u64),
    /// Asks to be told of that death no longer: handle, cookie.
    ClearDeathNotification(u32, u64),
    /// Acknowledges `BR_DEAD_BINDER`: cookie.
    DeadBinderDone(u64),
}

impl Command {
    /// The command's name in the Linux header, as `BC_REPLY`.
    pub fn name(&self) -> &'static str {
        match self {
            Command::Transaction(_) => "BC_TRANSACTION",
            Command::Reply(_) => "BC_REPLY",
            Command::FreeBuffer(_) => "BC_FREE_BUFFER",
            Command::Increfs(_) => "BC_INCREFS",
            Command::Acquire(_) => "BC_ACQUIRE",
            Command::Release(_) => "BC_RELEASE",
            Command::Decrefs(_) => "BC_DECREFS",
            Command::IncrefsDone(..) => "BC_INCREFS_DONE",
            Command::AcquireDone(..) => "BC_ACQUIRE_DONE",
            Command::EnterLooper => "BC_ENTER_LOOPER",
            Command::ExitLooper => "BC_EXIT_LOOPER",
            Command::RequestDeathNotification(..) => "BC_REQUEST_DEATH_NOTIFICATION",
            Command::ClearDeathNotification(..) => "BC_CLEAR_DEATH_NOTIFICATION",
            Command::DeadBinderDone(_) => "BC_DEAD_BINDER_DONE",
        }
    }

    /// The number that the Linux header gives the command, with which its bytes begin.
    pub fn code(&self) -> u32 {
        match self {
            Command::Transaction(_) => sys::HULLPIPPIN_BC_TRANSACTION,
            Command::Reply(_) => sys::HULLPIPPIN_BC_REPLY,
            Command::FreeBuffer(_) => sys::HULLPIPPIN_BC_FREE_BUFFER,
            Command::Increfs(_) => sys::HULLPIPPIN_BC_INCREFS,
            Command::Acquire(_) => sys::HULLPIPPIN_BC_ACQUIRE,
            Command::Release(_) => sys::HULLPIPPIN_BC_RELEASE,
            Command::Decrefs(_) => sys::HULLPIPPIN_BC_DECREFS,
            Command::IncrefsDone(..) => sys::HULLPIPPIN_BC_INCREFS_DONE,
            Command::AcquireDone(..) => sys::HULLPIPPIN_BC_ACQUIRE_DONE,
            Command::EnterLooper => sys::HULLPIPPIN_BC_ENTER_LOOPER,
            Command::ExitLooper => sys::HULLPIPPIN_BC_EXIT_LOOPER,
            Command::RequestDeathNotification(..) => sys::HULLPIPPIN_BC_REQUEST_DEATH_NOTIFICATION,
            Command::ClearDeathNotification(..) => sys::HULLPIPPIN_BC_CLEAR_DEATH_NOTIFICATION,
            Command::DeadBinderDone(_) => sys::HULLPIPPIN_BC_DEAD_BINDER_DONE,
        }
    }

    /// How many bytes the longest command has: a code and a record.
    const LONGEST: usize = 4 + TransactionData::SIZE;

    /// The command in the form in which the library takes it.
    fn given(&self) -> sys::hullpippin_command {
        let of = sys::hullpippin_command { code: self.code(), ..Default::default() };
        match *self {
            Command::Transaction(record) | Command::Reply(record) => {
                sys::hullpippin_command { transaction: record.given(), ..of }
            }
            Command::FreeBuffer(pointer) => sys::hullpippin_command { pointer, ..of },
            Command::Increfs(handle)
            | Command::Acquire(handle)
            | Command::Release(handle)
            | Command::Decrefs(handle) => sys::hullpippin_command { handle, ..of },
            Command::IncrefsDone(pointer, cookie) | Command::AcquireDone(pointer, cookie) => {
                sys::hullpippin_command { pointer, cookie, ..of }
            }
            Command::EnterLooper | Command::ExitLooper => of,
            Command::RequestDeathNotification(handle, cookie) | Command::ClearDeathNotification(handle, cookie) => {
                sys::hullpippin_command { handle, cookie, ..of }
            }
            Command::DeadBinderDone(cookie) => sys::hullpippin_command { cookie, ..of },
        }
    }

    /// The command that the library tells.
    fn told(told: &sys::hullpippin_command) -> Command {
        match told.code {
            sys::HULLPIPPIN_BC_TRANSACTION => Command::Transaction(TransactionData::told(&told.transaction)),
            sys::HULLPIPPIN_BC_REPLY => Command::Reply(TransactionData::told(&told.transaction)),
            sys::HULLPIPPIN_BC_FREE_BUFFER => Command::FreeBuffer(told.pointer),
            sys::HULLPIPPIN_BC_INCREFS => Command::Increfs(told.handle),
            sys::HULLPIPPIN_BC_ACQUIRE => Command::Acquire(told.handle),
            sys::HULLPIPPIN_BC_RELEASE => Command::Release(told.handle),
            sys::HULLPIPPIN_BC_DECREFS => Command::Decrefs(told.handle),
            sys::HULLPIPPIN_BC_INCREFS_DONE => Command::IncrefsDone(told.pointer, told.cookie),
            sys::HULLPIPPIN_BC_ACQUIRE_DONE => Command::AcquireDone(told.pointer, told.cookie),
            sys::HULLPIPPIN_BC_ENTER_LOOPER => Command::EnterLooper,
            sys::HULLPIPPIN_BC_EXIT_LOOPER => Command::ExitLooper,
            sys::HULLPIPPIN_BC_REQUEST_DEATH_NOTIFICATION => {
                Command::RequestDeathNotification(told.handle, told.cookie)
            }
            sys::HULLPIPPIN_BC_CLEAR_DEATH_NOTIFICATION => Command::ClearDeathNotification(told.handle, told.cookie),
            sys::HULLPIPPIN_BC_DEAD_BINDER_DONE => Command::DeadBinderDone(told.cookie),
            code => panic!("the library tells command {code:#x}"),
        }
    }

    /// The command that bytes begin with, and how many bytes it has.
    pub fn from_bytes(bytes: &[u8]) -> Result<(Command, usize), Fault> {
        let mut told = sys::hullpippin_command::default();
        // SAFETY: a slice's pointer isn't null, and the bytes are so many.
        match unsafe { sys::hullpippin_next_command(bytes.as_ptr(), bytes.len(), &mut told) } {
            0 => Ok((Command::told(&told), told.size)),
            number => Err(fault(number)),
        }
    }

    /// Appends the command's bytes to a stream.
    pub fn spell(&self, stream: &mut Vec<u8>) {
        let mut bytes = [0; Command::LONGEST];
        // SAFETY: there is room for so many bytes.
        let size = unsafe { sys::hullpippin_spell_command(&self.given(), bytes.as_mut_ptr(), bytes.len()) };
        stream.extend(&bytes[..size]);
    }

    /// The command's bytes: its code, and what belongs to it.
    pub fn to_bytes(&self) -> Vec<u8> {
        let mut stream = Vec::with_capacity(Command::LONGEST);
        self.spell(&mut stream);
        stream
    }
}

impl fmt::Display for Command {
    fn fmt(&self, f: &mut fmt::Formatter<'_>) -> fmt::Result {
        f.write_str(self.name())?;
        match *self {
            Command::Transaction(it) => write!(f, " handle {} code {} flags {:#x}", it.target, it.code, it.flags),
            Command::Reply(it) => write!(f, " code {} flags {:#x}", it.code, it.flags),
            Command::FreeBuffer(pointer) => write!(f, " {pointer:#x}"),
            Command::Increfs(handle)
            | Command::Acquire(handle)
            | Command::Release(handle)
            | Command::Decrefs(handle) => {
                write!(f, " handle {handle}")
            }
            Command::IncrefsDone(ptr, cookie) | Command::AcquireDone(ptr, cookie) => {
                write!(f, " ptr {ptr:#x} cookie {cookie:#x}")
            }
            Command::EnterLooper | Command::ExitLooper => Ok(()),
            Command::RequestDeathNotification(handle, cookie) | Command::ClearDeathNotification(handle, cookie) => {
                write!(f, " handle {handle} cookie {cookie:#x}")
            }
            Command::DeadBinderDone(cookie) => write!(f, " cookie {cookie:#x}"),
        }
    }
}
