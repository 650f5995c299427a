// SPDX-License-Identifier: Apache-2.0 OR MIT
//! The declarations of `hullpippin.h`: the transaction engine of Android's Binder driver, as its C library gives it.
//!
//! All is as the header says, which also tells what the library relies on: handles that aren't copied, one call at a time
//! with a handle, memory that doesn't overlap. The crate `hullpippin` keeps that by its types; most programs want that one.
//!
//! The build links `libhullpippin.a`. It is looked for where the variable `HULLPIPPIN_LIB` says, which names the archive or
//! its folder, and else asked of pkg-config.
// (tools/bindings of the repository writes this file.)
#![no_std]
#![allow(non_camel_case_types)]

/// A driver, or the history of one that has ended.
#[repr(C)]
#[derive(Debug)]
pub struct hullpippin_driver {
    /// What the library keeps.
    pub at: *mut core::ffi::c_void,
}

impl hullpippin_driver {
    /// A handle that has nothing.
    pub const NONE: hullpippin_driver = hullpippin_driver { at: core::ptr::null_mut() };
}

/// A seat of a driver.
#[repr(C)]
#[derive(Debug)]
pub struct hullpippin_seat {
    /// What the library keeps.
    pub at: *mut core::ffi::c_void,
}

impl hullpippin_seat {
    /// A handle that has nothing.
    pub const NONE: hullpippin_seat = hullpippin_seat { at: core::ptr::null_mut() };
}

/// An engine that keeps no history.
#[repr(C)]
#[derive(Debug)]
pub struct hullpippin_live {
    /// What the library keeps.
    pub at: *mut core::ffi::c_void,
}

impl hullpippin_live {
    /// A handle that has nothing.
    pub const NONE: hullpippin_live = hullpippin_live { at: core::ptr::null_mut() };
}

/// Descriptors that are on their way beside an engine.
#[repr(C)]
#[derive(Debug)]
pub struct hullpippin_tickets {
    /// What the library keeps.
    pub at: *mut core::ffi::c_void,
}

impl hullpippin_tickets {
    /// A handle that has nothing.
    pub const NONE: hullpippin_tickets = hullpippin_tickets { at: core::ptr::null_mut() };
}

/// Rings beside an engine, which say whose turn it is.
#[repr(C)]
#[derive(Debug)]
pub struct hullpippin_rings {
    /// What the library keeps.
    pub at: *mut core::ffi::c_void,
}

impl hullpippin_rings {
    /// A handle that has nothing.
    pub const NONE: hullpippin_rings = hullpippin_rings { at: core::ptr::null_mut() };
}

/// What the threads of a process have sent, which says whom of it is told of that.
#[repr(C)]
#[derive(Debug)]
pub struct hullpippin_sendings {
    /// What the library keeps.
    pub at: *mut core::ffi::c_void,
}

impl hullpippin_sendings {
    /// A handle that has nothing.
    pub const NONE: hullpippin_sendings = hullpippin_sendings { at: core::ptr::null_mut() };
}

/// It was made.
pub const HULLPIPPIN_DONE: u32 = 0;

/// Malloc gave none for the call's own copies; it may be made again.
pub const HULLPIPPIN_NO_MEMORY: u32 = 1;

/// A request of this seat is handed over: collect or withdraw it first; live_open, live_attach: the seat waits
/// (hullpippin_bridge_wait); tickets_put: a parcel of that step is on its way.
pub const HULLPIPPIN_WAITING: u32 = 2;

/// No request of this seat is handed over.
pub const HULLPIPPIN_NOT_WAITING: u32 = 3;

/// Serve: another seat has the engine.
pub const HULLPIPPIN_TAKEN: u32 = 4;

/// Post: there is no such kind of request; post, set_spam, live_set_spam: `on` is neither 0 nor 1; bridge_wait: nor is
/// `defers` one of its numbers; again: none came back.
pub const HULLPIPPIN_NO_SUCH_REQUEST: u32 = 5;

/// New: the number of seats isn't 1 to 31; live_new: 1 to 65536.
pub const HULLPIPPIN_SEAT_COUNT: u32 = 6;

/// Take_seat: all seats are taken.
pub const HULLPIPPIN_NO_SEAT_LEFT: u32 = 7;

/// Finish: a seat isn't back.
pub const HULLPIPPIN_SEATS_AWAY: u32 = 8;

/// Verdict, chain, call_of_reply, turns: the bytes are no journal; journal, live_entry: no journal spells it.
pub const HULLPIPPIN_NO_JOURNAL: u32 = 9;

/// Live: the engine has no seat of that number.
pub const HULLPIPPIN_NO_SUCH_SEAT: u32 = 10;

/// Live: the history can take no more (F13).
pub const HULLPIPPIN_HISTORY_FULL: u32 = 11;

/// Live_command: the bytes aren't exactly one command.
pub const HULLPIPPIN_NO_COMMAND: u32 = 12;

/// A handle isn't what the call is for: it is empty, or isn't where it has to be, or its driver has ended, or hasn't,
/// or is another one.
pub const HULLPIPPIN_MISUSE: u32 = 13;

/// Chain, call_of_reply, turns: the journal's entries aren't a history.
pub const HULLPIPPIN_UNLAWFUL: u32 = 14;

/// Collect, withdraw: it is still handed over.
pub const HULLPIPPIN_HANDED: u32 = 0;

/// Open, attach: the seat has a thread of the process.
pub const HULLPIPPIN_OPENED: u32 = 1;

/// Manager, set_spam: that is so from now on.
pub const HULLPIPPIN_SET: u32 = 2;

/// Exit_thread, exit_process: the thread or the process has ended.
pub const HULLPIPPIN_EXITED: u32 = 3;

/// Write: commands were run.
pub const HULLPIPPIN_WROTE: u32 = 4;

/// Read: there are bytes to be fetched.
pub const HULLPIPPIN_GOT: u32 = 5;

/// It was refused, and changed nothing: `number` is its fault, F1 to F16.
pub const HULLPIPPIN_REFUSED: u32 = 6;

/// It wasn't run: `why`.
pub const HULLPIPPIN_BACK: u32 = 7;

/// It didn't.
pub const HULLPIPPIN_AT_END: u32 = 0;

/// The next command can't be read or run: `number` is the fault, F1 to F16.
pub const HULLPIPPIN_AT_FAULT: u32 = 1;

/// The last command that was run was refused: `number` is the cause, X1 to X16.
pub const HULLPIPPIN_AT_CAUSE: u32 = 2;

/// Another seat has the engine: hullpippin_again, or post.
pub const HULLPIPPIN_BACK_TAKEN: u32 = 1;

/// The engine found no memory.
pub const HULLPIPPIN_BACK_NO_MEMORY: u32 = 2;

/// The history can take no more.
pub const HULLPIPPIN_BACK_HISTORY_FULL: u32 = 3;

/// Withdraw: nobody had picked it.
pub const HULLPIPPIN_BACK_WITHDRAWN: u32 = 4;

/// The returns.
pub const HULLPIPPIN_STREAM: u32 = 0;

/// The data of the transaction or reply among them.
pub const HULLPIPPIN_DATA: u32 = 1;

/// The offsets of its objects.
pub const HULLPIPPIN_OFFSETS: u32 = 2;

/// Kinds of requests to post.
pub const HULLPIPPIN_OPEN: u32 = 1;

/// Kinds of requests to post.
pub const HULLPIPPIN_ATTACH: u32 = 2;

/// Kinds of requests to post.
pub const HULLPIPPIN_MANAGER: u32 = 3;

/// Kinds of requests to post.
pub const HULLPIPPIN_WRITE: u32 = 4;

/// Kinds of requests to post.
pub const HULLPIPPIN_READ: u32 = 5;

/// Kinds of requests to post.
pub const HULLPIPPIN_EXIT_THREAD: u32 = 6;

/// Kinds of requests to post.
pub const HULLPIPPIN_EXIT_PROCESS: u32 = 7;

/// Kinds of requests to post.
pub const HULLPIPPIN_SET_SPAM: u32 = 8;

/// F1: the command is cut short.
pub const HULLPIPPIN_FAULT_SHORT_COMMAND: u32 = 1;

/// F2: no such command.
pub const HULLPIPPIN_FAULT_UNKNOWN_COMMAND: u32 = 2;

/// F3: the command is not supported.
pub const HULLPIPPIN_FAULT_REFUSED_COMMAND: u32 = 3;

/// F4: the seat has no process.
pub const HULLPIPPIN_FAULT_NO_PROCESS: u32 = 4;

/// F5: the seat has a process.
pub const HULLPIPPIN_FAULT_HAS_PROCESS: u32 = 5;

/// F6: a live process has this pid.
pub const HULLPIPPIN_FAULT_PID_TAKEN: u32 = 6;

/// F7: the pid is out of range.
pub const HULLPIPPIN_FAULT_PID_RANGE: u32 = 7;

/// F8: the size of the window is out of range.
pub const HULLPIPPIN_FAULT_WINDOW_SIZE: u32 = 8;

/// F9: no live process has this pid.
pub const HULLPIPPIN_FAULT_NO_SUCH_PID: u32 = 9;

/// F10: there is a manager.
pub const HULLPIPPIN_FAULT_MANAGER_BUSY: u32 = 10;

/// F11: the limit of the read is too small.
pub const HULLPIPPIN_FAULT_READ_TOO_SMALL: u32 = 11;

/// F12: there is nothing to read.
pub const HULLPIPPIN_FAULT_AGAIN: u32 = 12;

/// F13: the history is full.
pub const HULLPIPPIN_FAULT_HISTORY_FULL: u32 = 13;

/// F14: out of memory.
pub const HULLPIPPIN_FAULT_NO_MEMORY: u32 = 14;

/// F15: the stream is too long.
pub const HULLPIPPIN_FAULT_STREAM_TOO_LONG: u32 = 15;

/// F16: the number of seats is out of range.
pub const HULLPIPPIN_FAULT_SEAT_COUNT: u32 = 16;

/// X1: the handle is not strongly named.
pub const HULLPIPPIN_CAUSE_NOT_STRONGLY_NAMED: u32 = 1;

/// X2: there is no manager.
pub const HULLPIPPIN_CAUSE_NO_MANAGER: u32 = 2;

/// X3: the manager calls itself.
pub const HULLPIPPIN_CAUSE_OWN_MANAGER: u32 = 3;

/// X4: the owner has ended.
pub const HULLPIPPIN_CAUSE_DEAD_OWNER: u32 = 4;

/// X5: the thread does not serve its innermost call.
pub const HULLPIPPIN_CAUSE_NOT_SERVING: u32 = 5;

/// X6: the thread has a call or a reply to read.
pub const HULLPIPPIN_CAUSE_UNREAD: u32 = 6;

/// X7: the parcel is outside the area.
pub const HULLPIPPIN_CAUSE_OUTSIDE_AREA: u32 = 7;

/// X8: the offsets are no whole numbers.
pub const HULLPIPPIN_CAUSE_OFFSETS_SIZE: u32 = 8;

/// X9: an offset or an object is bad.
pub const HULLPIPPIN_CAUSE_BAD_OBJECT: u32 = 9;

/// X10: an object is not supported.
pub const HULLPIPPIN_CAUSE_UNSUPPORTED_OBJECT: u32 = 10;

/// X11: the cookie differs.
pub const HULLPIPPIN_CAUSE_OTHER_COOKIE: u32 = 11;

/// X12: a sent handle is not held.
pub const HULLPIPPIN_CAUSE_NOT_HELD: u32 = 12;

/// X13: the window has no room.
pub const HULLPIPPIN_CAUSE_NO_ROOM: u32 = 13;

/// X14: the one-way buffers take over half of the window.
pub const HULLPIPPIN_CAUSE_OVER_BUDGET: u32 = 14;

/// X15: there is no call to reply to.
pub const HULLPIPPIN_CAUSE_NO_CALL: u32 = 15;

/// X16: the caller has ended.
pub const HULLPIPPIN_CAUSE_CALLER_GONE: u32 = 16;

/// N1: no such handle.
pub const HULLPIPPIN_NOTE_NO_SUCH_NUMBER: u32 = 1;

/// N2: nothing was asked for.
pub const HULLPIPPIN_NOTE_NOTHING_ASKED: u32 = 2;

/// N3: there is no strong reference to share.
pub const HULLPIPPIN_NOTE_NOT_STRONG: u32 = 3;

/// N4: the manager is the caller's own.
pub const HULLPIPPIN_NOTE_OWN_MANAGER: u32 = 4;

/// N5: no such buffer.
pub const HULLPIPPIN_NOTE_NO_SUCH_BUFFER: u32 = 5;

/// N6: the buffer is not yet handed out.
pub const HULLPIPPIN_NOTE_NOT_HANDED_OUT: u32 = 6;

/// N7: no such object.
pub const HULLPIPPIN_NOTE_NO_SUCH_OBJECT: u32 = 7;

/// N8: nothing is to be acknowledged.
pub const HULLPIPPIN_NOTE_NO_HANDSHAKE: u32 = 8;

/// N9: a death notification stands already.
pub const HULLPIPPIN_NOTE_ALREADY_ASKED: u32 = 9;

/// N10: no death notification with that cookie.
pub const HULLPIPPIN_NOTE_NONE_ASKED: u32 = 10;

/// N11: no death was told with that cookie.
pub const HULLPIPPIN_NOTE_NONE_TOLD: u32 = 11;

/// HULLPIPPIN_DONE .. HULLPIPPIN_UNLAWFUL.
pub const HULLPIPPIN_TEXT_STATUS: u32 = 1;

/// HULLPIPPIN_FAULT_SHORT_COMMAND ..
pub const HULLPIPPIN_TEXT_FAULT: u32 = 2;

/// HULLPIPPIN_CAUSE_NOT_STRONGLY_NAMED ..
pub const HULLPIPPIN_TEXT_CAUSE: u32 = 3;

/// HULLPIPPIN_NOTE_NO_SUCH_NUMBER ..
pub const HULLPIPPIN_TEXT_NOTE: u32 = 4;

/// The code of a command, whose text is its name, as BC_TRANSACTION.
pub const HULLPIPPIN_TEXT_COMMAND: u32 = 5;

/// The code of a return, whose text is its name, as BR_TRANSACTION.
pub const HULLPIPPIN_TEXT_RETURN: u32 = 6;

/// What a request came to. What a field doesn't apply to has 0 there.
#[repr(C)]
#[derive(Clone, Copy, Debug, Default, PartialEq, Eq)]
pub struct hullpippin_answer {
    /// HULLPIPPIN_HANDED .. HULLPIPPIN_BACK.
    pub kind: u32,
    /// The place of its first step in the history; a driver's are below 4294967295.
    pub from: u64,
    /// The place behind its last.
    pub to: u64,
    /// Wrote: write_consumed, how many bytes of the stream were run.
    pub consumed: u32,
    /// Wrote: how many of the commands changed nothing, each with a note.
    pub notes: usize,
    /// Wrote: HULLPIPPIN_AT_END .. HULLPIPPIN_AT_CAUSE.
    pub stop: u32,
    /// Wrote, refused: HULLPIPPIN_FAULT_.. or HULLPIPPIN_CAUSE_..; live_command: also HULLPIPPIN_NOTE_..
    pub number: u32,
    /// Back: HULLPIPPIN_BACK_TAKEN ..
    pub why: u32,
    /// Got: how many bytes of returns.
    pub stream: usize,
    /// Got: how many bytes of data.
    pub data: usize,
    /// Got: how many bytes of offsets, 8 for each object.
    pub offsets: usize,
}

/// A command of a write that changed nothing.
#[repr(C)]
#[derive(Clone, Copy, Debug, Default, PartialEq, Eq)]
pub struct hullpippin_note {
    /// Which command of the stream, from 0.
    pub command: u32,
    /// Why: HULLPIPPIN_NOTE_..
    pub number: u32,
}

/// The page: how far the driver is.
#[repr(C)]
#[derive(Clone, Copy, Debug, Default, PartialEq, Eq)]
pub struct hullpippin_page {
    /// How many steps the history has.
    pub stamp: u32,
    /// Bit i: seat i has something to read.
    pub ready: u32,
    /// A seat has the engine.
    pub taken: bool,
}

/// A request to post. The library ignores a field that its kind has no use for.
#[repr(C)]
#[derive(Clone, Copy, Debug, Default, PartialEq, Eq)]
pub struct hullpippin_request {
    /// HULLPIPPIN_OPEN .. HULLPIPPIN_SET_SPAM.
    pub kind: u32,
    /// Open, attach.
    pub pid: u32,
    /// Open.
    pub euid: u32,
    /// Open.
    pub window: u32,
    /// Read.
    pub limit: u32,
    /// Set_spam: 1, or 0 for no longer.
    pub on: u32,
}

/// The verdict on a journal.
#[repr(C)]
#[derive(Clone, Copy, Debug, Default, PartialEq, Eq)]
pub struct hullpippin_verdict_on {
    /// Whether each of its entries follows from those before: up to 4294967295 of them are a history then.
    pub lawful: bool,
    /// How many do, from the first on: all of them where it is lawful.
    pub entries: usize,
}

/// No place of a step: none has so many before it.
pub const HULLPIPPIN_NO_PLACE: u32 = 0xffffffff;

/// A one-way call on an object, by places of steps.
#[repr(C)]
#[derive(Clone, Copy, Debug, Default, PartialEq, Eq)]
pub struct hullpippin_turn {
    /// Its BC_TRANSACTION.
    pub made: u32,
    /// The read that got its BR_TRANSACTION, or HULLPIPPIN_NO_PLACE.
    pub handed: u32,
    /// The step with which its buffer ended, or HULLPIPPIN_NO_PLACE.
    pub ended: u32,
}

/// A list of what is to be read: that of a thread, which it alone reads, or that of a process.
#[repr(C)]
#[derive(Clone, Copy, Debug, Default, PartialEq, Eq)]
pub struct hullpippin_todo_list {
    /// HULLPIPPIN_LIST_OF_THREAD ..
    pub kind: u32,
    /// Of a thread: its seat; of a process: the place of its open; any list: 0.
    pub number: u64,
}

/// That of a seat's thread.
pub const HULLPIPPIN_LIST_OF_THREAD: u32 = 0;

/// That of a process, which any of its threads reads that is in the loop.
pub const HULLPIPPIN_LIST_OF_PROCESS: u32 = 1;

/// Any list at all: the engine doesn't know which ones.
pub const HULLPIPPIN_ANY_LIST: u32 = 2;

/// It is told of all.
pub const HULLPIPPIN_TELLS_ALL: u32 = 0;

/// Such may be read for it meanwhile, and it waits on.
pub const HULLPIPPIN_READS_AHEAD: u32 = 1;

/// The same; and a completion alone is left, to be read along with what comes behind it.
pub const HULLPIPPIN_LEAVES: u32 = 2;

/// Nobody who was looked at is to be told anything.
pub const HULLPIPPIN_SIGNAL_NONE: u32 = 0;

/// This was read for a thread that waits in a read.
pub const HULLPIPPIN_SIGNAL_READ: u32 = 1;

/// A thread's doorbell is to ring, or to be silent.
pub const HULLPIPPIN_SIGNAL_BELL: u32 = 2;

/// What a thread that waits is told. What a field doesn't apply to has 0 there.
#[repr(C)]
#[derive(Clone, Copy, Debug, Default, PartialEq, Eq)]
pub struct hullpippin_signal {
    /// HULLPIPPIN_SIGNAL_NONE ..
    pub kind: u32,
    /// The thread's.
    pub seat: u32,
    /// Read: it is woken, and waits in a read no more: its read is answered with this, and with whatever was read for
    /// it since it was woken last; else it waits on.
    pub wakes: bool,
    /// Bell: it rings from now on, and else is silent.
    pub rings: bool,
    /// Somebody is still to be looked at.
    pub is_left: bool,
    /// Read: what hullpippin_live_read would answer: DONE, NO_MEMORY, HISTORY_FULL.
    pub status: u32,
    /// Read, where that is DONE: as of hullpippin_live_read. It is the latest step.
    pub answer: hullpippin_answer,
}

/// An object's identity.
#[repr(C)]
#[derive(Clone, Copy, Debug, Default, PartialEq, Eq)]
pub struct hullpippin_object_id {
    /// The place of the step that made it.
    pub place: u64,
    /// Which of that step's objects it is, from 0.
    pub index: u32,
}

/// A live process.
#[repr(C)]
#[derive(Clone, Copy, Debug, Default, PartialEq, Eq)]
pub struct hullpippin_process {
    /// The place of its open, which is its name.
    pub made: u64,
    /// Its pid.
    pub pid: u32,
    /// Its effective user id.
    pub euid: u32,
    /// The size of its window in bytes.
    pub window: u32,
    /// It hears of its own one-way flooding.
    pub spam_detection: bool,
}

/// The live thread of a seat.
#[repr(C)]
#[derive(Clone, Copy, Debug, Default, PartialEq, Eq)]
pub struct hullpippin_thread {
    /// The place of its open or attach.
    pub made: u64,
    /// Its process.
    pub process: u64,
    /// It has entered the loop.
    pub looping: bool,
}

/// An object.
#[repr(C)]
#[derive(Clone, Copy, Debug, Default, PartialEq, Eq)]
pub struct hullpippin_object {
    /// The process that owns it, live or not.
    pub owner: u64,
    /// By which its owner knows it.
    pub ptr: u64,
    /// What its owner gave with it.
    pub cookie: u64,
    /// Its owner has heard of a reference to it.
    pub told_weak: bool,
    /// Its owner has heard of a strong reference to it.
    pub told_strong: bool,
}

/// A live buffer.
#[repr(C)]
#[derive(Clone, Copy, Debug, Default, PartialEq, Eq)]
pub struct hullpippin_buffer {
    /// The process whose window it lies in.
    pub receiver: u64,
    /// The process that sent it, live or not.
    pub sender: u64,
    /// Where it begins in the window.
    pub start: u32,
    /// How much of the window it takes.
    pub size: u32,
    /// As written.
    pub code: u32,
    /// As written.
    pub flags: u32,
    /// The sender's.
    pub euid: u32,
    /// It is a one-way call's.
    pub one_way: bool,
    /// It was handed out.
    pub handed: bool,
    /// It is a transaction's, and no reply's.
    pub is_call: bool,
    /// The object that a transaction goes to.
    pub target: hullpippin_object_id,
    /// How many bytes of data.
    pub data: usize,
    /// How many bytes of offsets.
    pub offsets: usize,
}

/// The innermost open call that a thread is in.
#[repr(C)]
#[derive(Clone, Copy, Debug, Default, PartialEq, Eq)]
pub struct hullpippin_frame {
    /// The place of its transaction.
    pub made: u64,
    /// The thread serves it, and else made it.
    pub serves: bool,
}

/// A death notification.
#[repr(C)]
#[derive(Clone, Copy, Debug, Default, PartialEq, Eq)]
pub struct hullpippin_death {
    /// The process that asked for it.
    pub process: u64,
    /// The object whose owner's death it is about.
    pub object: hullpippin_object_id,
    /// What the process gave with it.
    pub cookie: u64,
    /// HULLPIPPIN_ARMED ..
    pub phase: u32,
    /// Its process cleared it after the owner's end.
    pub cleared: bool,
}

/// The owner lives.
pub const HULLPIPPIN_ARMED: u32 = 0;

/// The owner has ended, and its process is still to read that.
pub const HULLPIPPIN_QUEUED: u32 = 1;

/// Its process has read it.
pub const HULLPIPPIN_TOLD: u32 = 2;

/// And acknowledged.
pub const HULLPIPPIN_ACKNOWLEDGED: u32 = 3;

/// What is still to be read.
#[repr(C)]
#[derive(Clone, Copy, Debug, Default, PartialEq, Eq)]
pub struct hullpippin_work {
    /// The place of the step that made it.
    pub place: u64,
    /// Which of that step's it is, from 0.
    pub index: u64,
    /// HULLPIPPIN_NOTICE ..
    pub kind: u32,
    /// Notice: whose references have changed.
    pub object: hullpippin_object_id,
    /// Completion: it is read as BR_ONEWAY_SPAM_SUSPECT.
    pub spam: bool,
    /// Refusal, verdict: the code of the return.
    pub code: u32,
    /// Call, reply: the buffer; death: the notification.
    pub made: u64,
    /// Cleared: the notification's.
    pub cookie: u64,
}

/// BR_INCREFS, BR_ACQUIRE, BR_RELEASE, BR_DECREFS.
pub const HULLPIPPIN_NOTICE: u32 = 1;

/// BR_TRANSACTION_COMPLETE, BR_ONEWAY_SPAM_SUSPECT.
pub const HULLPIPPIN_COMPLETION: u32 = 2;

/// What was written was refused.
pub const HULLPIPPIN_REFUSAL: u32 = 3;

/// BR_TRANSACTION.
pub const HULLPIPPIN_CALL: u32 = 4;

/// BR_REPLY.
pub const HULLPIPPIN_REPLY: u32 = 5;

/// An accepted call has failed.
pub const HULLPIPPIN_VERDICT: u32 = 6;

/// BR_DEAD_BINDER.
pub const HULLPIPPIN_DEATH: u32 = 7;

/// BR_CLEAR_DEATH_NOTIFICATION_DONE.
pub const HULLPIPPIN_CLEARED: u32 = 8;

/// The code of a command.
pub const HULLPIPPIN_BC_TRANSACTION: u32 = 0x40406300;

/// The code of a command.
pub const HULLPIPPIN_BC_REPLY: u32 = 0x40406301;

/// The code of a command.
pub const HULLPIPPIN_BC_FREE_BUFFER: u32 = 0x40086303;

/// The code of a command.
pub const HULLPIPPIN_BC_INCREFS: u32 = 0x40046304;

/// The code of a command.
pub const HULLPIPPIN_BC_ACQUIRE: u32 = 0x40046305;

/// The code of a command.
pub const HULLPIPPIN_BC_RELEASE: u32 = 0x40046306;

/// The code of a command.
pub const HULLPIPPIN_BC_DECREFS: u32 = 0x40046307;

/// The code of a command.
pub const HULLPIPPIN_BC_INCREFS_DONE: u32 = 0x40106308;

/// The code of a command.
pub const HULLPIPPIN_BC_ACQUIRE_DONE: u32 = 0x40106309;

/// The code of a command.
pub const HULLPIPPIN_BC_ENTER_LOOPER: u32 = 0x0000630c;

/// The code of a command.
pub const HULLPIPPIN_BC_EXIT_LOOPER: u32 = 0x0000630d;

/// The code of a command.
pub const HULLPIPPIN_BC_REQUEST_DEATH_NOTIFICATION: u32 = 0x400c630e;

/// The code of a command.
pub const HULLPIPPIN_BC_CLEAR_DEATH_NOTIFICATION: u32 = 0x400c630f;

/// The code of a command.
pub const HULLPIPPIN_BC_DEAD_BINDER_DONE: u32 = 0x40086310;

/// The code of a return.
pub const HULLPIPPIN_BR_TRANSACTION: u32 = 0x80407202;

/// The code of a return.
pub const HULLPIPPIN_BR_REPLY: u32 = 0x80407203;

/// The code of a return.
pub const HULLPIPPIN_BR_DEAD_REPLY: u32 = 0x00007205;

/// The code of a return.
pub const HULLPIPPIN_BR_TRANSACTION_COMPLETE: u32 = 0x00007206;

/// The code of a return.
pub const HULLPIPPIN_BR_INCREFS: u32 = 0x80107207;

/// The code of a return.
pub const HULLPIPPIN_BR_ACQUIRE: u32 = 0x80107208;

/// The code of a return.
pub const HULLPIPPIN_BR_RELEASE: u32 = 0x80107209;

/// The code of a return.
pub const HULLPIPPIN_BR_DECREFS: u32 = 0x8010720a;

/// The code of a return.
pub const HULLPIPPIN_BR_NOOP: u32 = 0x0000720c;

/// The code of a return.
pub const HULLPIPPIN_BR_DEAD_BINDER: u32 = 0x8008720f;

/// The code of a return.
pub const HULLPIPPIN_BR_CLEAR_DEATH_NOTIFICATION_DONE: u32 = 0x80087210;

/// The code of a return.
pub const HULLPIPPIN_BR_FAILED_REPLY: u32 = 0x00007211;

/// The code of a return.
pub const HULLPIPPIN_BR_ONEWAY_SPAM_SUSPECT: u32 = 0x00007213;

/// The type of an object in a parcel. The engine refuses the last three by name.
pub const HULLPIPPIN_TYPE_BINDER: u32 = 0x73622a85;

/// The type of an object in a parcel. The engine refuses the last three by name.
pub const HULLPIPPIN_TYPE_WEAK_BINDER: u32 = 0x77622a85;

/// The type of an object in a parcel. The engine refuses the last three by name.
pub const HULLPIPPIN_TYPE_HANDLE: u32 = 0x73682a85;

/// The type of an object in a parcel. The engine refuses the last three by name.
pub const HULLPIPPIN_TYPE_WEAK_HANDLE: u32 = 0x77682a85;

/// The type of an object in a parcel. The engine refuses the last three by name.
pub const HULLPIPPIN_TYPE_FD: u32 = 0x66642a85;

/// The type of an object in a parcel. The engine refuses the last three by name.
pub const HULLPIPPIN_TYPE_FDA: u32 = 0x66646185;

/// The type of an object in a parcel. The engine refuses the last three by name.
pub const HULLPIPPIN_TYPE_PTR: u32 = 0x70742a85;

/// TF_ONE_WAY, a flag of a transaction: nobody waits for a reply. The engine acts on this flag alone, and hands on all
/// 32 bits.
pub const HULLPIPPIN_TF_ONE_WAY: u32 = 0x01;

/// TF_ROOT_OBJECT, handed on: the parcel is a root object.
pub const HULLPIPPIN_TF_ROOT_OBJECT: u32 = 0x04;

/// TF_STATUS_CODE, handed on: the data is a status.
pub const HULLPIPPIN_TF_STATUS_CODE: u32 = 0x08;

/// TF_ACCEPT_FDS, handed on: the reply may bring descriptors.
pub const HULLPIPPIN_TF_ACCEPT_FDS: u32 = 0x10;

/// TF_CLEAR_BUF, handed on: the receiver's driver clears the buffer at its end.
pub const HULLPIPPIN_TF_CLEAR_BUF: u32 = 0x20;

/// TF_UPDATE_TXN, handed on: the call replaces an older one that nobody has read.
pub const HULLPIPPIN_TF_UPDATE_TXN: u32 = 0x40;

/// A transaction record: struct binder_transaction_data.
#[repr(C)]
#[derive(Clone, Copy, Debug, Default, PartialEq, Eq)]
pub struct hullpippin_transaction {
    /// A handle in the low 32 bits, or the ptr of the receiver's object.
    pub target: u64,
    /// Of the receiver's object.
    pub cookie: u64,
    /// What the caller asks for.
    pub code: u32,
    /// HULLPIPPIN_TF_ONE_WAY and others: all 32 bits.
    pub flags: u32,
    /// The caller's, in what is read.
    pub sender_pid: i32,
    /// The sender's, in what is read.
    pub sender_euid: u32,
    /// How many bytes of data.
    pub data_size: u64,
    /// How many bytes of offsets, 8 for each object.
    pub offsets_size: u64,
    /// Where the data begins: in what a driver's seat writes, a place in the area.
    pub buffer: u64,
    /// Where the offsets begin, in the same way.
    pub offsets: u64,
}

/// A command: its code, and the fields of a command of this code. Spelling ignores a field that it has no use for, and
/// reading fills it with 0.
#[repr(C)]
#[derive(Clone, Copy, Debug, Default, PartialEq, Eq)]
pub struct hullpippin_command {
    /// HULLPIPPIN_BC_TRANSACTION ..
    pub code: u32,
    /// Increfs, acquire, release, decrefs, request and clear death notification.
    pub handle: u32,
    /// Free_buffer: the buffer's; increfs_done, acquire_done: the object's ptr.
    pub pointer: u64,
    /// Increfs_done, acquire_done, request and clear death notification, dead_binder_done.
    pub cookie: u64,
    /// Transaction, reply.
    pub transaction: hullpippin_transaction,
    /// Reading: how many bytes it takes; spelling ignores it.
    pub size: usize,
}

/// A return, in the same way.
#[repr(C)]
#[derive(Clone, Copy, Debug, Default, PartialEq, Eq)]
pub struct hullpippin_return {
    /// HULLPIPPIN_BR_TRANSACTION ..
    pub code: u32,
    /// Increfs, acquire, release, decrefs: the object's ptr.
    pub pointer: u64,
    /// The same, dead_binder, clear_death_notification_done.
    pub cookie: u64,
    /// Transaction, reply.
    pub transaction: hullpippin_transaction,
    /// Reading: how many bytes it takes; spelling ignores it.
    pub size: usize,
}

/// An object in a parcel: struct flat_binder_object, and where it stands.
#[repr(C)]
#[derive(Clone, Copy, Debug, Default, PartialEq, Eq)]
pub struct hullpippin_flat_object {
    /// HULLPIPPIN_TYPE_BINDER ..
    pub kind: u32,
    /// Handed on as they are.
    pub flags: u32,
    /// The ptr of an object of the sender's, or a handle in the low 32 bits.
    pub binder: u64,
    /// Of an object of the sender's.
    pub cookie: u64,
    /// Where it begins in the data, in bytes; it ends 24 bytes on.
    pub start: usize,
}

/// How far a walk over a parcel's objects is. It begins with 0 in each field.
#[repr(C)]
#[derive(Clone, Copy, Debug, Default, PartialEq, Eq)]
pub struct hullpippin_walk {
    /// Which offset is next, from 0.
    pub index: usize,
    /// Where the object before it ends.
    pub end: usize,
    /// Why there was no next object: X8, X9 or X10, whose offset is the one at `index`; 0 at the end.
    pub cause: u32,
}

/// What came of a parcel, and how much there is of it. Where it is refused all else is 0.
#[repr(C)]
#[derive(Clone, Copy, Debug, Default, PartialEq, Eq)]
pub struct hullpippin_layout {
    /// Linux's driver would refuse it for a PTR, FD or FDA object, or for where an object lies.
    pub is_refused: bool,
    /// Bytes that go on: the data, the offsets and the buffers, each up to a multiple of 8, with zeros.
    pub size: usize,
    /// Objects of other types.
    pub known: usize,
    /// What is to be written once the parcel has its place.
    pub fixups: usize,
    /// Descriptors that go on, in the order of their objects: the first ones.
    pub taken: usize,
}

/// What is to be written into a parcel.
#[repr(C)]
#[derive(Clone, Copy, Debug, Default, PartialEq, Eq)]
pub struct hullpippin_fixup {
    /// HULLPIPPIN_FIXUP_POINTER ..
    pub kind: u32,
    /// Where it lies in the parcel.
    pub at: u64,
    /// Pointer: where it leads in the parcel; descriptors: how many they are; else 0.
    pub to: u64,
}

/// The address of a buffer, 8 bytes.
pub const HULLPIPPIN_FIXUP_POINTER: u32 = 1;

/// The number of an FD object's descriptor, 8 bytes.
pub const HULLPIPPIN_FIXUP_DESCRIPTOR: u32 = 2;

/// Those of an FDA object's, 4 bytes each.
pub const HULLPIPPIN_FIXUP_DESCRIPTORS: u32 = 3;

/// Where a client says that the parts of its parcel lie in its area, and how many bytes each has. The room for buffers
/// follows the offsets, from a multiple of 8 on.
#[repr(C)]
#[derive(Clone, Copy, Debug, Default, PartialEq, Eq)]
pub struct hullpippin_asked {
    /// What the library keeps.
    pub data: u64,
    /// What the library keeps.
    pub data_size: u64,
    /// What the library keeps.
    pub offsets: u64,
    /// What the library keeps.
    pub offsets_size: u64,
    /// What the library keeps.
    pub buffers_size: u64,
}

/// A part of a parcel: so many bytes are copied from one place to another.
#[repr(C)]
#[derive(Clone, Copy, Debug, Default, PartialEq, Eq)]
pub struct hullpippin_part {
    /// What the library keeps.
    pub from: u64,
    /// What the library keeps.
    pub to: u64,
    /// What the library keeps.
    pub size: u64,
}

/// All parts of a parcel. Each goes behind the one before, to a multiple of 8.
#[repr(C)]
#[derive(Clone, Copy, Debug, Default, PartialEq, Eq)]
pub struct hullpippin_parts {
    /// What the library keeps.
    pub data: hullpippin_part,
    /// What the library keeps.
    pub offsets: hullpippin_part,
    /// What the library keeps.
    pub buffers: hullpippin_part,
}

/// What a parcel was before it was wrapped, and how it goes.
#[repr(C)]
#[derive(Clone, Copy, Debug, Default, PartialEq, Eq)]
pub struct hullpippin_trailer {
    /// How many bytes of data its client sent, ..
    pub data: u64,
    /// .. of offsets, ..
    pub offsets: u64,
    /// .. and of buffers.
    pub buffers: u64,
    /// The place of the step that sends it.
    pub step: u64,
    /// What the library keeps.
    pub descriptors: u32,
    /// Of who sends it.
    pub euid: u32,
}

/// How many bytes a trailer has.
pub const HULLPIPPIN_TRAILER_SIZE: u32 = 48;

/// As it was sent.
pub const HULLPIPPIN_WAY_PLAIN: u32 = 0;

/// Wrapped: it has PTR, FD or FDA objects, or its uid is told, or it looks as if it were.
pub const HULLPIPPIN_WAY_WRAPPED: u32 = 1;

/// Not at all: it has too many objects that the engine knows.
pub const HULLPIPPIN_WAY_LOST: u32 = 2;

/// A thread that reads, and what it has yet to read.
#[repr(C)]
#[derive(Clone, Copy, Debug, Default, PartialEq, Eq)]
pub struct hullpippin_reader {
    /// Calls that it has to answer.
    pub serving: u32,
    /// Calls whose end it hasn't read.
    pub calling: u32,
    /// Refusals that it hasn't read.
    pub refusals: u32,
    /// Two-way calls of which it hasn't read that they were taken.
    pub completions: u32,
    /// Death notifications of which it hasn't read that they were taken back, at most.
    pub clearings: u32,
    /// Calls and replies of which it wasn't told that they were taken ..
    pub untold: u32,
    /// .. and of how many of these it has read that.
    pub completed: u32,
    /// What was refused and isn't told: HULLPIPPIN_REFUSAL_NONE ..
    pub refusal: u32,
    /// Not 0: it has read, or will, more than what can wait for a reply.
    pub is_prompt: u32,
    /// Not 0: others have handed over some of it, and what the engine has comes with that.
    pub is_behind: u32,
    /// Not 0: its read has no room for a return that is there.
    pub is_full: u32,
}

/// What was refused of a thread and isn't told to it.
pub const HULLPIPPIN_REFUSAL_NONE: u32 = 0;

/// A call, or a reply to nobody: BR_FAILED_REPLY or BR_DEAD_REPLY tells it.
pub const HULLPIPPIN_REFUSAL_CALL: u32 = 1;

/// Any other reply: the last BR_TRANSACTION_COMPLETE tells it.
pub const HULLPIPPIN_REFUSAL_REPLY: u32 = 2;

/// What a thread sends.
pub const HULLPIPPIN_SENT_CALL: u32 = 0;

/// What a thread sends.
pub const HULLPIPPIN_SENT_ONE_WAY: u32 = 1;

/// What a thread sends.
pub const HULLPIPPIN_SENT_REPLY: u32 = 2;

/// What a thread has read and wasn't told, and its read.
#[repr(C)]
#[derive(Clone, Copy, Debug, Default, PartialEq, Eq)]
pub struct hullpippin_pending {
    /// How many bytes of returns.
    pub size: u32,
    /// So many bytes its read has room for.
    pub room: u32,
    /// Not 0: it is in the loop.
    pub is_looping: u32,
}

/// What is so of a thread that reads.
#[repr(C)]
#[derive(Clone, Copy, Debug, Default, PartialEq, Eq)]
pub struct hullpippin_facts {
    /// Its read has something to be answered with ..
    pub is_there: bool,
    /// .. and all of its own that is told together.
    pub is_whole: bool,
    /// The engine has some of what its calls and replies have left.
    pub is_left: bool,
    /// It is in a call of its own, and what it has can wait for the reply.
    pub defers: bool,
    /// It has made such a call, and hasn't read that this was taken.
    pub fetches: bool,
    /// It is in the loop, and in no call: it gets what comes to its process.
    pub is_idle: bool,
    /// Its read has room for a return, or may not come back without one.
    pub has_room: bool,
    /// Of the engine's read for it.
    pub limit: u32,
}

/// What a thread is told of its returns.
#[repr(C)]
#[derive(Clone, Copy, Debug, Default, PartialEq, Eq)]
pub struct hullpippin_returns_told {
    /// How many bytes of them.
    pub size: usize,
    /// There is a BR_TRANSACTION or BR_REPLY among these.
    pub has_call: bool,
    /// By these it is told of all that it has sent.
    pub is_all: bool,
}

/// The least limit of an engine's read: BR_NOOP, and the longest return.
pub const HULLPIPPIN_READ_LEAST: u32 = 72;

/// While so many bytes are left, a thread is told one return more, as in the kernel: there is a longer one there,
/// BR_TRANSACTION_SEC_CTX.
pub const HULLPIPPIN_RETURN_ROOM: u32 = 76;

/// What a bridge is to be told of a thread by: which calls of it, in this order. Of the first two there is one at most.
#[repr(C)]
#[derive(Clone, Copy, Debug, Default, PartialEq, Eq)]
pub struct hullpippin_calls {
    /// Hullpippin_bridge_stop_waiting.
    pub stops_waiting: bool,
    /// Hullpippin_bridge_stop_reading.
    pub stops_reading: bool,
    /// Hullpippin_bridge_give_doorbell.
    pub gives_bell: bool,
    /// Hullpippin_bridge_wait, with ..
    pub reads: bool,
    /// .. this room ..
    pub limit: u32,
    /// .. and HULLPIPPIN_TELLS_ALL or HULLPIPPIN_LEAVES.
    pub defers: u32,
}

/// What a bridge was told of a thread.
#[repr(C)]
#[derive(Clone, Copy, Debug, Default, PartialEq, Eq)]
pub struct hullpippin_told {
    /// It has a doorbell.
    pub has_bell: bool,
    /// It waits in a read, with ..
    pub reads: bool,
    /// .. this room ..
    pub limit: u32,
    /// .. and that much it need not be told.
    pub defers: u32,
}

/// How a thread waits.
#[repr(C)]
#[derive(Clone, Copy, Debug, Default, PartialEq, Eq)]
pub struct hullpippin_waits {
    /// It has a seat.
    pub has_seat: bool,
    /// It has a doorbell.
    pub polls: bool,
    /// It waits in a read ..
    pub is_reading: bool,
    /// .. and is about to be answered.
    pub is_woken: bool,
    /// It stands on the list of its process ..
    pub is_idle: bool,
    /// .. and is the one there that the bridge is told of.
    pub is_herald: bool,
    /// Its doorbell rings, as the bridge has told.
    pub rings: bool,
    /// What the bridge was told.
    pub told: hullpippin_told,
    /// What it is to be told.
    pub calls: hullpippin_calls,
}

/// Where a thread stands on the list of its process.
pub const HULLPIPPIN_PLACE_NOWHERE: u32 = 0;

/// Where a thread stands on the list of its process.
pub const HULLPIPPIN_PLACE_FIRST: u32 = 1;

/// Where a thread stands on the list of its process.
pub const HULLPIPPIN_PLACE_LAST: u32 = 2;

/// What is done about a thread.
pub const HULLPIPPIN_DO_NOTHING: u32 = 0;

/// It waits otherwise than before: hullpippin_waits_note.
pub const HULLPIPPIN_DO_NOTE: u32 = 1;

/// What is left of its calls and replies is read too, and it is asked again.
pub const HULLPIPPIN_DO_FETCH: u32 = 2;

/// Its read is answered.
pub const HULLPIPPIN_DO_ANSWER: u32 = 3;

/// Its read is answered once the doorbells of its process are right; until then it is woken.
pub const HULLPIPPIN_DO_QUEUE: u32 = 4;

/// Its read is answered with what has failed.
pub const HULLPIPPIN_DO_FAIL: u32 = 5;

/// What a read of the engine's has got.
pub const HULLPIPPIN_TOOK_SOMETHING: u32 = 0;

/// What a read of the engine's has got.
pub const HULLPIPPIN_TOOK_NOTHING: u32 = 1;

/// It couldn't be made, or taken.
pub const HULLPIPPIN_TOOK_FAILED: u32 = 2;

/// It rings, or is silent.
pub const HULLPIPPIN_HEARD_RINGS: u32 = 0;

/// The next of what a call has left is read: where there was some, hullpippin_waits_tell_anew; else it rings.
pub const HULLPIPPIN_HEARD_FETCHES: u32 = 1;

/// Its read has no room for what is there: it is answered, and it is asked again.
pub const HULLPIPPIN_HEARD_FULL: u32 = 2;

/// How a read begins.
pub const HULLPIPPIN_READ_WAITS: u32 = 0;

/// It fetches if the engine has something for it (hullpippin_live_ready), and else waits.
pub const HULLPIPPIN_READ_LOOKS: u32 = 1;

/// It is answered with what there is: it reads until facts.is_whole, or the engine has nothing more.
pub const HULLPIPPIN_READ_COMES_BACK: u32 = 2;

/// The engine has something for it: it reads once, and then on like that.
pub const HULLPIPPIN_READ_FETCHES: u32 = 3;

/// What has become of a request once its commands have run and its read has begun.
#[repr(C)]
#[derive(Clone, Copy, Debug, Default, PartialEq, Eq)]
pub struct hullpippin_ending {
    /// It goes on later.
    pub is_put_off: bool,
    /// It has begun a read ..
    pub reads: bool,
    /// .. that isn't answered yet.
    pub is_reading: bool,
    /// Its read couldn't be made, or the bridge couldn't be told.
    pub has_failed: bool,
    /// Its read didn't begin with waiting.
    pub is_at_once: bool,
    /// As when it began ..
    pub may_wait: bool,
    /// .. and as it is now.
    pub is_to_return: bool,
    /// It has something to be answered with; looked at where it is at once.
    pub is_there: bool,
}

/// It isn't answered now.
pub const HULLPIPPIN_REQUEST_RESTS: u32 = 0;

/// It goes on later.
pub const HULLPIPPIN_REQUEST_GOES_ON: u32 = 1;

/// It is answered with what its commands have come to.
pub const HULLPIPPIN_REQUEST_TELLS: u32 = 2;

/// It is answered with why its read failed.
pub const HULLPIPPIN_REQUEST_FAILS: u32 = 3;

/// Its read is answered with what there is.
pub const HULLPIPPIN_REQUEST_ANSWERS: u32 = 4;

/// .. with EAGAIN.
pub const HULLPIPPIN_REQUEST_WOULD_BLOCK: u32 = 5;

/// It waits from now on; where the bridge can't be told, it is answered with ENOMEM.
pub const HULLPIPPIN_REQUEST_WAITS: u32 = 6;

/// What to do with a request that waits, in its read or before it begins, when its thread wants the answer now.
pub const HULLPIPPIN_CANCEL_RESTS: u32 = 0;

/// What the engine has is read, and the read answered with what there is.
pub const HULLPIPPIN_CANCEL_COMES_BACK: u32 = 1;

/// Its read is answered with EINTR.
pub const HULLPIPPIN_CANCEL_INTERRUPTS: u32 = 2;

/// It isn't begun, and answered with EINTR.
pub const HULLPIPPIN_CANCEL_REFUSES: u32 = 3;

/// A death notification that a process has taken back, and what else its thread has to read.
#[repr(C)]
#[derive(Clone, Copy, Debug, Default, PartialEq, Eq)]
pub struct hullpippin_cleared {
    /// Of the step that took it back.
    pub place: u64,
    /// Of the oldest that is unread of the process ..
    pub oldest: u64,
    /// .. if there is anything.
    pub has_oldest: bool,
    /// The thread has something of its own to read.
    pub has_own: bool,
}

/// Whether a thread that takes a notification back itself is told of that at once, and not with a reply.
pub const HULLPIPPIN_CLEARED_IS_NOT_TOLD: u32 = 0;

/// Whether a thread that takes a notification back itself is told of that at once, and not with a reply.
pub const HULLPIPPIN_CLEARED_IS_TOLD: u32 = 1;

/// The next item of its list tells.
pub const HULLPIPPIN_CLEARED_LOOKS_ON: u32 = 2;

/// How many threads a process may be asked for.
#[repr(C)]
#[derive(Clone, Copy, Debug, Default, PartialEq, Eq)]
pub struct hullpippin_loopers {
    /// So many ..
    pub max: u32,
    /// .. of which so many are still to come ..
    pub requested: u32,
    /// .. and so many have.
    pub started: u32,
}

/// A call or reply that was taken.
#[repr(C)]
#[derive(Clone, Copy, Debug, Default, PartialEq, Eq)]
pub struct hullpippin_sending {
    /// Its place among the engine's steps.
    pub step: u64,
    /// The thread that sends it.
    pub sender: u32,
    /// The process that it goes to; 0: it isn't known.
    pub receiver: u32,
    /// How often that one has let go of what may have carried objects.
    pub let_go: u32,
}

extern "C" {
    /// The version of the library that you link, as HULLPIPPIN_VERSION has the header's.
    pub fn hullpippin_version() -> u32;

    /// Copies the text of a number of this kind (HULLPIPPIN_TEXT_STATUS ..), which is ASCII and has no NUL behind it,
    /// to `out` if all of it fits in `room` bytes, and else nothing. Answers how many bytes it has, at most 63; 0 where
    /// there is none.
    pub fn hullpippin_text_bytes(kind: u32, number: u32, out: *mut u8, room: usize) -> usize;

    /// Makes a driver with so many seats, numbered from 0. `driver` is empty, and stays so unless the answer is DONE.
    /// Also NO_MEMORY, SEAT_COUNT.
    pub fn hullpippin_new(seats: u32, driver: *mut hullpippin_driver) -> u32;

    /// Takes a seat off the driver: the first that is there, so of a new driver seat 0, then seat 1. `seat` is empty,
    /// and stays so unless the answer is DONE. Also NO_MEMORY, NO_SEAT_LEFT.
    pub fn hullpippin_take_seat(driver: *mut hullpippin_driver, seat: *mut hullpippin_seat) -> u32;

    /// Gives a seat back to its own driver, behind those that are there, and empties `seat`. What its latest call
    /// answered is gone. With another driver it is MISUSE, and the seat stays. Takes no memory; NO_MEMORY never comes.
    pub fn hullpippin_return_seat(driver: *mut hullpippin_driver, seat: *mut hullpippin_seat) -> u32;

    /// Ends a driver whose seats are all back. The handle has its history from then on, which is for journal and
    /// free_driver alone. Takes no memory. Also SEATS_AWAY.
    pub fn hullpippin_finish(driver: *mut hullpippin_driver) -> u32;

    /// Tells in `size` how many bytes the journal of an ended driver has, and copies them to `out` if all of them fit
    /// in `room` bytes; else `out` stays as it was, and a later call with more room has them. Also NO_MEMORY,
    /// NO_JOURNAL.
    pub fn hullpippin_journal(driver: *mut hullpippin_driver, out: *mut u8, room: usize, size: *mut usize) -> u32;

    /// Judges the bytes of a journal, by playing its entries again. Needs no driver. Also NO_MEMORY, NO_JOURNAL.
    pub fn hullpippin_verdict(journal: *const u8, size: usize, verdict: *mut hullpippin_verdict_on) -> u32;

    /// How what a handle names in the end came to the live process with this pid: the places of the gifts, rising. The
    /// first is by the object's owner, or asks for the context manager's by 0; each later one is by who received it
    /// before; the last is to this process. None where there is no such process or it has no such handle, and nowhere
    /// else.
    pub fn hullpippin_chain(
        journal: *const u8,
        size: usize,
        pid: u32,
        handle: u32,
        out: *mut u32,
        room: usize,
        count: *mut usize,
    ) -> u32;

    /// Which call the reply answers that the read at a place got, by the place of its BC_TRANSACTION:
    /// HULLPIPPIN_NO_PLACE where that read got no reply, and nowhere else.
    pub fn hullpippin_call_of_reply(journal: *const u8, size: usize, place: u32, call: *mut u32) -> u32;

    /// The one-way calls on an object, in the order of their making. The object is the one that the step at `place`
    /// made, or of several the one of this index, from 0.
    pub fn hullpippin_turns(
        journal: *const u8,
        size: usize,
        place: u32,
        index: u32,
        out: *mut hullpippin_turn,
        room: usize,
        count: *mut usize,
    ) -> u32;

    /// Lets go of a driver, or of an ended one's history, and empties the handle. Seats that are away stay usable. Does
    /// nothing where it is empty.
    pub fn hullpippin_free_driver(driver: *mut hullpippin_driver);

    /// Lets go of a seat for good, and empties the handle. Nothing can finish its driver then. Does nothing where it is
    /// empty.
    pub fn hullpippin_free_seat(seat: *mut hullpippin_seat);

    /// Opens a process with one thread, the seat's: `pid` 1 to 2147483647, `window` a multiple of 4096 up to 4194304.
    pub fn hullpippin_open(
        seat: *mut hullpippin_seat,
        pid: u32,
        euid: u32,
        window: u32,
        answer: *mut hullpippin_answer,
    ) -> u32;

    /// Makes the seat a further thread of a live process.
    pub fn hullpippin_attach(seat: *mut hullpippin_seat, pid: u32, answer: *mut hullpippin_answer) -> u32;

    /// Makes the seat's process the context manager (BINDER_SET_CONTEXT_MGR).
    pub fn hullpippin_manager(seat: *mut hullpippin_seat, answer: *mut hullpippin_answer) -> u32;

    /// Has the seat's process told of its own flooding with one-way calls where `on` is 1, and no longer where it is 0
    /// (BINDER_ENABLE_ONEWAY_SPAM_DETECTION). While `on` is 1, an accepted one-way transaction reads
    /// BR_ONEWAY_SPAM_SUSPECT in place of BR_TRANSACTION_COMPLETE, if the process's one-way buffers that live in the
    /// receiver's window take more than a quarter of it. At first it is 0. Also NO_SUCH_REQUEST, where `on` is neither
    /// 0 nor 1, and nowhere else.
    pub fn hullpippin_set_spam(seat: *mut hullpippin_seat, on: u32, answer: *mut hullpippin_answer) -> u32;

    /// Runs the commands of a stream of at most 4096 bytes (the write half of BINDER_WRITE_READ). In their transaction
    /// records `buffer` and `offsets` are places in the area. Also NO_MEMORY.
    pub fn hullpippin_write(
        seat: *mut hullpippin_seat,
        stream: *const u8,
        stream_size: usize,
        area: *const u8,
        area_size: usize,
        answer: *mut hullpippin_answer,
    ) -> u32;

    /// Reads returns of at most `limit` bytes, which is at least 72 (the read half of BINDER_WRITE_READ). Where it is
    /// GOT, the answer has the sizes, and the bytes stay with the seat. If there is nothing to read, it is REFUSED,
    /// with F12.
    pub fn hullpippin_read(seat: *mut hullpippin_seat, limit: u32, answer: *mut hullpippin_answer) -> u32;

    /// Ends the seat's thread (BINDER_THREAD_EXIT). The seat may open or attach again.
    pub fn hullpippin_exit_thread(seat: *mut hullpippin_seat, answer: *mut hullpippin_answer) -> u32;

    /// Ends the seat's process with all its threads.
    pub fn hullpippin_exit_process(seat: *mut hullpippin_seat, answer: *mut hullpippin_answer) -> u32;

    /// Makes the request again that came back with the seat's latest answer, of these calls, hullpippin_collect or
    /// hullpippin_withdraw. It needs no bytes of yours any more, and copies none anew. Also NO_SUCH_REQUEST, where that
    /// answer wasn't BACK, or there was none, and nowhere else.
    pub fn hullpippin_again(seat: *mut hullpippin_seat, answer: *mut hullpippin_answer) -> u32;

    /// Copies a part of what a read got to `out`, if all of it fits in `room` bytes, and else nothing. Answers how many
    /// bytes it has, 0 where the latest answer isn't GOT. Takes no memory.
    pub fn hullpippin_answer_bytes(seat: *mut hullpippin_seat, part: u32, out: *mut u8, room: usize) -> usize;

    /// Tells the note at an index below the answer's `notes`; false where there is none. Takes no memory.
    pub fn hullpippin_answer_note(seat: *mut hullpippin_seat, index: usize, note: *mut hullpippin_note) -> bool;

    /// The page.
    pub fn hullpippin_look(seat: *mut hullpippin_seat, page: *mut hullpippin_page);

    /// Its ready seats alone, bit i for seat i.
    pub fn hullpippin_ready(seat: *mut hullpippin_seat) -> u32;

    /// Posts a request; the stream and the area are those of a write. Also WAITING, NO_MEMORY; and NO_SUCH_REQUEST,
    /// where its kind is none of these, or is HULLPIPPIN_SET_SPAM and its `on` neither 0 nor 1, and nowhere else.
    pub fn hullpippin_post(
        seat: *mut hullpippin_seat,
        request: *const hullpippin_request,
        stream: *const u8,
        stream_size: usize,
        area: *const u8,
        area_size: usize,
    ) -> u32;

    /// Runs what all seats have posted, once each, and tells in `picked` how many requests. Also TAKEN.
    pub fn hullpippin_serve(seat: *mut hullpippin_seat, picked: *mut u32) -> u32;

    /// Fetches the answer to what the seat posted; HANDED while there is none. Also NOT_WAITING.
    pub fn hullpippin_collect(seat: *mut hullpippin_seat, answer: *mut hullpippin_answer) -> u32;

    /// Takes back what the seat posted, if nobody has picked it: BACK with BACK_WITHDRAWN, or HANDED. Also NOT_WAITING.
    pub fn hullpippin_withdraw(seat: *mut hullpippin_seat, answer: *mut hullpippin_answer) -> u32;

    /// Makes a live engine with 1 to 65536 seats. `live` is empty, and stays so unless the answer is DONE. Also
    /// NO_MEMORY, SEAT_COUNT.
    pub fn hullpippin_live_new(seats: u32, live: *mut hullpippin_live) -> u32;

    /// As hullpippin_open.
    pub fn hullpippin_live_open(
        live: *mut hullpippin_live,
        seat: u32,
        pid: u32,
        euid: u32,
        window: u32,
        answer: *mut hullpippin_answer,
    ) -> u32;

    /// As hullpippin_attach.
    pub fn hullpippin_live_attach(
        live: *mut hullpippin_live,
        seat: u32,
        pid: u32,
        answer: *mut hullpippin_answer,
    ) -> u32;

    /// As hullpippin_manager.
    pub fn hullpippin_live_manager(live: *mut hullpippin_live, seat: u32, answer: *mut hullpippin_answer) -> u32;

    /// As hullpippin_set_spam. Also NO_SUCH_REQUEST, as there, whatever `seat` is.
    pub fn hullpippin_live_set_spam(
        live: *mut hullpippin_live,
        seat: u32,
        on: u32,
        answer: *mut hullpippin_answer,
    ) -> u32;

    /// Runs one command, whose bytes are `command`, as the command of a write of that one alone. With a transaction or
    /// reply pass its parcel: the data and the offsets of its objects, of the sizes that its record says; else the
    /// engine refuses it with X7. It doesn't look at the record's pointers, nor, with other commands, at a parcel.
    /// WROTE: `notes` is 1 where the command changed nothing, `stop` is AT_CAUSE where the engine refused it, and
    /// `number` is the note's or the cause's; `consumed` is 0. REFUSED with F4 where the seat has no thread. Also
    /// NO_COMMAND: then the bytes are no command, at which a write would stop with a fault, and the call makes no step.
    pub fn hullpippin_live_command(
        live: *mut hullpippin_live,
        seat: u32,
        command: *const u8,
        command_size: usize,
        data: *const u8,
        data_size: usize,
        offsets: *const u8,
        offsets_size: usize,
        answer: *mut hullpippin_answer,
    ) -> u32;

    /// As hullpippin_read; the bytes stay with the engine until its next step.
    pub fn hullpippin_live_read(
        live: *mut hullpippin_live,
        seat: u32,
        limit: u32,
        answer: *mut hullpippin_answer,
    ) -> u32;

    /// As hullpippin_exit_thread.
    pub fn hullpippin_live_exit_thread(live: *mut hullpippin_live, seat: u32, answer: *mut hullpippin_answer) -> u32;

    /// As hullpippin_exit_process.
    pub fn hullpippin_live_exit_process(live: *mut hullpippin_live, seat: u32, answer: *mut hullpippin_answer) -> u32;

    /// Whether the seat has something to read; false where there is no such seat. Takes no memory.
    pub fn hullpippin_live_ready(live: *mut hullpippin_live, seat: u32) -> bool;

    /// How many steps it has made. Takes no memory.
    pub fn hullpippin_live_len(live: *mut hullpippin_live) -> u64;

    /// Copies to `out` the places of the buffers that ended by the latest step, each that of the step that made it,
    /// oldest first, if all of them fit in `room` places, and else nothing. Answers how many there are, 0 before the
    /// first step; they stay until the next step that is DONE. A buffer has ended if one of that place lived before the
    /// step and none does after it, so a bridge may take back its memory. Only a BC_FREE_BUFFER and the exits end
    /// buffers, and only they take time for it: a BC_FREE_BUFFER looks for one, an exit looks through those of its own
    /// process. Takes no memory.
    pub fn hullpippin_live_ended(live: *mut hullpippin_live, out: *mut u64, room: usize) -> usize;

    /// Looks whether each of `count` seats has something to read, and notes it. Tells in `changed` how many of them
    /// differ from what this function noted when it last looked at the seat; at first no seat has anything to read.
    /// Fetch them by hullpippin_live_changed. It leaves the notes of other seats as they were: you hear of those when
    /// you name them next. It passes over numbers that are no seat's. It costs a look at each seat that you name, as
    /// hullpippin_live_ready does: name those that somebody waits for, or all. A step costs nothing for it. Also
    /// NO_MEMORY: then all notes stay as they were.
    pub fn hullpippin_live_poll(
        live: *mut hullpippin_live,
        seats: *const u32,
        count: usize,
        changed: *mut usize,
    ) -> u32;

    /// Copies the seats that the latest hullpippin_live_poll found changed to `out`, if all of them fit in `room`
    /// numbers, and else nothing. Answers how many there are; they stay until its next call that is DONE. Each was
    /// noted ready and isn't now, or the other way round. It takes no memory.
    pub fn hullpippin_live_changed(live: *mut hullpippin_live, out: *mut u32, room: usize) -> usize;

    /// Asks which lists have filled or emptied since this function was last DONE: something was on them then and
    /// nothing is now, or the other way round. Tells in `count` how many they are; hullpippin_live_reached tells each.
    /// Called after a step, it tells whom to look at: besides the step's own seat only those can have come to be ready
    /// or unready whose list it names, or whose process's list, or whose thread has ended. It doesn't name a list that
    /// got more, or from which a read left something: so who wakes one reader of a process looks again once it has
    /// read. If the engine doesn't know the lists, it tells one of the kind HULLPIPPIN_ANY_LIST, and may mean every
    /// seat: the first time, where more than 64 lists got or lost something, and after a step that took back what was
    /// to be read. It takes memory if it has too little room for the lists; a step takes none for it. Also NO_MEMORY:
    /// then the next ask tells all of them.
    pub fn hullpippin_live_ask_reached(live: *mut hullpippin_live, count: *mut usize) -> u32;

    /// Tells the list of an index, from 0, among those that the latest hullpippin_live_ask_reached found; false where
    /// there are no more. They stay until its next call that is DONE. Takes no memory.
    pub fn hullpippin_live_reached(live: *mut hullpippin_live, index: usize, list: *mut hullpippin_todo_list) -> bool;

    /// As hullpippin_live_new, but that of each seat it is kept how it waits: at first none does.
    pub fn hullpippin_bridge_new(seats: u32, live: *mut hullpippin_live) -> u32;

    /// The seat's thread waits in a read from now on, with room for `room` bytes, which is at least 72; where it waits
    /// in one already, this one takes its place. `defers` is one of the numbers above. Also NO_SUCH_SEAT, where the
    /// engine is no bridge too; NO_MEMORY: then it waits as before; and NO_SUCH_REQUEST, where `defers` is none of
    /// them.
    pub fn hullpippin_bridge_wait(live: *mut hullpippin_live, seat: u32, room: u32, defers: u32) -> u32;

    /// The seat's thread has a doorbell from now on, which is silent: it is told each time that it comes to have
    /// something to read, or nothing any more. It may wait in a read as well. Also NO_SUCH_SEAT, and NO_MEMORY: then it
    /// waits as before.
    pub fn hullpippin_bridge_give_doorbell(live: *mut hullpippin_live, seat: u32) -> u32;

    /// The seat's thread waits no more in a read, as where that was interrupted. Its doorbell stays. Does nothing where
    /// it doesn't wait. Takes no memory. Also NO_SUCH_SEAT.
    pub fn hullpippin_bridge_stop_reading(live: *mut hullpippin_live, seat: u32) -> u32;

    /// The same of its doorbell too.
    pub fn hullpippin_bridge_stop_waiting(live: *mut hullpippin_live, seat: u32) -> u32;

    /// Looks at `looks` threads at most of those who wait and whom something has reached, who was named first at first,
    /// until one of them is to be told something, and tells that. Each look at one that waits in a read, and has
    /// something to read, makes a step: its read. Always DONE. It asks for no memory but for that step's.
    pub fn hullpippin_bridge_settle(live: *mut hullpippin_live, looks: u32, signal: *mut hullpippin_signal) -> u32;

    /// How many threads are still to be looked at, some perhaps twice. Takes no memory.
    pub fn hullpippin_bridge_suspects(live: *mut hullpippin_live) -> usize;

    /// As hullpippin_answer_bytes, of the latest step; 0 where that isn't a read, or didn't get anything.
    pub fn hullpippin_live_bytes(live: *mut hullpippin_live, part: u32, out: *mut u8, room: usize) -> usize;

    /// Tells in `size` how many bytes the latest step's entry has in a journal, 0 before the first step, and copies
    /// them to `out` if all of them fit in `room` bytes; else `out` stays as it was, and a later call with more room
    /// has them, until the next step. Also NO_MEMORY, NO_JOURNAL: you may make the call again, the entry stays.
    pub fn hullpippin_live_entry(live: *mut hullpippin_live, out: *mut u8, room: usize, size: *mut usize) -> u32;

    /// The same for what a journal of `count` entries begins with, 16 bytes, or 20 where there are more than 31 seats.
    /// Where the entries are still to come, begin the file with the heading of 4294967295 entries, of UINT64_MAX where
    /// there are more than 31 seats, and write the right one over it at the end, or `count` alone from byte 12 on,
    /// little-endian, into four bytes, or eight where there are more than 31 seats. Until then no reader takes it for a
    /// journal. NO_JOURNAL: there are 31 seats or fewer and more than 4294967295 entries, which no journal of so few
    /// seats counts.
    pub fn hullpippin_live_heading(
        live: *mut hullpippin_live,
        count: u64,
        out: *mut u8,
        room: usize,
        size: *mut usize,
    ) -> u32;

    /// Lets go of a live engine, and empties the handle. Does nothing where it is empty.
    pub fn hullpippin_free_live(live: *mut hullpippin_live);

    /// The live process whose open is at this place.
    pub fn hullpippin_live_process(live: *mut hullpippin_live, made: u64, process: *mut hullpippin_process) -> bool;

    /// The live process with this pid: the place of its open.
    pub fn hullpippin_live_process_of_pid(live: *mut hullpippin_live, pid: u32, made: *mut u64) -> bool;

    /// The live thread of a seat.
    pub fn hullpippin_live_thread(live: *mut hullpippin_live, seat: u32, thread: *mut hullpippin_thread) -> bool;

    /// The context manager's object.
    pub fn hullpippin_live_manager_object(live: *mut hullpippin_live, object: *mut hullpippin_object_id) -> bool;

    /// An object, by its identity.
    pub fn hullpippin_live_object(
        live: *mut hullpippin_live,
        place: u64,
        index: u32,
        object: *mut hullpippin_object,
    ) -> bool;

    /// The object that a handle names for the live process with this pid.
    pub fn hullpippin_live_named(
        live: *mut hullpippin_live,
        pid: u32,
        handle: u32,
        object: *mut hullpippin_object_id,
    ) -> bool;

    /// The live buffer of this place.
    pub fn hullpippin_live_buffer(live: *mut hullpippin_live, made: u64, buffer: *mut hullpippin_buffer) -> bool;

    /// The object of an index, from 0, among those that the live buffer made at this place carries: one for each object
    /// of its parcel, in their order. It goes along them from the first.
    pub fn hullpippin_live_carried(
        live: *mut hullpippin_live,
        made: u64,
        index: usize,
        object: *mut hullpippin_object_id,
    ) -> bool;

    /// The item of an index, from 0, on the list of a seat's thread: what it is to read, oldest first. It goes along
    /// them from the first.
    pub fn hullpippin_live_unread_of_thread(
        live: *mut hullpippin_live,
        seat: u32,
        index: usize,
        work: *mut hullpippin_work,
    ) -> bool;

    /// The same on the list of a process, which any of its threads reads that is in the loop.
    pub fn hullpippin_live_unread_of_process(
        live: *mut hullpippin_live,
        process: u64,
        index: usize,
        work: *mut hullpippin_work,
    ) -> bool;

    /// The innermost open call that a seat's thread is in.
    pub fn hullpippin_live_innermost(live: *mut hullpippin_live, seat: u32, frame: *mut hullpippin_frame) -> bool;

    /// The death notification whose request is at this place.
    pub fn hullpippin_live_death(live: *mut hullpippin_live, made: u64, death: *mut hullpippin_death) -> bool;

    /// The first live process whose open is at the place `from` or behind it: the place of its open. To visit all,
    /// begin with 0, and go on with one more than you were told; so do the two looks that follow.
    pub fn hullpippin_live_next_process(live: *mut hullpippin_live, from: u64, place: *mut u64) -> bool;

    /// The least handle, `from` or above it, that names something for the live process with this pid. The engine looks
    /// at each handle from `from` up to that one.
    pub fn hullpippin_live_next_handle(live: *mut hullpippin_live, pid: u32, from: u32, handle: *mut u32) -> bool;

    /// The first live buffer of a process, whose name is the place of its open, at the place `from` or behind it: its
    /// place.
    pub fn hullpippin_live_next_buffer(live: *mut hullpippin_live, process: u64, from: u64, made: *mut u64) -> bool;

    /// Reads the command at the head of a stream. Answers 0, or the number of the fault by which none is there, F1 to
    /// F3, and then `command` stays as it was. It doesn't look at what comes behind the command.
    pub fn hullpippin_next_command(stream: *const u8, stream_size: usize, command: *mut hullpippin_command) -> u32;

    /// Reads the return at the head of a stream. Answers 0, or the number of the fault by which none is there, F1 or
    /// F2, and then `returned` stays as it was. It doesn't look at what comes behind the return: the next one begins
    /// `size` bytes on.
    pub fn hullpippin_next_return(stream: *const u8, stream_size: usize, returned: *mut hullpippin_return) -> u32;

    /// Copies the bytes of a command to `out`, if all of them fit in `room` bytes, and else nothing. Answers how many
    /// it has, at most 68, and 0 where no command has this code.
    pub fn hullpippin_spell_command(command: *const hullpippin_command, out: *mut u8, room: usize) -> usize;

    /// The same of a return.
    pub fn hullpippin_spell_return(returned: *const hullpippin_return, out: *mut u8, room: usize) -> usize;

    /// Tells the next object of a parcel, and takes the walk behind it. It is false where there is none: at the end,
    /// where the walk's `cause` is 0; and where the engine would refuse a transaction with this parcel. Then `cause` is
    /// the number of the cause: X8 if the offsets are no whole numbers of 8 bytes; X9 if the next one is no multiple of
    /// 4, lies before the end of the object before it, lacks some of its 24 bytes, or leads to no known type; X10 if it
    /// leads to the type of what the engine doesn't support. `object` stays as it was then, and a later call finds the
    /// same.
    pub fn hullpippin_next_object(
        data: *const u8,
        data_size: usize,
        offsets: *const u8,
        offsets_size: usize,
        walk: *mut hullpippin_walk,
        object: *mut hullpippin_flat_object,
    ) -> bool;

    /// Writes an object over the 24 bytes from its `start` on. Answers 0, or the number of the cause by which a walk
    /// would refuse it there, X9 or X10, and then the data stays as it was.
    pub fn hullpippin_put_object(object: *const hullpippin_flat_object, data: *mut u8, data_size: usize) -> u32;

    /// Lays out the parcel of a transaction or reply: its data, its offsets, the buffers as their sender has put them
    /// one behind the other, each up to a multiple of 8, and how many descriptors came with it. Tells in `layout` how
    /// much there is of what goes on, of the places of known objects, and of fix-ups; each of these is copied if all of
    /// it fits, and else none of it. A PTR object's word of where its buffer lies, and the numbers of descriptors,
    /// aren't looked at. Also NO_MEMORY, and NO_SUCH_REQUEST, where the buffers or descriptors are 4294967296 or more.
    pub fn hullpippin_lay_out(
        data: *const u8,
        data_size: usize,
        offsets: *const u8,
        offsets_size: usize,
        buffers: *const u8,
        buffers_size: usize,
        descriptors: usize,
        out: *mut u8,
        room: usize,
        known: *mut u64,
        known_room: usize,
        fixups: *mut hullpippin_fixup,
        fixups_room: usize,
        layout: *mut hullpippin_layout,
    ) -> u32;

    /// Writes a fix-up into a parcel of `size` bytes, as it comes from the engine, whose receiver sees its first byte
    /// at `base`: an address, or -1 for each descriptor. False where it is none, or doesn't lie within the parcel, and
    /// then nothing is written.
    pub fn hullpippin_put_fixup(fixup: *const hullpippin_fixup, parcel: *mut u8, size: usize, base: u64) -> bool;

    /// Tells what is to be copied of a client's area of so many bytes, which takes as many bytes at most, for a parcel
    /// of so many objects at most. False where it isn't all inside of the area, or has more objects, or a room for
    /// buffers that is no multiple of 8; then `parts` stays.
    pub fn hullpippin_parcel_parts(
        asked: *const hullpippin_asked,
        area: u32,
        objects: u32,
        parts: *mut hullpippin_parts,
    ) -> bool;

    /// Tells which way a parcel goes, of which the engine may know `most` objects. `tells` isn't 0 where it is sent
    /// under another effective uid than the engine tells of its process.
    pub fn hullpippin_parcel_way(
        data: *const u8,
        data_size: usize,
        offsets: *const u8,
        offsets_size: usize,
        most: usize,
        tells: u32,
    ) -> u32;

    /// Puts zeros behind the first `laid` bytes, as far as the parcel's room for buffers goes, and the trailer behind
    /// these. How much there is then. 0 where `room` is too small, or the trailer tells of less than was laid out, or
    /// of 4294967296 bytes; and nothing is written.
    pub fn hullpippin_put_trailer(out: *mut u8, room: usize, laid: usize, trailer: *const hullpippin_trailer) -> usize;

    /// Tells the trailer of data, as the engine has them, with the offsets of the objects that it knows. False where
    /// they have none, and then `trailer` stays.
    pub fn hullpippin_find_trailer(
        data: *const u8,
        data_size: usize,
        offsets: *const u8,
        offsets_size: usize,
        trailer: *mut hullpippin_trailer,
    ) -> bool;

    /// Makes tickets: none is on its way. `tickets` is empty, and stays so unless the answer is DONE. Also NO_MEMORY,
    /// MISUSE.
    pub fn hullpippin_tickets_new(tickets: *mut hullpippin_tickets) -> u32;

    /// A parcel with these numbers goes on its way, by the step at a place. Also MISUSE; WAITING, where one of that
    /// step is on its way; and NO_MEMORY: in each case none of them is on its way by that, and all others are as
    /// before.
    pub fn hullpippin_tickets_put(
        tickets: *mut hullpippin_tickets,
        step: u64,
        numbers: *const u32,
        count: usize,
    ) -> u32;

    /// Tells in `count` how many go with the parcel of a step, and hands them out to `out` if all of them fit in `room`
    /// numbers: they are on their way no more then. Else they stay, and `out` stays as it was. False where no parcel of
    /// that step is on its way. Takes no memory.
    pub fn hullpippin_tickets_take(
        tickets: *mut hullpippin_tickets,
        step: u64,
        out: *mut u32,
        room: usize,
        count: *mut usize,
    ) -> bool;

    /// Tells the place of a step whose parcel is on its way, of all of them any one: to take all, as at an end, take
    /// each until there is none. False where none is on its way. Takes no memory, and some time where few are.
    pub fn hullpippin_tickets_some_step(tickets: *mut hullpippin_tickets, step: *mut u64) -> bool;

    /// How many of the descriptors that came with a request are its own: all of them, as many as it says, or none; the
    /// others are closed then. `is_whole` isn't 0 where they came in one piece, and `is_run` where it is run. Needs no
    /// tickets.
    pub fn hullpippin_descriptors_kept(wanted: u32, came: u32, is_whole: u32, is_run: u32) -> u32;

    /// Lets go of tickets, and empties the handle: whatever is still on its way is nobody's then. Does nothing where it
    /// is empty.
    pub fn hullpippin_free_tickets(tickets: *mut hullpippin_tickets);

    /// A command of the thread was run, HULLPIPPIN_SENT_CALL .., with `stop` and `number` of its answer.
    pub fn hullpippin_reader_sent(reader: *mut hullpippin_reader, kind: u32, stop: u32, number: u32);

    /// The thread has read these returns, as an engine's read gives them: the last of them is BR_TRANSACTION or
    /// BR_REPLY, if one is. Tells where that one begins, or else where they end.
    pub fn hullpippin_reader_read(reader: *mut hullpippin_reader, returns: *const u8, size: usize) -> usize;

    /// The thread is told so many of its returns as a read with so much room has room for: one more while 76 bytes are
    /// left.
    pub fn hullpippin_reader_told(
        reader: *mut hullpippin_reader,
        returns: *const u8,
        size: usize,
        room: u32,
        told: *mut hullpippin_returns_told,
    );

    /// A read of the thread is answered. `is_left` isn't 0 where it has read more than it is told, `is_ready` where the
    /// engine has more for it.
    pub fn hullpippin_reader_delivered(reader: *mut hullpippin_reader, is_left: u32, is_ready: u32);

    /// Tells what is so of the thread.
    pub fn hullpippin_reader_facts(
        reader: *const hullpippin_reader,
        pending: *const hullpippin_pending,
        facts: *mut hullpippin_facts,
    );

    /// One of these alone: `is_there`; `is_whole`; and `limit`, or 0 where its read has no room.
    pub fn hullpippin_reader_is_there(reader: *const hullpippin_reader, pending: *const hullpippin_pending) -> bool;

    /// One of these alone: `is_there`; `is_whole`; and `limit`, or 0 where its read has no room.
    pub fn hullpippin_reader_is_whole(reader: *const hullpippin_reader, pending: *const hullpippin_pending) -> bool;

    /// One of these alone: `is_there`; `is_whole`; and `limit`, or 0 where its read has no room.
    pub fn hullpippin_reader_limit(reader: *const hullpippin_reader, pending: *const hullpippin_pending) -> u32;

    /// The thread waits differently from now on. Take it off its process's list first. The answer says where it goes on
    /// that list now, and `calls` has what to tell the bridge. `has_own` isn't 0 if the thread has something of its own
    /// to read (hullpippin_live_unread_of_thread); ask that only of a thread with a doorbell. `is_alone` isn't 0 if
    /// nobody else is on the list, `is_ending` if the process ends.
    pub fn hullpippin_waits_note(
        waits: *mut hullpippin_waits,
        facts: *const hullpippin_facts,
        calling: u32,
        has_own: u32,
        is_alone: u32,
        is_ending: u32,
    ) -> u32;

    /// Whether the first thread on a process's list becomes the one that the bridge knows. `is_same` isn't 0 if it
    /// already is.
    pub fn hullpippin_waits_herald_changes(is_same: u32, is_ending: u32) -> bool;

    /// The thread is the one that the bridge knows from now on.
    pub fn hullpippin_waits_take_over(
        waits: *mut hullpippin_waits,
        facts: *const hullpippin_facts,
        calling: u32,
        has_own: u32,
    );

    /// Another thread is the one from now on. If this one has something of its own, it leaves the list, and the bridge
    /// goes on knowing it: `is_idle` is false.
    pub fn hullpippin_waits_hand_over(waits: *mut hullpippin_waits, has_own: u32);

    /// The bridge is told of the thread anew, as if it knew nothing of it.
    pub fn hullpippin_waits_tell_anew(
        waits: *mut hullpippin_waits,
        facts: *const hullpippin_facts,
        calling: u32,
        has_own: u32,
    );

    /// Whether the thread's doorbell should ring. `all_ring` isn't 0 if the bell of its process's first idle thread
    /// rings, `is_there` if the thread's read has an answer.
    pub fn hullpippin_waits_ring(waits: *const hullpippin_waits, all_ring: u32, is_there: u32) -> bool;

    /// What to do with a thread for which the engine was read (HULLPIPPIN_TOOK_SOMETHING and its like). The others
    /// aren't 0 if: the bridge has woken the thread (`wakes`), its reader's `is_behind` is set, it has nothing to be
    /// told (`is_empty`), a thread of its process polls (`somebody_polls`).
    pub fn hullpippin_waits_taken(outcome: u32, wakes: u32, is_behind: u32, is_empty: u32, somebody_polls: u32) -> u32;

    /// What to do with a thread to which another thread's read has brought something. `is_whole` is that of its facts.
    pub fn hullpippin_waits_touched(waits: *const hullpippin_waits, is_whole: u32, somebody_polls: u32) -> u32;

    /// What to do when the bridge says that a thread's doorbell rings, or is silent: HULLPIPPIN_HEARD_RINGS and its
    /// like.
    pub fn hullpippin_waits_heard(
        waits: *const hullpippin_waits,
        facts: *const hullpippin_facts,
        rings: u32,
        is_there: u32,
    ) -> u32;

    /// Whether the thread's read, which may have an answer by now, is answered.
    pub fn hullpippin_waits_answered(waits: *const hullpippin_waits, is_there: u32) -> bool;

    /// How a thread's read begins. `size` is how many bytes of returns it has read and wasn't told. `is_there` isn't 0
    /// if these, or what its process has taken back, answer the read; `may_wait` if the read may wait; `is_to_return`
    /// if it has to come back at once.
    pub fn hullpippin_read_begins(
        reader: *const hullpippin_reader,
        size: u32,
        is_there: u32,
        may_wait: u32,
        is_to_return: u32,
    ) -> u32;

    /// How a request ends: HULLPIPPIN_REQUEST_RESTS and its like.
    pub fn hullpippin_request_ends(ending: *const hullpippin_ending) -> u32;

    /// The same. `why` is 1 if a signal has come, 2 if the read has to come back; any other number does nothing.
    pub fn hullpippin_request_cancels(is_reading: u32, why: u32) -> u32;

    /// Whether the thread is told of that notification next.
    pub fn hullpippin_cleared_next(cleared: *const hullpippin_cleared, facts: *const hullpippin_facts) -> bool;

    /// Whether the thread's read has an answer, be it that notification.
    pub fn hullpippin_cleared_there(cleared: *const hullpippin_cleared, facts: *const hullpippin_facts) -> bool;

    /// The same, by one item of the thread's list. Ask for each `index` from 0; `is_item` isn't 0 if there is such an
    /// item, and `kind` is its kind.
    pub fn hullpippin_cleared_unread(is_item: u32, kind: u32, index: usize) -> u32;

    /// The first code of a read's answer: BR_NOOP or BR_SPAWN_LOOPER, or 0 if `room` is too small for either.
    /// `is_looper` isn't 0 if the thread is in the loop, `somebody_waits` if another thread of its process waits in a
    /// read for what comes to the process.
    pub fn hullpippin_loopers_answer(
        loopers: *mut hullpippin_loopers,
        room: u32,
        is_looper: u32,
        somebody_waits: u32,
    ) -> u32;

    /// A thread has run the command with this code: BC_REGISTER_LOOPER, BC_ENTER_LOOPER or BC_EXIT_LOOPER.
    pub fn hullpippin_loopers_attach(loopers: *mut hullpippin_loopers, code: u32);

    /// Whether a thread that runs such a command is in the loop afterwards.
    pub fn hullpippin_loopers_enter(code: u32) -> bool;

    /// Makes rings: no number is anybody's. `rings` is empty, and stays so unless the answer is DONE. Also NO_MEMORY,
    /// MISUSE.
    pub fn hullpippin_rings_new(rings: *mut hullpippin_rings) -> u32;

    /// Tells a number that nobody has, which is the caller's from then on: nobody stands in its ring, and it stands in
    /// none. They are counted from 0, and what was given back comes first. Also NO_MEMORY, where there is no such
    /// number either, and MISUSE; then `number` stays as it was.
    pub fn hullpippin_rings_add(rings: *mut hullpippin_rings, number: *mut u32) -> u32;

    /// Gives a number back, which leaves its ring. False where it is nobody's, or anybody stands in its own ring; then
    /// all is as before.
    pub fn hullpippin_rings_remove(rings: *mut hullpippin_rings, number: u32) -> bool;

    /// One wants a turn in a ring, behind all others there. False where it stands in a ring already, or one of the two
    /// numbers is nobody's; then all is as before.
    pub fn hullpippin_rings_enter(rings: *mut hullpippin_rings, ring: u32, one: u32) -> bool;

    /// One wants no turn any more. Does nothing where it stands in no ring.
    pub fn hullpippin_rings_leave(rings: *mut hullpippin_rings, one: u32);

    /// Tells whose turn it is in a ring. False where nobody stands there, and then `one` stays as it was.
    pub fn hullpippin_rings_first(rings: *mut hullpippin_rings, ring: u32, one: *mut u32) -> bool;

    /// The same; and that one has it, and stands there no more.
    pub fn hullpippin_rings_take(rings: *mut hullpippin_rings, ring: u32, one: *mut u32) -> bool;

    /// Whose turn it would be in a ring is passed over, and goes behind all others. False where nobody stands there.
    pub fn hullpippin_rings_pass(rings: *mut hullpippin_rings, ring: u32) -> bool;

    /// Lets go of rings, and empties the handle. Does nothing where it is empty.
    pub fn hullpippin_free_rings(rings: *mut hullpippin_rings);

    /// Makes sendings: nothing is known to be sent. `sendings` is empty, and stays so unless the answer is DONE. Also
    /// NO_MEMORY, MISUSE.
    pub fn hullpippin_sendings_new(sendings: *mut hullpippin_sendings) -> u32;

    /// The objects of a parcel are sent, in the order of their offsets, by the bytes that the engine got.
    pub fn hullpippin_sendings_note(
        sendings: *mut hullpippin_sendings,
        sending: *const hullpippin_sending,
        data: *const u8,
        data_size: usize,
        offsets: *const u8,
        offsets_size: usize,
    );

    /// A thread has read that all was taken that it has sent, or sends nothing more: nothing of that is known from then
    /// on. Tells whether nothing of anybody's is.
    pub fn hullpippin_sendings_end(sendings: *mut hullpippin_sendings, thread: u32) -> bool;

    /// Who is told what the engine tells a thread of the object with a ptr: another thread, or this one.
    pub fn hullpippin_sendings_told(sendings: *mut hullpippin_sendings, thread: u32, ptr: u64) -> u32;

    /// How many objects are known to be sent.
    pub fn hullpippin_sendings_count(sendings: *mut hullpippin_sendings) -> usize;

    /// Tells who has sent the object at an index below that, where another thread has, and this one is told of it.
    /// False where it isn't so, and then `sender` stays as it was.
    pub fn hullpippin_sendings_sender(
        sendings: *mut hullpippin_sendings,
        thread: u32,
        index: usize,
        sender: *mut u32,
    ) -> bool;

    /// Whether what a thread is told of the object with a ptr goes before what it is told of another: it has sent both,
    /// and that one later.
    pub fn hullpippin_sendings_before(sendings: *mut hullpippin_sendings, thread: u32, ptr: u64, other: u64) -> bool;

    /// Lets go of sendings, and empties the handle. Does nothing where it is empty.
    pub fn hullpippin_free_sendings(sendings: *mut hullpippin_sendings);
}
