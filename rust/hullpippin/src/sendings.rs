// SPDX-License-Identifier: Apache-2.0 OR MIT
//! Whom of a process it is told of the objects that its threads send.
use crate::status::checked;
use crate::Error;
use hullpippin_sys as sys;
use std::fmt;

/// A call or reply that was taken. Threads and receivers are numbers of the caller's.
#[derive(Clone, Copy, Debug, PartialEq, Eq)]
pub struct Sending {
    /// The place of its step.
    pub step: u64,
    /// The thread that sends it.
    pub sender: u32,
    /// The process that it goes to; 0: it isn't known.
    pub receiver: u32,
    /// How often that one has let go of what may have carried objects.
    pub let_go: u32,
}

/// What the threads of a process have sent without having read yet that it was taken, as far as there is room: 32 objects of a thread, 512 of all.
/// What isn't known is told by the rules.
///
/// ```
/// use hullpippin::{Sending, Sendings};
///
/// # fn main() -> Result<(), hullpippin::Error> {
/// let mut object = [0; 24];
/// object[..4].copy_from_slice(&0x73622a85_u32.to_le_bytes());
/// object[8] = 5;
/// let mut sendings = Sendings::new()?;
/// sendings.note(&Sending { step: 1, sender: 1, receiver: 9, let_go: 0 }, &object, &[0; 8]);
/// sendings.note(&Sending { step: 2, sender: 2, receiver: 9, let_go: 0 }, &object, &[0; 8]);
/// assert_eq!(sendings.told(2, 5), 1);
/// assert_eq!(sendings.senders_for(1), [2]);
/// assert!(!sendings.end(1) && sendings.end(2));
/// # Ok(())
/// # }
/// ```
pub struct Sendings {
    handle: sys::hullpippin_sendings,
}

// The library proves that what is behind a handle may go to another thread.
unsafe impl Send for Sendings {}

impl Sendings {
    /// Nothing is known to be sent.
    pub fn new() -> Result<Sendings, Error> {
        let mut handle = sys::hullpippin_sendings::NONE;
        // SAFETY: the handle is empty.
        checked(unsafe { sys::hullpippin_sendings_new(&mut handle) })?;
        Ok(Sendings { handle })
    }

    /// The objects of a parcel are sent, in the order of their offsets, by the bytes that the engine got.
    pub fn note(&mut self, sending: &Sending, data: &[u8], offsets: &[u8]) {
        let Sending { step, sender, receiver, let_go } = *sending;
        let given = sys::hullpippin_sending { step, sender, receiver, let_go };
        // SAFETY: here and in what follows the handle has sendings until it is let go of.
        unsafe {
            sys::hullpippin_sendings_note(&mut self.handle, &given, data.as_ptr(), data.len(), offsets.as_ptr(), offsets.len())
        }
    }

    /// A thread has read that all was taken that it has sent: nothing of that is known from then on. Whether nothing of anybody's is.
    pub fn end(&mut self, thread: u32) -> bool {
        unsafe { sys::hullpippin_sendings_end(&mut self.handle, thread) }
    }

    /// Who is told what the engine tells a thread of an object: another thread, or this one.
    pub fn told(&mut self, thread: u32, ptr: u64) -> u32 {
        unsafe { sys::hullpippin_sendings_told(&mut self.handle, thread, ptr) }
    }

    /// Who else has sent objects of which the thread is told: a thread for each object.
    pub fn senders_for(&mut self, thread: u32) -> Vec<u32> {
        let count = unsafe { sys::hullpippin_sendings_count(&mut self.handle) };
        let tells = |index| {
            let mut sender = 0;
            unsafe { sys::hullpippin_sendings_sender(&mut self.handle, thread, index, &mut sender) }.then_some(sender)
        };
        (0..count).filter_map(tells).collect()
    }

    /// Whether what a thread is told of an object goes before what it is told of another: it has sent both, and that one later.
    pub fn is_before(&mut self, thread: u32, ptr: u64, other: u64) -> bool {
        unsafe { sys::hullpippin_sendings_before(&mut self.handle, thread, ptr, other) }
    }
}

impl fmt::Debug for Sendings {
    fn fmt(&self, f: &mut fmt::Formatter<'_>) -> fmt::Result {
        f.debug_struct("Sendings").finish_non_exhaustive()
    }
}

impl Drop for Sendings {
    fn drop(&mut self) {
        // SAFETY: the handle has sendings.
        unsafe { sys::hullpippin_free_sendings(&mut self.handle) }
    }
}
