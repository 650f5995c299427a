// SPDX-License-Identifier: Apache-2.0 OR MIT
//! Descriptors that are on their way beside an engine.
use crate::status::checked;
use crate::Error;
use hullpippin_sys as sys;
use std::fmt;

/// The descriptors that go with parcels beside an engine, which knows of none: each by a number of the caller's, named by the place of the
/// step that sends their parcel, which is `place` of what was made. None is lost, and none comes back twice.
///
/// ```
/// use hullpippin::Tickets;
///
/// # fn main() -> Result<(), hullpippin::Error> {
/// let mut tickets = Tickets::new()?;
/// tickets.put(3, &[7, 8])?;
/// assert_eq!(tickets.some_step(), Some(3));
/// assert_eq!(tickets.take(3), Some(vec![7, 8]));
/// assert_eq!(tickets.take(3), None);
/// # Ok(())
/// # }
/// ```
pub struct Tickets {
    handle: sys::hullpippin_tickets,
}

// The library proves that what is behind a handle may go to another thread.
unsafe impl Send for Tickets {}

impl Tickets {
    /// None is on its way.
    pub fn new() -> Result<Tickets, Error> {
        let mut handle = sys::hullpippin_tickets::NONE;
        // SAFETY: the handle is empty.
        checked(unsafe { sys::hullpippin_tickets_new(&mut handle) })?;
        Ok(Tickets { handle })
    }

    /// A parcel with these goes on its way, by the step at a place. On an error none of them does, and all others are as before: `Waiting`, where a
    /// parcel of that step is on its way, or `NoMemory`.
    pub fn put(&mut self, step: u64, numbers: &[u32]) -> Result<(), Error> {
        // SAFETY: here and in what follows the handle has tickets until it is let go of.
        checked(unsafe { sys::hullpippin_tickets_put(&mut self.handle, step, numbers.as_ptr(), numbers.len()) })
    }

    /// Those of a step's parcel, which are on their way no more: to be sent on, or closed.
    pub fn take(&mut self, step: u64) -> Option<Vec<u32>> {
        let (mut numbers, mut count) = (Vec::new(), 0);
        loop {
            let (out, room) = (numbers.as_mut_ptr(), numbers.len());
            if !unsafe { sys::hullpippin_tickets_take(&mut self.handle, step, out, room, &mut count) } {
                return None;
            }
            if count <= room {
                return Some(numbers);
            }
            numbers.resize(count, 0);
        }
    }

    /// The place of a step whose parcel is on its way, of all of them any one.
    pub fn some_step(&mut self) -> Option<u64> {
        let mut step = 0;
        unsafe { sys::hullpippin_tickets_some_step(&mut self.handle, &mut step) }.then_some(step)
    }
}

impl fmt::Debug for Tickets {
    fn fmt(&self, f: &mut fmt::Formatter<'_>) -> fmt::Result {
        f.debug_struct("Tickets").finish_non_exhaustive()
    }
}

impl Drop for Tickets {
    fn drop(&mut self) {
        // SAFETY: the handle has tickets.
        unsafe { sys::hullpippin_free_tickets(&mut self.handle) }
    }
}
