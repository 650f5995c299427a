// SPDX-License-Identifier: Apache-2.0 OR MIT
//! Whose turn it is, among those that share something.
use crate::status::checked;
use crate::Error;
use hullpippin_sys as sys;
use std::fmt;

/// Rings: each that wants turns is known by a number, which is of a ring too, of those below it. From when one comes into a ring until it has its
/// turn there, each other has one at most, and one more for each time that the one was passed over.
///
/// ```
/// use hullpippin::Rings;
///
/// # fn main() -> Result<(), hullpippin::Error> {
/// let mut rings = Rings::new()?;
/// let (all, one, two) = (rings.add()?, rings.add()?, rings.add()?);
/// assert!(rings.enter(all, one) && rings.enter(all, two));
/// rings.pass(all);
/// assert_eq!(rings.take(all), Some(two));
/// assert_eq!(rings.first(all), Some(one));
/// rings.leave(one);
/// assert_eq!(rings.take(all), None);
/// # Ok(())
/// # }
/// ```
pub struct Rings {
    handle: sys::hullpippin_rings,
}

// The library proves that what is behind a handle may go to another thread.
unsafe impl Send for Rings {}

impl Rings {
    /// No number is anybody's.
    pub fn new() -> Result<Rings, Error> {
        let mut handle = sys::hullpippin_rings::NONE;
        // SAFETY: the handle is empty.
        checked(unsafe { sys::hullpippin_rings_new(&mut handle) })?;
        Ok(Rings { handle })
    }

    /// A number that nobody has: nobody stands in its ring, and it stands in none.
    pub fn add(&mut self) -> Result<u32, Error> {
        let mut number = 0;
        // SAFETY: here and in what follows the handle has rings until it is let go of.
        checked(unsafe { sys::hullpippin_rings_add(&mut self.handle, &mut number) })?;
        Ok(number)
    }

    /// Gives a number back, which leaves its ring. False where it is nobody's, or anybody stands in its own ring.
    pub fn remove(&mut self, number: u32) -> bool {
        unsafe { sys::hullpippin_rings_remove(&mut self.handle, number) }
    }

    /// One wants a turn in a ring, behind all others there. False where it stands in a ring already, or one of the two numbers is nobody's.
    pub fn enter(&mut self, ring: u32, one: u32) -> bool {
        unsafe { sys::hullpippin_rings_enter(&mut self.handle, ring, one) }
    }

    /// One wants no turn any more.
    pub fn leave(&mut self, one: u32) {
        unsafe { sys::hullpippin_rings_leave(&mut self.handle, one) }
    }

    /// Whose turn it is in a ring.
    pub fn first(&mut self, ring: u32) -> Option<u32> {
        let mut one = 0;
        unsafe { sys::hullpippin_rings_first(&mut self.handle, ring, &mut one) }.then_some(one)
    }

    /// Whose turn it is in a ring: that one has it, and stands there no more.
    pub fn take(&mut self, ring: u32) -> Option<u32> {
        let mut one = 0;
        unsafe { sys::hullpippin_rings_take(&mut self.handle, ring, &mut one) }.then_some(one)
    }

    /// Whose turn it would be in a ring is passed over, and goes behind all others. False where nobody stands there.
    pub fn pass(&mut self, ring: u32) -> bool {
        unsafe { sys::hullpippin_rings_pass(&mut self.handle, ring) }
    }
}

impl fmt::Debug for Rings {
    fn fmt(&self, f: &mut fmt::Formatter<'_>) -> fmt::Result {
        f.debug_struct("Rings").finish_non_exhaustive()
    }
}

impl Drop for Rings {
    fn drop(&mut self) {
        // SAFETY: the handle has rings.
        unsafe { sys::hullpippin_free_rings(&mut self.handle) }
    }
}
