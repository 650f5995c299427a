// SPDX-License-Identifier: Apache-2.0 OR MIT
//! Certificates: what is so of the history whose journal some bytes are.
use crate::status::{checked, Error};
use hullpippin_sys as sys;

/// A one-way call on an object, by places of steps.
#[derive(Clone, Copy, Debug, PartialEq, Eq)]
pub struct Turn {
    /// The place of its BC_TRANSACTION.
    pub made: u32,
    /// The place of the read that got its BR_TRANSACTION.
    pub handed: Option<u32>,
    /// The place of the step with which its buffer ended.
    pub ended: Option<u32>,
}

/// How what a handle names in the end came to the live process with this pid: the places of the gifts, rising, the first one by the
/// object's owner. None where there is no such process, or it has no such handle.
///
/// # Errors
/// [`Error::NoJournal`], [`Error::Unlawful`] where its entries aren't a history, [`Error::NoMemory`].
///
/// ```
/// use hullpippin::{chain_of, Driver, Error};
///
/// let journal = Driver::new(1)?.finish()?.journal()?;
/// assert_eq!(chain_of(&journal, 100, 1)?, []);
/// assert_eq!(chain_of(b"no journal", 100, 1), Err(Error::NoJournal));
/// # Ok::<(), Error>(())
/// ```
pub fn chain_of(journal: &[u8], pid: u32, handle: u32) -> Result<Vec<u32>, Error> {
    all_of(|out: &mut [u32], count| {
        // SAFETY: the slices' pointers aren't null, and they live until the call is back.
        unsafe { sys::hullpippin_chain(journal.as_ptr(), journal.len(), pid, handle, out.as_mut_ptr(), out.len(), count) }
    })
}

/// Which call is answered by the reply that the read at a place got, by the place of its BC_TRANSACTION.
///
/// # Errors
/// As [`chain_of`].
pub fn call_of_reply(journal: &[u8], place: u32) -> Result<Option<u32>, Error> {
    let mut call = 0;
    // SAFETY: the slice's pointer isn't null, and it lives until the call is back.
    checked(unsafe { sys::hullpippin_call_of_reply(journal.as_ptr(), journal.len(), place, &mut call) })?;
    Ok(place_of(call))
}

/// The one-way calls on an object, in the order in which they were made. The object is the one that the step at `place` made, or of
/// several the one of this index, from 0.
///
/// # Errors
/// As [`chain_of`].
pub fn turns_of(journal: &[u8], place: u32, index: u32) -> Result<Vec<Turn>, Error> {
    let turns = all_of(|out: &mut [sys::hullpippin_turn], count| {
        // SAFETY: the slices' pointers aren't null, and they live until the call is back.
        unsafe { sys::hullpippin_turns(journal.as_ptr(), journal.len(), place, index, out.as_mut_ptr(), out.len(), count) }
    })?;
    Ok(turns.into_iter().map(|it| Turn { made: it.made, handed: place_of(it.handed), ended: place_of(it.ended) }).collect())
}

fn place_of(told: u32) -> Option<u32> {
    if told == sys::HULLPIPPIN_NO_PLACE {
        None
    } else {
        Some(told)
    }
}

// All that a call tells, which is made again where there was too little room.
fn all_of<T: Clone + Default>(mut call: impl FnMut(&mut [T], &mut usize) -> u32) -> Result<Vec<T>, Error> {
    let mut out = vec![T::default(); 64];
    let mut count = 0;
    checked(call(&mut out, &mut count))?;
    if count > out.len() {
        out.resize(count, T::default());
        checked(call(&mut out, &mut count))?;
    }
    out.truncate(count);
    Ok(out)
}
