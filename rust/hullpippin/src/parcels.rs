// SPDX-License-Identifier: Apache-2.0 OR MIT
//! Parcels: data, and the objects in it, which the library writes and finds.
use crate::answers::cause;
use crate::{Cause, TransactionData};
use hullpippin_sys as sys;
use std::fmt;

/// What an object in a parcel is.
#[derive(Clone, Copy, Debug, PartialEq, Eq, Hash)]
pub enum ObjectKind {
    /// An object of the sender's own.
    Binder,
    /// An object of the sender's own, of which only a weak reference is handed out.
    WeakBinder,
    /// What the sender has under a handle.
    Handle,
    /// What the sender has under a handle, of which only a weak reference is handed out.
    WeakHandle,
}

impl ObjectKind {
    /// The number with which the bytes of such an object begin, as the Linux header has it.
    pub fn number(self) -> u32 {
        match self {
            ObjectKind::Binder => sys::HULLPIPPIN_TYPE_BINDER,
            ObjectKind::WeakBinder => sys::HULLPIPPIN_TYPE_WEAK_BINDER,
            ObjectKind::Handle => sys::HULLPIPPIN_TYPE_HANDLE,
            ObjectKind::WeakHandle => sys::HULLPIPPIN_TYPE_WEAK_HANDLE,
        }
    }

    /// The kind with this number, if one has it.
    pub fn from_number(number: u32) -> Option<ObjectKind> {
        [ObjectKind::Binder, ObjectKind::WeakBinder, ObjectKind::Handle, ObjectKind::WeakHandle]
            .into_iter()
            .find(|kind| kind.number() == number)
    }
}

/// An object in a parcel, 24 bytes (`struct flat_binder_object`).
#[derive(Clone, Copy, Debug, PartialEq, Eq, Hash)]
pub struct FlatObject {
    /// Whose object it is, and how it is referred to.
    pub kind: ObjectKind,
    /// Flags, which are handed on as they are.
    pub flags: u32,
    /// The ptr of an own object, or a handle in its low 32 bits.
    pub binder: u64,
    /// The cookie of an own object.
    pub cookie: u64,
}

impl FlatObject {
    /// How many bytes an object has in a parcel.
    pub const SIZE: usize = 24;

    /// An object of the sender's own.
    pub fn binder(ptr: u64, cookie: u64) -> FlatObject {
        FlatObject { kind: ObjectKind::Binder, flags: 0, binder: ptr, cookie }
    }

    /// What the sender has under a handle.
    pub fn handle(handle: u32) -> FlatObject {
        FlatObject { kind: ObjectKind::Handle, flags: 0, binder: handle.into(), cookie: 0 }
    }

    /// The object as the 24 bytes that stand in a parcel.
    pub fn to_bytes(&self) -> [u8; FlatObject::SIZE] {
        let FlatObject { kind, flags, binder, cookie } = *self;
        let object = sys::hullpippin_flat_object { kind: kind.number(), flags, binder, cookie, start: 0 };
        let mut bytes = [0; FlatObject::SIZE];
        // SAFETY: the bytes are so many.
        let number = unsafe { sys::hullpippin_put_object(&object, bytes.as_mut_ptr(), bytes.len()) };
        debug_assert_eq!(number, 0);
        bytes
    }

    /// The object that bytes begin with, where it is one of these kinds.
    pub fn from_bytes(bytes: &[u8]) -> Option<FlatObject> {
        Objects::of(bytes, &[0; 8]).next()?.ok().map(|(_, object)| object)
    }

    /// The object that the library tells.
    fn told(told: &sys::hullpippin_flat_object) -> FlatObject {
        let kind =
            ObjectKind::from_number(told.kind).unwrap_or_else(|| panic!("the library tells type {:#x}", told.kind));
        FlatObject { kind, flags: told.flags, binder: told.binder, cookie: told.cookie }
    }
}

/// Why a parcel is refused, and which of its offsets it is refused for.
#[derive(Clone, Copy, Debug, PartialEq, Eq, Hash)]
pub struct BadParcel {
    /// The cause by which a transaction with this parcel is refused.
    pub cause: Cause,
    /// Which offset, from 0; of [`Cause::OffsetsSize`] none is meant.
    pub index: usize,
}

impl fmt::Display for BadParcel {
    fn fmt(&self, f: &mut fmt::Formatter<'_>) -> fmt::Result {
        match self.cause {
            Cause::OffsetsSize => self.cause.fmt(f),
            _ => write!(f, "offset {}: {}", self.index, self.cause),
        }
    }
}

impl std::error::Error for BadParcel {}

/// The objects of a parcel, one by one, each with the place where it begins in the data. Behind a refusal it ends.
///
/// ```
/// use hullpippin::{BadParcel, Cause, FlatObject, Objects};
/// let data = FlatObject::handle(7).to_bytes();
/// let objects: Result<Vec<_>, _> = Objects::of(&data, &[0; 8]).collect();
/// assert_eq!(objects, Ok(vec![(0, FlatObject::handle(7))]));
/// let refused = Objects::of(&data, &[0; 16]).last();
/// assert_eq!(refused, Some(Err(BadParcel { cause: Cause::BadObject, index: 1 })));
/// ```
#[derive(Clone, Debug)]
pub struct Objects<'a> {
    data: &'a [u8],
    offsets: &'a [u8],
    walk: sys::hullpippin_walk,
}

impl<'a> Objects<'a> {
    /// The objects of a parcel, such as that of [`Answer::Got`](crate::Answer::Got).
    pub fn of(data: &'a [u8], offsets: &'a [u8]) -> Objects<'a> {
        Objects { data, offsets, walk: sys::hullpippin_walk::default() }
    }
}

impl Iterator for Objects<'_> {
    type Item = Result<(usize, FlatObject), BadParcel>;

    fn next(&mut self) -> Option<Self::Item> {
        if self.walk.cause != 0 {
            return None;
        }
        let (data, offsets) = (self.data, self.offsets);
        let mut told = sys::hullpippin_flat_object::default();
        // SAFETY: a slice's pointer isn't null, and the bytes are so many.
        let found = unsafe {
            sys::hullpippin_next_object(
                data.as_ptr(),
                data.len(),
                offsets.as_ptr(),
                offsets.len(),
                &mut self.walk,
                &mut told,
            )
        };
        match self.walk.cause {
            _ if found => Some(Ok((told.start, FlatObject::told(&told)))),
            0 => None,
            number => Some(Err(BadParcel { cause: cause(number), index: self.walk.index })),
        }
    }
}

/// What a transaction or a reply carries: data, and where in it objects stand.
///
/// ```
/// use hullpippin::{FlatObject, Parcel};
/// let mut parcel = Parcel::from(&b"hi"[..]);
/// parcel.push(FlatObject::binder(0x1000, 0x20));
/// assert_eq!((parcel.data().len(), parcel.offsets()), (8 + 24, &[8][..]));
/// ```
#[derive(Clone, Debug, Default, PartialEq, Eq, Hash)]
pub struct Parcel {
    data: Vec<u8>,
    offsets: Vec<u64>,
}

impl Parcel {
    /// An empty parcel.
    pub fn new() -> Parcel {
        Parcel::default()
    }

    /// A parcel of data and offsets as they are, which the engine judges.
    pub fn of_parts(data: Vec<u8>, offsets: Vec<u64>) -> Parcel {
        Parcel { data, offsets }
    }

    /// Appends bytes to the data.
    pub fn extend(&mut self, bytes: &[u8]) {
        self.data.extend(bytes);
    }

    /// Appends an object, behind zeros up to a multiple of 8.
    pub fn push(&mut self, object: FlatObject) {
        self.fill_up();
        self.offsets.push(self.data.len() as u64);
        self.data.extend(object.to_bytes());
    }

    fn fill_up(&mut self) {
        while self.data.len() % 8 != 0 {
            self.data.push(0);
        }
    }

    /// The data, with the bytes of its objects.
    pub fn data(&self) -> &[u8] {
        &self.data
    }

    /// Where in the data objects stand, in bytes.
    pub fn offsets(&self) -> &[u64] {
        &self.offsets
    }

    /// The offsets as bytes, eight each, the lowest first.
    pub fn offset_bytes(&self) -> Vec<u8> {
        self.offsets.iter().flat_map(|offset| offset.to_le_bytes()).collect()
    }

    /// The area of a write that it stands in: the data, zeros up to a multiple of 8, and the offsets.
    pub fn area(&self) -> Vec<u8> {
        let mut filled = self.clone();
        filled.fill_up();
        filled.data.extend(self.offset_bytes());
        filled.data
    }

    /// The record of a transaction or reply with it, at the beginning of its area; all else there is 0.
    pub fn record(&self) -> TransactionData {
        let size = self.data.len() as u64;
        TransactionData {
            data_size: size,
            offsets_size: 8 * self.offsets.len() as u64,
            buffer: 0,
            offsets: (size + 7) / 8 * 8,
            ..TransactionData::default()
        }
    }
}

impl From<&[u8]> for Parcel {
    fn from(data: &[u8]) -> Parcel {
        Parcel { data: data.to_vec(), offsets: Vec::new() }
    }
}
