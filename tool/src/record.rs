// SPDX-License-Identifier: Apache-2.0 OR MIT
//! Transaction records and the objects of parcels, as docs/FORMATS.md lays them out.
use std::convert::TryInto;

pub const RECORD_SIZE: usize = 64;
pub const OBJECT_SIZE: usize = 24;
pub const ONE_WAY: u32 = 1;

/// The number of four bytes; 0 where they aren't all there.
pub fn u32_at(bytes: &[u8], at: usize) -> u32 {
    let four = at.checked_add(4).and_then(|end| bytes.get(at..end));
    four.and_then(|four| four.try_into().ok()).map_or(0, u32::from_le_bytes)
}

/// The number of eight bytes; 0 where they aren't all there.
pub fn u64_at(bytes: &[u8], at: usize) -> u64 {
    let eight = at.checked_add(8).and_then(|end| bytes.get(at..end));
    eight.and_then(|eight| eight.try_into().ok()).map_or(0, u64::from_le_bytes)
}

/// The names of the flags that have one.
pub static FLAGS: [(u32, &str); 6] = [
    (0x01, "TF_ONE_WAY"),
    (0x04, "TF_ROOT_OBJECT"),
    (0x08, "TF_STATUS_CODE"),
    (0x10, "TF_ACCEPT_FDS"),
    (0x20, "TF_CLEAR_BUF"),
    (0x40, "TF_UPDATE_TXN"),
];

/// A transaction record (`struct binder_transaction_data`).
#[derive(Clone, Copy, Debug, Default, PartialEq, Eq)]
pub struct Record {
    pub target: u64,
    pub cookie: u64,
    pub code: u32,
    pub flags: u32,
    pub sender_pid: i32,
    pub sender_euid: u32,
    pub data_size: u64,
    pub offsets_size: u64,
    pub buffer: u64,
    pub offsets: u64,
}

impl Record {
    pub fn read(bytes: &[u8]) -> Record {
        Record {
            target: u64_at(bytes, 0),
            cookie: u64_at(bytes, 8),
            code: u32_at(bytes, 16),
            flags: u32_at(bytes, 20),
            sender_pid: u32_at(bytes, 24) as i32,
            sender_euid: u32_at(bytes, 28),
            data_size: u64_at(bytes, 32),
            offsets_size: u64_at(bytes, 40),
            buffer: u64_at(bytes, 48),
            offsets: u64_at(bytes, 56),
        }
    }

    /// The handle that a transaction goes to.
    pub fn handle(&self) -> u32 {
        self.target as u32
    }

    pub fn is_one_way(&self) -> bool {
        self.flags & ONE_WAY != 0
    }

    /// What the parcel takes of a window.
    pub fn needed(&self) -> u64 {
        needed(self.data_size, self.offsets_size)
    }
}

/// What a parcel of these sizes takes of a window; as much as there is where that can't be said in 64 bits.
pub fn needed(data: u64, offsets: u64) -> u64 {
    let rounded = |size: u64| size.checked_add(7).map_or(u64::MAX, |size| size & !7);
    rounded(data).saturating_add(rounded(offsets)).max(8)
}

/// What kind of object stands in a parcel.
#[derive(Clone, Copy, Debug, PartialEq, Eq)]
pub enum Kind {
    Binder,
    WeakBinder,
    Handle,
    WeakHandle,
    Fd,
    Fda,
    Ptr,
}

pub static KINDS: [(Kind, u32, &str); 7] = [
    (Kind::Binder, 0x7362_2a85, "BINDER"),
    (Kind::WeakBinder, 0x7762_2a85, "WEAK_BINDER"),
    (Kind::Handle, 0x7368_2a85, "HANDLE"),
    (Kind::WeakHandle, 0x7768_2a85, "WEAK_HANDLE"),
    (Kind::Fd, 0x6664_2a85, "FD"),
    (Kind::Fda, 0x6664_6185, "FDA"),
    (Kind::Ptr, 0x7074_2a85, "PTR"),
];

impl Kind {
    pub fn number(self) -> u32 {
        KINDS.iter().find(|it| it.0 == self).map_or(0, |it| it.1)
    }

    pub fn name(self) -> &'static str {
        KINDS.iter().find(|it| it.0 == self).map_or("?", |it| it.2)
    }

    /// Whether such an entry of a parcel holds its object strongly.
    pub fn is_strong(self) -> bool {
        matches!(self, Kind::Binder | Kind::Handle)
    }

    /// Whether it names its object by the owner's ptr.
    pub fn is_binder(self) -> bool {
        matches!(self, Kind::Binder | Kind::WeakBinder)
    }

    /// Whether it names its object by a handle.
    pub fn is_handle(self) -> bool {
        matches!(self, Kind::Handle | Kind::WeakHandle)
    }
}

/// An object of a parcel (`struct flat_binder_object`).
#[derive(Clone, Copy, Debug, PartialEq, Eq)]
pub struct Flat {
    pub at: u64,
    pub kind: Kind,
    pub flags: u32,
    pub binder: u64,
    pub cookie: u64,
}

impl Flat {
    /// The object at an offset, if there is one.
    pub fn read(data: &[u8], at: u64) -> Option<Flat> {
        let from = usize::try_from(at).ok()?;
        let bytes = data.get(from..from.checked_add(OBJECT_SIZE)?)?;
        let number = u32_at(bytes, 0);
        let kind = KINDS.iter().find(|it| it.1 == number)?.0;
        Some(Flat { at, kind, flags: u32_at(bytes, 4), binder: u64_at(bytes, 8), cookie: u64_at(bytes, 16) })
    }
}

/// A parcel: its data and where its objects stand.
#[derive(Clone, Copy, Debug, Default, PartialEq, Eq)]
pub struct Parcel<'a> {
    pub data: &'a [u8],
    pub offsets: &'a [u8],
}

impl<'a> Parcel<'a> {
    /// What stands at each offset, with the offset: nothing where no object does.
    pub fn objects(self) -> impl Iterator<Item = (u64, Option<Flat>)> + 'a {
        let at = |offset: &[u8]| u64_at(offset, 0);
        self.offsets.chunks_exact(8).map(at).map(move |at| (at, Flat::read(self.data, at)))
    }
}

#[cfg(test)]
mod tests {
    use super::*;

    #[test]
    fn sizes_are_rounded_apart() {
        assert_eq!([needed(0, 0), needed(1, 0), needed(8, 8), needed(9, 16)], [8, 8, 16, 32]);
        assert_eq!(needed(u64::MAX, 8), u64::MAX);
    }

    #[test]
    fn numbers_beyond_the_end_are_none() {
        assert_eq!((u32_at(&[1, 2, 3], 0), u64_at(&[0; 8], usize::MAX)), (0, 0));
    }

    #[test]
    fn an_object_needs_all_its_bytes() {
        let mut data = 0x7368_2a85u32.to_le_bytes().to_vec();
        data.extend([0; 4]);
        data.extend(5u64.to_le_bytes());
        data.extend([0; 8]);
        let flat = Flat::read(&data, 0).unwrap();
        assert_eq!((flat.kind, flat.binder), (Kind::Handle, 5));
        assert_eq!(Flat::read(&data[..23], 0), None);
        assert_eq!(Flat::read(&data, u64::MAX), None);
    }
}
