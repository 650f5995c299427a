// SPDX-License-Identifier: Apache-2.0 OR MIT
//! Parcels that the daemon has wrapped, as clients/README.md says: behind a client's data stand all its offsets, its
//! buffers, and a trailer that tells how much each is.
use crate::record::{u32_at, u64_at, Parcel, KINDS, OBJECT_SIZE};

const TRAILER_SIZE: usize = 48;
const MARK: &[u8; 8] = b"trailer\0";
/// A text in a buffer is told up to so many bytes.
const LONGEST: u64 = 4096;

const FD: u32 = 0x6664_2a85;
const FDA: u32 = 0x6664_6185;
const PTR: u32 = 0x7074_2a85;

/// A client's own parcel within the data that the engine has.
#[derive(Clone, Copy, Debug, PartialEq, Eq)]
pub struct Wrapped<'a> {
    data: &'a [u8],
    pub data_size: u64,
    pub offsets_size: u64,
    pub buffers_size: u64,
    pub descriptors: u32,
    pub euid: u32,
}

/// An object that the engine knows nothing of.
#[derive(Clone, Debug, PartialEq, Eq)]
pub struct Beside {
    pub at: u64,
    pub kind: &'static str,
    /// What its fields say, and the text in its buffer.
    pub told: String,
}

fn rounded(size: u64) -> Option<u64> {
    size.checked_add(7).map(|it| it & !7)
}

impl<'a> Wrapped<'a> {
    /// What a parcel's data wrap; None where they have no trailer, or one that says more than there is, or where an object that
    /// the engine knows reaches into it.
    pub fn read(parcel: &Parcel<'a>) -> Option<Wrapped<'a>> {
        let data = parcel.data;
        let end = data.len().checked_sub(TRAILER_SIZE)?;
        let trailer = &data[end..];
        let reaches = |at: u64| at.saturating_add(OBJECT_SIZE as u64) > end as u64;
        if trailer[40..] != MARK[..] || parcel.objects().any(|(at, _)| reaches(at)) {
            return None;
        }
        let wrapped = Wrapped {
            data,
            data_size: u64_at(trailer, 0),
            offsets_size: u64_at(trailer, 8),
            buffers_size: u64_at(trailer, 16),
            descriptors: u32_at(trailer, 28),
            euid: u32_at(trailer, 32),
        };
        let end = wrapped.buffers_at()?.checked_add(rounded(wrapped.buffers_size)?)?;
        (end <= (data.len() - TRAILER_SIZE) as u64).then_some(wrapped)
    }

    fn buffers_at(&self) -> Option<u64> {
        rounded(self.data_size)?.checked_add(rounded(self.offsets_size)?)
    }

    /// Bytes of the data that follow one another.
    fn bytes(&self, at: u64, size: u64) -> Option<&'a [u8]> {
        let from = usize::try_from(at).ok()?;
        self.data.get(from..from.checked_add(usize::try_from(size).ok()?)?)
    }

    /// The client's objects that the engine wasn't told of, in the order of its offsets.
    pub fn beside(&self) -> Vec<Beside> {
        let offsets = rounded(self.data_size).and_then(|at| self.bytes(at, self.offsets_size)).unwrap_or(&[]);
        let mut used = 0;
        let mut found = Vec::new();
        for offset in offsets.chunks_exact(8) {
            let at = u64_at(offset, 0);
            let object = self.bytes(at, OBJECT_SIZE as u64).unwrap_or(&[]);
            let told = match u32_at(object, 0) {
                FD => format!("fd {}", u32_at(object, 8)),
                FDA => format!("{} descriptors in the buffer of object {}", u64_at(object, 8), u64_at(object, 16)),
                PTR => {
                    let size = u64_at(object, 16);
                    let text = self.buffers_at().and_then(|it| self.text(it.checked_add(used)?, size));
                    used = rounded(size).map_or(u64::MAX, |it| it.saturating_add(used));
                    format!("buffer {:#x} length {size}{}", u64_at(object, 8), text.unwrap_or_default())
                }
                _ => continue,
            };
            let kind = KINDS.iter().find(|it| it.1 == u32_at(object, 0)).map_or("?", |it| it.2);
            found.push(Beside { at, kind, told });
        }
        found
    }

    /// The text that a buffer is: letters that are printed, with a zero behind them.
    fn text(&self, at: u64, size: u64) -> Option<String> {
        let bytes = self.bytes(at, size).filter(|_| size <= LONGEST)?;
        let (last, letters) = bytes.split_last()?;
        let is_text = *last == 0 && !letters.is_empty() && letters.iter().all(|it| (0x20..0x7f).contains(it));
        is_text.then(|| format!(" {:?}", String::from_utf8_lossy(letters)))
    }
}

#[cfg(test)]
mod tests {
    use super::*;

    /// Two PTR objects, of which one has a text, and a descriptor, as clients/README.md lays them out.
    fn wrapped() -> Vec<u8> {
        let mut data = Vec::new();
        for (address, length) in [(0x7000u64, 4u64), (0x8000, 6)] {
            data.extend(PTR.to_le_bytes());
            data.extend([0; 4]);
            data.extend([address, length, 0, 0].map(u64::to_le_bytes).concat());
        }
        data.extend(FD.to_le_bytes());
        data.extend([0; 4]);
        data.extend([5u64, 0].map(u64::to_le_bytes).concat());
        data.extend([0u64, 40, 80].map(u64::to_le_bytes).concat());
        data.extend([1, 2, 3, 4, 0, 0, 0, 0]);
        data.extend(b"hello\0\0\0");
        data.extend([104u64, 24, 16].map(u64::to_le_bytes).concat());
        data.extend([9u32, 1, 1000, 0].map(u32::to_le_bytes).concat());
        data.extend(MARK);
        data
    }

    fn read<'a>(data: &'a [u8], offsets: &'a [u8]) -> Option<Wrapped<'a>> {
        Wrapped::read(&Parcel { data, offsets })
    }

    #[test]
    fn what_the_engine_does_not_know_is_told() {
        let data = wrapped();
        let wrapped = read(&data, &[]).unwrap();
        let Wrapped { data_size, offsets_size, buffers_size, descriptors, euid, .. } = wrapped;
        assert_eq!((data_size, offsets_size, buffers_size, descriptors, euid), (104, 24, 16, 1, 1000));
        let told: Vec<_> =
            wrapped.beside().into_iter().map(|it| format!("{:#x} {} {}", it.at, it.kind, it.told)).collect();
        assert_eq!(
            told,
            ["0x0 PTR buffer 0x7000 length 4", "0x28 PTR buffer 0x8000 length 6 \"hello\"", "0x50 FD fd 5"]
        );
    }

    #[test]
    fn a_trailer_that_says_too_much_is_none() {
        let mut data = wrapped();
        let end = data.len();
        assert_eq!(read(&data[..end - 1], &[]), None);
        // The last object that may stand before a trailer, and one four bytes further.
        assert!(read(&data, &(end as u64 - 48 - 24).to_le_bytes()).is_some());
        assert_eq!(read(&data, &(end as u64 - 48 - 20).to_le_bytes()), None);
        data[end - 48..end - 40].copy_from_slice(&u64::MAX.to_le_bytes());
        assert_eq!(read(&data, &[]), None);
        data[end - 48..end - 40].copy_from_slice(&105u64.to_le_bytes());
        assert_eq!(read(&data, &[]), None);
        assert_eq!(read(b"trailer\0", &[]), None);
    }
}
