// SPDX-License-Identifier: Apache-2.0 OR MIT
//! Commands as bytes: the codes and records of <linux/android/binder.h>, 64-bit form.

pub const BC_TRANSACTION: u32 = 0x40406300;
pub const BC_REPLY: u32 = 0x40406301;
pub const BC_FREE_BUFFER: u32 = 0x40086303;
pub const BC_ACQUIRE: u32 = 0x40046305;
pub const BC_RELEASE: u32 = 0x40046306;
pub const BC_INCREFS_DONE: u32 = 0x40106308;
pub const BC_ACQUIRE_DONE: u32 = 0x40106309;
pub const BC_ENTER_LOOPER: u32 = 0x0000630c;
const BR_TRANSACTION: u32 = 0x80407202;
const BR_REPLY: u32 = 0x80407203;

/// A return with a transaction or a reply: its code and its record.
const LONGEST_RETURN: usize = 68;

/// The one flag that the workloads use.
pub const ONE_WAY: u32 = 1;

/// The kinds of the objects in parcels.
const BINDER: u32 = 0x73622a85;
const HANDLE: u32 = 0x73682a85;

/// A command with a handle.
pub fn with_handle(code: u32, handle: u32) -> Vec<u8> {
    [code.to_le_bytes(), handle.to_le_bytes()].concat()
}

/// A command with an object's pointer and cookie.
pub fn with_object(code: u32, object: Object) -> Vec<u8> {
    let mut bytes = code.to_le_bytes().to_vec();
    bytes.extend(object.ptr.to_le_bytes());
    bytes.extend(object.cookie.to_le_bytes());
    bytes
}

/// The command that frees a buffer.
pub fn free(buffer: u64) -> [u8; 12] {
    let mut bytes = [0; 12];
    bytes[..4].copy_from_slice(&BC_FREE_BUFFER.to_le_bytes());
    bytes[4..].copy_from_slice(&buffer.to_le_bytes());
    bytes
}

/// The buffer that a stream of returns tells: a transaction or a reply is always its last.
pub fn buffer_of(stream: &[u8]) -> Option<u64> {
    let last = stream.len().checked_sub(LONGEST_RETURN).map(|at| &stream[at..])?;
    let code = u32::from_le_bytes(last[..4].try_into().ok()?);
    let buffer = u64::from_le_bytes(last[52..60].try_into().ok()?);
    [BR_TRANSACTION, BR_REPLY].contains(&code).then_some(buffer)
}

/// An object of the process that sends it.
#[derive(Clone, Copy)]
pub struct Object {
    pub ptr: u64,
    pub cookie: u64,
}

impl Object {
    /// The k-th object of a process, from 1.
    pub fn number(k: u32) -> Object {
        Object { ptr: 16 * u64::from(k), cookie: 16 * u64::from(k) + 8 }
    }

    fn record(self) -> Vec<u8> {
        record(BINDER, self.ptr, self.cookie)
    }
}

// The 24 bytes of an object in a parcel.
fn record(kind: u32, name: u64, cookie: u64) -> Vec<u8> {
    let mut bytes = u64::from(kind).to_le_bytes().to_vec();
    bytes.extend(name.to_le_bytes());
    bytes.extend(cookie.to_le_bytes());
    bytes
}

/// What a transaction or a reply carries.
#[derive(Default)]
pub struct Parcel {
    data: Vec<u8>,
    offsets: Vec<u64>,
}

impl Parcel {
    /// The bytes 0, 1, 2, and so on.
    pub fn counting(size: u8) -> Parcel {
        Parcel { data: (0..size).collect(), offsets: Vec::new() }
    }

    /// Objects and nothing else.
    pub fn of_objects(objects: impl Iterator<Item = Object>) -> Parcel {
        let data = objects.flat_map(Object::record).collect::<Vec<_>>();
        Parcel { offsets: (0..data.len() as u64).step_by(24).collect(), data }
    }

    /// A handle of the sender's and nothing else.
    pub fn of_handle(handle: u32) -> Parcel {
        Parcel { data: record(HANDLE, handle.into(), 0), offsets: vec![0] }
    }

    /// 64 bytes that begin with an object.
    pub fn beginning_with(object: Object) -> Parcel {
        let Parcel { mut data, .. } = Parcel::counting(64);
        data[..24].copy_from_slice(&object.record());
        Parcel { data, offsets: vec![0] }
    }

    /// The command that sends it, and the area that the command speaks of.
    pub fn sent(self, command: u32, target: u32, code: u32, flags: u32) -> (Vec<u8>, Vec<u8>) {
        let size = self.data.len();
        let mut stream = command.to_le_bytes().to_vec();
        stream.extend(u64::from(target).to_le_bytes());
        stream.extend([0; 8]);
        stream.extend(code.to_le_bytes());
        stream.extend(flags.to_le_bytes());
        stream.extend([0; 8]);
        let mut area = self.data;
        area.resize(size.next_multiple_of(8), 0);
        for word in [size, 8 * self.offsets.len(), 0, area.len()] {
            stream.extend((word as u64).to_le_bytes());
        }
        area.extend(self.offsets.iter().flat_map(|offset| offset.to_le_bytes()));
        (stream, area)
    }
}
