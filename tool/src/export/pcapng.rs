// SPDX-License-Identifier: Apache-2.0 OR MIT
//! Packets for Wireshark and its like: one for each entry, with the entry's line as its comment.
//!
//! A packet begins with the entry's seat and pid; then stand the command, or the returns that were read, and then the data of
//! the parcel, all as they crossed. The kind of the link is USER0, for which a dissector of one's own may be written. A packet is
//! stamped with the real time where that lies beside the journal, in nanoseconds; else the entry at place K with K microseconds.
use crate::following::{Facts, Space};
use crate::journal::{Answer, Entry, Step};
use crate::out::Out;
use crate::play::{Player, Range};
use crate::show::{put_line, Style};
use anyhow::Result;

const SECTION: u32 = 0x0a0d_0d0a;
const INTERFACE: u32 = 1;
const PACKET: u32 = 6;
const BYTE_ORDER: u32 = 0x1a2b_3c4d;
const LINK_USER0: u16 = 147;
const COMMENT: u16 = 1;
const NAME: u16 = 2;
const PROGRAM: u16 = 4;
/// How fine stamps are: the power of ten by which a second is divided.
const FINENESS: u16 = 9;
const NANOSECONDS: u8 = 9;
/// An option's value has no more bytes.
const MOST: usize = 65_000;

fn pad(to: &mut Vec<u8>) {
    to.resize((to.len() + 3) & !3, 0);
}

fn put_option(to: &mut Vec<u8>, code: u16, value: &[u8]) {
    let value = &value[..value.len().min(MOST)];
    to.extend(code.to_le_bytes());
    to.extend((value.len() as u16).to_le_bytes());
    to.extend(value);
    pad(to);
}

/// A block: its type, how long it is, what it has, and again how long it is.
fn put_block(to: &mut Vec<u8>, kind: u32, mut body: Vec<u8>) {
    pad(&mut body);
    let size = (12 + body.len() as u32).to_le_bytes();
    to.extend(kind.to_le_bytes());
    to.extend(size);
    to.extend(body);
    to.extend(size);
}

fn put_heading(to: &mut Vec<u8>) {
    let mut section = BYTE_ORDER.to_le_bytes().to_vec();
    section.extend(1u16.to_le_bytes());
    section.extend(0u16.to_le_bytes());
    section.extend(u64::MAX.to_le_bytes());
    put_option(&mut section, PROGRAM, concat!("hullpippin ", env!("CARGO_PKG_VERSION")).as_bytes());
    section.extend([0; 4]);
    put_block(to, SECTION, section);
    let mut interface = LINK_USER0.to_le_bytes().to_vec();
    interface.extend([0; 2]);
    interface.extend(0u32.to_le_bytes());
    put_option(&mut interface, NAME, b"binder");
    put_option(&mut interface, FINENESS, &[NANOSECONDS]);
    interface.extend([0; 4]);
    put_block(to, INTERFACE, interface);
}

/// The bytes of an entry that crossed.
fn crossed(entry: &Entry<'_>, facts: &Facts) -> Vec<u8> {
    let mut bytes = entry.seat.to_le_bytes().to_vec();
    bytes.extend(facts.pid.unwrap_or(0).to_le_bytes());
    let parcel = match (&entry.step, &entry.answer) {
        (Step::Command { bytes: command, parcel, .. }, _) => {
            bytes.extend(*command);
            parcel.unwrap_or_default()
        }
        (_, Answer::Got { stream, parcel }) => {
            bytes.extend(*stream);
            *parcel
        }
        _ => Default::default(),
    };
    bytes.extend(parcel.data);
    bytes
}

fn put_packet(to: &mut Vec<u8>, entry: &Entry<'_>, space: &Space, facts: &Facts) -> Result<()> {
    let bytes = crossed(entry, facts);
    let size = (bytes.len() as u32).to_le_bytes();
    let mut comment = Vec::new();
    put_line(&mut comment, &Style::default(), entry, space, facts)?;
    let stamp = facts.time.map_or(entry.place.saturating_mul(1000), |it| it.since_epoch());
    let mut body = 0u32.to_le_bytes().to_vec();
    body.extend(((stamp >> 32) as u32).to_le_bytes());
    body.extend((stamp as u32).to_le_bytes());
    body.extend(size);
    body.extend(size);
    body.extend(bytes);
    pad(&mut body);
    put_option(&mut body, COMMENT, String::from_utf8_lossy(&comment).trim_end().as_bytes());
    body.extend([0; 4]);
    put_block(to, PACKET, body);
    Ok(())
}

/// Writes the packets of a range.
pub fn export(player: &mut Player, range: Range, out: &mut Out) -> Result<()> {
    put_heading(&mut out.held);
    player.each(range, |entry, space, facts| {
        put_packet(&mut out.held, entry, space, facts)?;
        Ok(out.pass()?)
    })
}
