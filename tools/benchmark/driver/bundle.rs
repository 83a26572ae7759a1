//! Bundles of document 01: one that is made for termread, of typical SYNs and p0f's request signatures; and one that is read.

use crate::lists::list_of;
use crate::packets::{LINUX, WINDOWS};

pub fn of(lines: &[&str], count: usize) -> Vec<u8> {
    let list = list_of(lines).bytes;
    let mut bytes = Vec::new();
    for number in [count, 8 + list.len(), list.len(), 8] {
        bytes.extend_from_slice(&u16::try_from(number).expect("two bytes").to_be_bytes());
    }
    bytes.extend_from_slice(&list);
    for i in 0..count {
        let packet = packet(i);
        bytes.extend_from_slice(&[0, 0]);
        bytes.extend_from_slice(&(packet.len() as u16).to_be_bytes());
        bytes.extend_from_slice(packet);
    }
    assert!(bytes.len() <= 65535, "a bundle has at most 65,535 bytes");
    bytes
}

/// Linux and Windows in turn.
fn packet(i: usize) -> &'static [u8] {
    if i % 2 == 0 { &LINUX } else { &WINDOWS }
}

/// The list and the packets of a bundle that fits; the peers' MSS are passed over.
pub fn parts(bundle: &[u8]) -> (&[u8], Vec<&[u8]>) {
    let number = |at: usize| usize::from(u16::from_be_bytes([bundle[at], bundle[at + 1]]));
    let (length, list, mut at) = (number(4), number(6), number(2));
    let mut packets = Vec::new();
    for _ in 0..number(0) {
        let size = number(at + 2);
        packets.push(&bundle[at + 4..at + 4 + size]);
        at += 4 + size;
    }
    (&bundle[list..list + length], packets)
}
