//! The rows of observations. Before one is measured, the original and the port must have read the same.

use crate::limit::{self, Seen};
use crate::original::{self, ConnectionTracker};
use crate::packets::*;
use crate::port;
use crate::window::{keep, measure};
use oracle::{TcpObservation, bytes};
use std::hint::black_box;

pub fn all() {
    observation("observation: Linux SYN, five options", &LINUX);
    observation("observation: Windows SYN, six options", &WINDOWS);
    observation("observation: Linux SYN over IPv6", &LINUX_V6);
    syn_ack("observation: SYN+ACK with the peer's MSS");
    observation("observation: SYN, no option", &NO_OPTIONS);
    observation("observation: SYN, one option", &PEER);
    observation("observation: SYN, forty options", &forty_options());
    written_out("observation: Linux SYN, written out for C", &LINUX);
}

fn observation(row: &str, packet: &[u8]) {
    same_reading(packet);
    its_own(row, packet);
    read_only(row, packet, 0);
}

/// The original's side: its own struct.
fn its_own(row: &str, packet: &[u8]) {
    let mut tracker = ConnectionTracker::new(1);
    measure(row, "original", '+', || keep(original::observe(black_box(packet), &mut tracker)));
}

/// The reading left as it is: the port's reader is a function of its own in the archive, so that nothing of it is left out.
fn read_only(row: &str, packet: &[u8], peer: u16) {
    measure(row, "port", '+', || keep(port::read(black_box(packet), black_box(peer))));
    in_c(row, packet, peer);
}

fn in_c(row: &str, packet: &[u8], peer: u16) {
    let mut seen = Seen::new();
    measure(row, "c", '+', || {
        keep(limit::read(black_box(packet), black_box(peer), &mut seen));
        black_box(&seen);
    });
}

/// The reading written out as numbers, in a struct that C can read. The original has no such form; C's own reading leaves one.
fn written_out(row: &str, packet: &[u8]) {
    its_own(row, packet);
    measure(row, "port", '+', || keep(port::observe(black_box(packet), black_box(0))));
    in_c(row, packet, 0);
}

/// The original learns the peer's MSS from the SYN before; what that SYN alone costs is taken off.
fn syn_ack(row: &str) {
    let mut tracker = ConnectionTracker::new(1);
    for _ in 0..2 {
        original::observe(&PEER, &mut tracker);
        let seen = original::observe(&SYN_ACK, &mut tracker);
        let reading = original::observation(&seen).expect("an observation");
        assert_eq!(reading.peer_mss, Some(PEER_MSS));
        same_fields(reading, &port::observe(&SYN_ACK, PEER_MSS));
    }
    assert_eq!(port::read(&SYN_ACK, PEER_MSS), limit::read(&SYN_ACK, PEER_MSS, &mut Seen::new()));
    measure(row, "original", '+', || {
        keep(original::observe(black_box(&PEER), &mut tracker));
        keep(original::observe(black_box(&SYN_ACK), &mut tracker));
    });
    measure(row, "original", '-', || keep(original::observe(black_box(&PEER), &mut tracker)));
    read_only(row, &SYN_ACK, PEER_MSS);
}

/// Of C's reading the answer is compared here; what it read, by the program that is run before (limit/same.c).
pub fn same_reading(packet: &[u8]) {
    let seen = original::observe(packet, &mut ConnectionTracker::new(1));
    same_fields(original::observation(&seen).expect("an observation"), &port::observe(packet, 0));
    assert_eq!(port::read(packet, 0), limit::read(packet, 0, &mut Seen::new()));
}

fn same_fields(original: &TcpObservation, reading: &port::Reading) {
    let mut out = [0u8; bytes::OBSERVATION];
    bytes::put_observation(&mut out, original);
    let port = &reading.observation;
    let number = |value: Option<u16>| (u8::from(value.is_some()), value.unwrap_or(0));
    assert_eq!((out[0], out[4]), (port.version, port.olen));
    assert_eq!(&out[1..4], &[port.ttl_form, port.ttl, port.hops]);
    assert_eq!((number(original.mss), original.wsize), ((port.has_mss, port.mss), port.wsize));
    assert_eq!((original.tot_hdr, original.tos), (port.tot_hdr, port.tos));
    assert_eq!(number(original.wscale.map(u16::from)), (port.has_wscale, u16::from(port.wscale)));
    assert_eq!((u64::from(out[14]), &out[15..55], &out[55..95]), (port.count, &port.kinds[..], &port.bytes[..]));
    assert_eq!((original.quirks.bits(), out[99]), (port.quirks, port.pclass));
    assert_eq!(number(original.peer_mss), (port.has_peer_mss, port.peer_mss));
    assert_eq!((port.multiple_of, port.multiple, reading.refusal, reading.flags), (0, 0, 0, 0));
    assert!(reading.answer == 1 || reading.answer == 2);
}
