//! The rows of the modes, of the port alone: the library that ships, in the plain and in the strict mode. Before a row is measured, each
//! mode must give the answer that is written beside the packet.

use crate::lists::list_of;
use crate::packets::{LINUX, PEER_MSS, SYN_ACK, WINDOWS};
use crate::port::{self, EXACT, FUZZY, Given, NONE, NOTHING, REFUSED};
use crate::window::{keep, measure};
use std::hint::black_box;

/// The bundle of document 01's whole example: packets A and B, a third of three bytes, and a list of one record.
const EXAMPLE: &[u8] = include_bytes!("../../../examples/whole_example.bundle");

/// The modes as bits.
const PLAIN: u8 = 0;
const STRICT: u8 = 1;

/// Where an IPv4 packet without IP options has its data offset and its flags.
const OFFSET: usize = 32;
const FLAGS: usize = 33;

/// And the length byte of its first option, if that has one.
const FIRST_LENGTH: usize = 41;

/// A kind of answer, and the number of a refusal.
type Said = (u8, u8);

/// A packet with the peer's MSS, and what each mode says of it.
struct Case<'a> {
    name: &'a str,
    packet: &'a [u8],
    peer: u16,
    plain: Said,
    strict: Said,
}

fn alike<'a>(name: &'a str, packet: &'a [u8], peer: u16, said: Said) -> Case<'a> {
    Case { name, packet, peer, plain: said, strict: said }
}

fn set_aside<'a>(name: &'a str, packet: &'a [u8], plain: Said) -> Case<'a> {
    Case { name, packet, peer: 0, plain, strict: (REFUSED, 14) }
}

fn with(packet: &[u8], at: usize, byte: u8) -> Vec<u8> {
    let mut changed = packet.to_vec();
    changed[at] = byte;
    changed
}

pub fn all(lines: &[&str]) {
    examples();
    let list = list_of(lines).bytes;
    for (name, packet) in [("Linux SYN", &LINUX[..]), ("Windows SYN", &WINDOWS[..])] {
        // What is found was compared with the original before.
        let found = port::checked(packet, 0, &list).outcome;
        checked(&alike(&format!("answer: {name}, 91 records in p0f's order"), packet, 0, (found, 0)), &list);
    }
    // Request lines for an answer: one of them tolerates what it shows.
    checked(&alike("answer: Linux SYN+ACK, 91 records in p0f's order", &SYN_ACK, PEER_MSS, (FUZZY, 0)), &list);
}

/// One row: the plain function, and the one that takes a mode, in both modes.
fn row(case: &Case, plain: impl Fn(&[u8], u16) -> Given, in_mode: impl Fn(&[u8], u16, u8) -> Given) {
    let (row, packet, peer) = (&format!("mode: {}", case.name), case.packet, case.peer);
    let said = |given: Given| (given.outcome, given.refusal);
    assert_eq!(said(plain(packet, peer)), case.plain, "{row}");
    assert_eq!(said(in_mode(packet, peer, PLAIN)), case.plain, "{row}");
    assert_eq!(said(in_mode(packet, peer, STRICT)), case.strict, "{row}");
    measure(row, "plain", '+', || keep(plain(black_box(packet), black_box(peer))));
    measure(row, "given", '+', || keep(in_mode(black_box(packet), black_box(peer), PLAIN)));
    measure(row, "strict", '+', || keep(in_mode(black_box(packet), black_box(peer), STRICT)));
}

fn checked(case: &Case, list: &[u8]) {
    let plain = |packet: &[u8], peer| port::checked(packet, peer, black_box(list));
    row(case, plain, |packet: &[u8], peer, mode| port::checked_in(packet, peer, black_box(list), mode));
}

fn unchecked(case: &Case, list: &[u8]) {
    let plain = |packet: &[u8], peer| port::unchecked(packet, peer, black_box(list));
    row(case, plain, |packet: &[u8], peer, mode| port::unchecked_in(packet, peer, black_box(list), mode));
}

/// The whole example, and its packet A otherwise.
fn examples() {
    let part = |at: usize, size: usize| &EXAMPLE[at..at + size];
    let (list, a, b, third) = (part(8, 34), part(46, 44), part(94, 44), part(142, 3));
    let (synack, ack, both) = (with(a, FLAGS, 0x12), with(a, FLAGS, 0x10), with(a, FLAGS, 3));
    let (short, damaged) = (with(a, OFFSET, 0x40), with(a, FIRST_LENGTH, 0));
    for case in [
        alike("answer: packet A, exact", a, 0, (EXACT, 0)),
        alike("answer: packet B, fuzzy", b, 0, (FUZZY, 0)),
        alike("answer: A as a SYN+ACK, none", &synack, PEER_MSS, (NONE, 0)),
        alike("answer: A as an ACK, nothing", &ack, 0, (NOTHING, 0)),
        alike("answer: A with a length byte of 0, none", &damaged, 0, (NONE, 0)),
        alike("answer: A with FIN, refused by 7", &both, 0, (REFUSED, 7)),
        alike("answer: the third packet, refused by 2", third, 0, (REFUSED, 2)),
        set_aside("answer: A with data offset 4", &short, (NONE, 0)),
        set_aside("answer: A without its last byte", &a[..43], (NONE, 0)),
    ] {
        checked(&case, list);
    }
    unchecked(&alike("answer: packet A, exact, the list checked with it", a, 0, (EXACT, 0)), list);
}
