//! The rows of work: the SYNs that `syns` makes for p0f's request lines, one after the other, against the list of those lines and their
//! kinds. A row is their mean.

use crate::bundle;
use crate::limit::{self, Seen};
use crate::lists::{List, list_of_kinds};
use crate::observations::same_reading;
use crate::original::{self, ConnectionTracker};
use crate::port;
use crate::searches::same_answer;
use crate::window::{in_turn, keep, measure, measure_calls};
use std::hint::black_box;

pub fn all(lines: &[&str], kinds: &[bool], syns: &[u8]) {
    let (bytes, packets) = bundle::parts(syns);
    let list = list_of_kinds(lines, kinds);
    assert_eq!(list.bytes, bytes, "the list that goes with the SYNs");
    for packet in &packets {
        same_reading(packet);
        same_answer("work", packet, &list);
    }
    observations("work: observation", &packets);
    checked("work: answer, list checked before", &packets, &list);
    unchecked("work: answer, list checked with it", &packets, bytes);
    check("work: the list's check", bytes);
}

/// One side of a row: a call for each packet in its turn, less what taking turns costs.
fn each(row: &str, side: &str, packets: &[&[u8]], call: impl FnMut(&[u8])) {
    measure_calls(row, side, '+', packets.len(), in_turn(packets, call));
    measure_calls(row, side, '-', packets.len(), in_turn(packets, |packet| keep(black_box(packet))));
}

fn observations(row: &str, packets: &[&[u8]]) {
    let (mut tracker, mut seen) = (ConnectionTracker::new(1), Seen::new());
    each(row, "original", packets, |packet| keep(original::observe(black_box(packet), &mut tracker)));
    each(row, "port", packets, |packet| keep(port::read(black_box(packet), black_box(0))));
    each(row, "c", packets, |packet| {
        keep(limit::read(black_box(packet), black_box(0), &mut seen));
        black_box(&seen);
    });
}

fn checked(row: &str, packets: &[&[u8]], list: &List) {
    let mut tracker = ConnectionTracker::new(1);
    each(row, "original", packets, |packet| keep(original::answer(black_box(packet), &mut tracker, black_box(list))));
    each(row, "port", packets, |packet| keep(port::checked(black_box(packet), black_box(0), black_box(&list.bytes))));
    each(row, "c", packets, |packet| keep(limit::checked(black_box(packet), black_box(0), black_box(&list.bytes))));
}

fn unchecked(row: &str, packets: &[&[u8]], list: &[u8]) {
    each(row, "port", packets, |packet| keep(port::unchecked(black_box(packet), black_box(0), black_box(list))));
    each(row, "c", packets, |packet| keep(limit::unchecked(black_box(packet), black_box(0), black_box(list))));
}

fn check(row: &str, list: &[u8]) {
    measure(row, "port", '+', || keep(port::check_list(black_box(list))));
    measure(row, "c", '+', || keep(limit::check_list(black_box(list))));
}
