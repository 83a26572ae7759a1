//! The rows of lines that are written: the raw line of a packet, the line of a record.

use crate::lists::list_of;
use crate::original::{self, ConnectionTracker};
use crate::packets::{LINUX, LINUX_V6, WINDOWS, forty_options};
use crate::port::{self, LINE};
use crate::window::{keep, measure, measure_calls};
use oracle::{Signature, write_observation, write_signature};
use std::hint::black_box;

/// As many bytes as the longest line has, and some.
const ROOM: usize = 512;

pub fn all(lines: &[&str]) {
    raw_line("written: packet to raw line, Linux SYN", &LINUX);
    raw_line("written: packet to raw line, Windows SYN", &WINDOWS);
    raw_line("written: packet to raw line, Linux SYN over IPv6", &LINUX_V6);
    raw_line("written: packet to raw line, SYN with forty options", &forty_options());
    records("written: record's line, p0f.fp's TCP lines, each", lines);
}

/// The original's Display, which also looks for the window's multiple and writes it where there is one; into a String that is kept.
#[inline(always)]
fn original_line(text: &mut String, packet: &[u8], tracker: &mut ConnectionTracker) {
    text.clear();
    let seen = original::observe(packet, tracker);
    write_observation(text, original::observation(&seen).expect("an observation")).expect("a String takes all");
}

fn raw_line(row: &str, packet: &[u8]) {
    let (mut text, mut buffer, mut tracker) = (String::with_capacity(ROOM), [0u8; ROOM], ConnectionTracker::new(1));
    same_raw_line(packet);
    measure(row, "original", '+', || {
        original_line(&mut text, black_box(packet), &mut tracker);
        black_box(&text);
    });
    measure(row, "port", '+', || {
        keep(port::raw_line(&mut buffer, black_box(packet), black_box(0)));
        black_box(&buffer);
    });
}

/// The fields of a line, the window without the scale behind it.
fn parts(line: &str) -> Vec<&str> {
    line.split([':', ',']).collect()
}

fn same_raw_line(packet: &[u8]) {
    let (mut text, mut buffer, mut tracker) = (String::new(), [0u8; ROOM], ConnectionTracker::new(1));
    original_line(&mut text, packet, &mut tracker);
    let wrote = port::raw_line(&mut buffer, packet, 0);
    let line = str::from_utf8(&buffer[..usize::from(wrote.value)]).expect("text");
    let window = port::observe(packet, 0).observation.wsize.to_string();
    let (ours, mut theirs) = (parts(line), parts(&text));
    theirs[4] = &window;
    assert_eq!((ours, wrote.outcome), (theirs, LINE));
}

/// Each record in a list of its own, which is checked before its line is written; the original's signature was decoded before.
fn records(row: &str, lines: &[&str]) {
    let lists: Vec<_> = lines.iter().map(|line| list_of(&[line])).collect();
    let (mut text, mut buffer) = (String::with_capacity(ROOM), [0u8; ROOM]);
    for (list, line) in lists.iter().zip(lines) {
        let wrote = port::record_line(&mut buffer, &list.bytes, 0);
        text.clear();
        write_signature(&mut text, &list.signatures[0]).expect("a String takes all");
        assert_eq!((&text[..], wrote.outcome), (*line, LINE));
        assert_eq!(&buffer[..usize::from(wrote.value)], line.as_bytes());
    }
    let mut at = 0;
    let mut next = || {
        at = if at + 1 < lists.len() { at + 1 } else { 0 };
        at
    };
    measure_calls(row, "original", '+', lists.len(), || {
        text.clear();
        let signature: &Signature = black_box(&lists[next()].signatures[0]);
        write_signature(&mut text, signature).expect("a String takes all");
        black_box(&text);
    });
    measure_calls(row, "port", '+', lists.len(), || {
        keep(port::record_line(&mut buffer, black_box(&lists[next()].bytes), 0));
        black_box(&buffer);
    });
}
