//! The row of signature lines: a call reads one line, each in its turn.

use crate::port;
use crate::window::{in_turn, keep, measure_calls};
use oracle::{bytes, parse_signature};
use std::hint::black_box;

/// What one line costs, over all lines. The original's parser takes text, so that it need not look whether the bytes are text.
pub fn all(lines: &[&str]) {
    let row = "line: p0f.fp's TCP lines, each";
    for line in lines {
        same_record(line);
    }
    measure_calls(row, "original", '+', lines.len(), in_turn(lines, |line: &str| keep(parse_signature(black_box(line)))));
    measure_calls(row, "port", '+', lines.len(), in_turn(lines, |line: &str| keep(port::line(black_box(line.as_bytes())))));
}

fn same_record(line: &str) {
    let (mut record, mut entries) = ([0u8; 24], [0u8; 80]);
    let signature = parse_signature(line).expect("a signature");
    bytes::put_signature(&mut record, &mut entries, &signature).expect("a record holds it");
    let read = port::line(line.as_bytes());
    assert_eq!((read.refusal, read.offset, read.raw), (0, 0, record), "{line}");
    assert_eq!(read.count, u64::from(record[20]));
    for i in 0..40 {
        assert_eq!((read.kinds[i], read.bytes[i]), (entries[2 * i], entries[2 * i + 1]), "{line}");
    }
}
