//! The rows of fits, searches and answers. Before one is measured, all sides must give the same answer, the library by both of its calls.

use crate::limit;
use crate::lists::{LINUX as LINUX_LINE, List, list_of, list_of_kinds};
use crate::original::{self, ConnectionTracker};
use crate::packets::*;
use crate::port::{self, EXACT, FUZZY, GOOD, NONE};
use crate::window::{keep, measure};
use std::hint::black_box;

pub fn all(lines: &[&str], kinds: &[bool]) {
    assert_eq!(lines.len(), 91, "the request signatures");
    let mut fragmentable = LINUX;
    fragmentable[6] = 0;
    for (name, outcome, line) in CASES {
        record_more(name, outcome, &LINUX, line);
    }
    record_more("fuzzy by quirks", FUZZY, &fragmentable, LINUX_LINE);
    searches(lines, kinds);
    answers(lines);
}

/// The answers of all sides to a packet that is no SYN+ACK, added to a row or taken from it.
fn measured(row: &str, sign: char, packet: &[u8], list: &List) {
    let mut tracker = ConnectionTracker::new(1);
    measure(row, "original", sign, || keep(original::answer(black_box(packet), &mut tracker, black_box(list))));
    measure(row, "port", sign, || keep(port::checked(black_box(packet), black_box(0), black_box(&list.bytes))));
    measure(row, "c", sign, || keep(limit::checked(black_box(packet), black_box(0), black_box(&list.bytes))));
}

/// The outcome, which is the same on all sides, with all that goes with it.
pub fn same_answer(row: &str, packet: &[u8], list: &List) -> u8 {
    let given = port::checked(packet, 0, &list.bytes);
    let found = original::answer(packet, &mut ConnectionTracker::new(1), list);
    assert_eq!(original::given(&found, list), given, "{row}");
    assert_eq!(port::unchecked(packet, 0, &list.bytes), given, "{row}");
    assert_eq!(limit::checked(packet, 0, &list.bytes), given, "{row}, C");
    assert_eq!(limit::unchecked(packet, 0, &list.bytes), given, "{row}, C");
    assert_eq!((port::check_list(&list.bytes).outcome, limit::check_list(&list.bytes).outcome), (GOOD, GOOD), "{row}");
    given.outcome
}

/// From a packet to its answer.
fn answer(row: &str, packet: &[u8], list: &List) {
    same_answer(row, packet, list);
    measured(row, '+', packet, list);
}

/// The answer, less that against a list of no records.
fn search(row: &str, packet: &[u8], list: &List) {
    let empty = list_of(&[]);
    same_answer(row, packet, list);
    same_answer(row, packet, &empty);
    measured(row, '+', packet, list);
    measured(row, '-', packet, &empty);
}

// ---- one fit

/// Today's Linux SYN against records that differ from it in one thing.
const CASES: [(&str, u8, &str); 13] = [
    ("rejected by version", NONE, "6:64:0:*:mss*44,7:mss,sok,ts,nop,ws:df,id+:0"),
    ("rejected by option length", NONE, "*:64:4:*:mss*44,7:mss,sok,ts,nop,ws:df,id+:0"),
    ("rejected by MSS", NONE, "*:64:0:1400:mss*44,7:mss,sok,ts,nop,ws:df,id+:0"),
    ("rejected by window, a multiple", NONE, "*:64:0:*:mss*20,7:mss,sok,ts,nop,ws:df,id+:0"),
    ("rejected by window, a value", NONE, "*:64:0:*:8192,7:mss,sok,ts,nop,ws:df,id+:0"),
    ("rejected by scale", NONE, "*:64:0:*:mss*44,8:mss,sok,ts,nop,ws:df,id+:0"),
    ("rejected by layout, its count", NONE, "*:64:0:*:mss*44,7:mss,sok,ts,ws:df,id+:0"),
    ("rejected by layout, its last kind", NONE, "*:64:0:*:mss*44,7:mss,sok,ts,nop,nop:df,id+:0"),
    ("rejected by payload", NONE, "*:64:0:*:mss*44,7:mss,sok,ts,nop,ws:df,id+:+"),
    ("rejected by quirks", NONE, "*:64:0:*:mss*44,7:mss,sok,ts,nop,ws:df,id+,ack+:0"),
    ("rejected by TTL (bad)", NONE, "*:63-:0:*:mss*44,7:mss,sok,ts,nop,ws:df,id+:0"),
    ("fuzzy by TTL", FUZZY, "*:128:0:*:mss*44,7:mss,sok,ts,nop,ws:df,id+:0"),
    ("exact", EXACT, LINUX_LINE),
];

/// A record that comes first and is rejected.
const FIRST: &str = "*:128:0:*:8192,2:mss,nop,nop,sok:df,id+:0";

/// What the record adds to a search: two records, less the first alone.
fn record_more(name: &str, outcome: u8, packet: &[u8], line: &str) {
    let row = &format!("fit: {name}");
    let (two, one) = (list_of(&[FIRST, line]), list_of(&[FIRST]));
    assert_eq!(same_answer(row, packet, &two), outcome, "{row}");
    measured(row, '+', packet, &two);
    measured(row, '-', packet, &one);
}

// ---- lists

fn searches(lines: &[&str], kinds: &[bool]) {
    let (fitting, others) = parted(lines);
    for size in [10, 91, 1000] {
        let none: Vec<&str> = others.iter().copied().cycle().take(size).collect();
        search(&format!("search: {size} records, none fits"), &LINUX, &list_of(&none));
        let last = [&none[1..], &[fitting]].concat();
        search(&format!("search: {size} records, the last fits"), &LINUX, &list_of(&last));
    }
    search("search: 91 records in p0f's order", &LINUX, &list_of(lines));
    search("search: 91 records in p0f's order and of its kinds", &LINUX, &list_of_kinds(lines, kinds));
    let first: Vec<bool> = (0..lines.len()).map(|i| i == 0).collect();
    let alone = [&[fitting], &others[..]].concat();
    search("search: 91 records, the first fits and is generic", &LINUX, &list_of_kinds(&alone, &first));
    let both = [&[fitting], &others[1..], &[fitting]].concat();
    search("search: 91 records, the first fits and is generic, the last is specific", &LINUX, &list_of_kinds(&both, &first));
}

/// The one signature that fits the Linux SYN, and the others.
fn parted<'a>(lines: &[&'a str]) -> (&'a str, Vec<&'a str>) {
    let fits = |line: &&str| same_answer(line, &LINUX, &list_of(&[line])) != NONE;
    let (fitting, others): (Vec<&str>, Vec<&str>) = lines.iter().copied().partition(fits);
    assert_eq!(fitting.len(), 1, "one signature fits");
    (fitting[0], others)
}

fn answers(lines: &[&str]) {
    let (fitting, others) = parted(lines);
    let none: Vec<&str> = others.iter().copied().cycle().take(91).collect();
    let last = [&none[1..], &[fitting]].concat();
    answer("packet to answer: Linux SYN, no record", &LINUX, &list_of(&[]));
    answer("packet to answer: Linux SYN, one record, exact", &LINUX, &list_of(&[LINUX_LINE]));
    answer("packet to answer: Linux SYN, 91 records, none fits", &LINUX, &list_of(&none));
    answer("packet to answer: Linux SYN, 91 records, the last fits", &LINUX, &list_of(&last));
    answer("packet to answer: Linux SYN, 91 records in p0f's order", &LINUX, &list_of(lines));
    answer("packet to answer: Windows SYN, 91 records in p0f's order", &WINDOWS, &list_of(lines));
}
