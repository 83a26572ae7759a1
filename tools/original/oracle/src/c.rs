//! The same answers for callers in C; `original.h` declares them.
//! A pointer that an answer reads or writes must be good for the length that the header gives.

#![allow(clippy::missing_safety_doc)]

use crate::bytes::*;
use crate::*;
use std::slice::{from_raw_parts, from_raw_parts_mut};

unsafe fn read<'a>(bytes: *const u8, length: usize) -> &'a [u8] {
    if length == 0 { &[] } else { unsafe { from_raw_parts(bytes, length) } }
}

unsafe fn write<'a>(bytes: *mut u8, length: usize) -> &'a mut [u8] {
    unsafe { from_raw_parts_mut(bytes, length) }
}

#[unsafe(no_mangle)]
pub unsafe extern "C" fn original_observe(
    packet: *const u8,
    length: usize,
    peer_present: u8,
    peer_mss: u16,
    out: *mut u8,
) {
    let (packet, out) = unsafe { (read(packet, length), write(out, ANSWER)) };
    put_answer(out, &observe(packet, (peer_present != 0).then_some(peer_mss)));
}

#[unsafe(no_mangle)]
pub unsafe extern "C" fn original_parse_options(options: *const u8, length: usize, out: *mut u8) {
    let (options, out) = unsafe { (read(options, length), write(out, OPTIONS)) };
    put_options(out, &parse_options(options));
}

#[unsafe(no_mangle)]
pub unsafe extern "C" fn original_fit(
    record: *const u8,
    entries: *const u8,
    observation: *const u8,
    out: *mut u8,
) -> i32 {
    let record = unsafe { read(record, RECORD) };
    let entries = unsafe { read(entries, 2 * usize::from(record[20])) };
    let (observation, out) = unsafe { (read(observation, OBSERVATION), write(out, FIT)) };
    out.fill(0);
    match (signature_of(record, entries), observation_of(observation)) {
        (Some(signature), Some(observed)) => {
            put_fit(out, &fit(&signature, &observed));
            0
        }
        _ => 1,
    }
}

#[unsafe(no_mangle)]
pub unsafe extern "C" fn original_window_multiplier(observation: *const u8, out: *mut u8) -> i32 {
    let (observation, out) = unsafe { (read(observation, OBSERVATION), write(out, 3)) };
    out.fill(0);
    match observation_of(observation) {
        Some(observed) => {
            put_multiplier(out, observed.window_multiplier());
            0
        }
        None => 1,
    }
}

#[unsafe(no_mangle)]
pub unsafe extern "C" fn original_ttl_fit(
    observed: *const u8,
    signature: *const u8,
    out: *mut u8,
) -> i32 {
    let (observed, signature) = unsafe { (ttl_of(read(observed, 3)), ttl_of(read(signature, 3))) };
    let out = unsafe { write(out, 6) };
    out.fill(0);
    let (Some(observed), Some(signature)) = (observed, signature) else { return 1 };
    if let Some(fit) = ttl_fit(&observed, &signature) {
        out[0] = 1;
        out[1] = fit.out_of_range as u8;
        out[2..6].copy_from_slice(&fit.hop_distance.to_be_bytes());
    }
    0
}

#[unsafe(no_mangle)]
pub unsafe extern "C" fn original_report_hop_distance(
    observed: *const u8,
    signature: *const u8,
) -> i32 {
    match unsafe { (ttl_of(read(observed, 3)), ttl_of(read(signature, 3))) } {
        (Some(observed), Some(signature)) => report_hop_distance(&observed, &signature).into(),
        _ => -1,
    }
}

#[unsafe(no_mangle)]
pub unsafe extern "C" fn original_calculate_ttl(ttl: u8, out: *mut u8) {
    put_ttl(unsafe { write(out, 3) }, &calculate_ttl(ttl));
}

#[unsafe(no_mangle)]
pub extern "C" fn original_guess_distance(ttl: u8) -> u8 {
    guess_distance(ttl)
}

#[unsafe(no_mangle)]
pub unsafe extern "C" fn original_option_length(packet: *const u8, length: usize) -> i32 {
    option_length(unsafe { read(packet, length) }).map_or(-1, i32::from)
}

#[unsafe(no_mangle)]
pub unsafe extern "C" fn original_parse_signature(
    line: *const u8,
    length: usize,
    record: *mut u8,
    entries: *mut u8,
) -> i32 {
    let (record, entries) = unsafe { (write(record, RECORD), write(entries, 2 * ENTRIES)) };
    record.fill(0);
    entries.fill(0);
    let Ok(line) = std::str::from_utf8(unsafe { read(line, length) }) else { return 1 };
    let Some(signature) = parse_signature(line) else { return 1 };
    if put_signature(record, entries, &signature).is_none() {
        record.fill(0);
        entries.fill(0);
        return 2;
    }
    0
}

#[unsafe(no_mangle)]
pub unsafe extern "C" fn original_line(
    line: *const u8,
    length: usize,
    record: *mut u8,
    rows: *mut u8,
    room: usize,
    count: *mut usize,
) -> i32 {
    let (record, rows) = unsafe { (write(record, RECORD), write(rows, 3 * room)) };
    record.fill(0);
    rows.fill(0);
    let (answer, entries) = match read_line(unsafe { read(line, length) }) {
        LineRead::NotText => (2, 0),
        LineRead::Refused => (1, 0),
        LineRead::Read(signature) => (0, put_line(record, rows, room, &signature)),
    };
    unsafe { *count = entries };
    answer
}

/// A text for C: its first `room` bytes, and its whole length.
unsafe fn hand_over(said: &str, text: *mut u8, room: usize, length: *mut usize) {
    let held = said.len().min(room);
    if held > 0 {
        unsafe { write(text, held) }.copy_from_slice(&said.as_bytes()[..held]);
    }
    unsafe { *length = said.len() };
}

#[unsafe(no_mangle)]
pub unsafe extern "C" fn original_write_observation(
    observation: *const u8,
    text: *mut u8,
    room: usize,
    length: *mut usize,
) -> i32 {
    let mut said = String::new();
    let observed = observation_of(unsafe { read(observation, OBSERVATION) });
    let written = observed.is_some_and(|o| write_observation(&mut said, &o).is_ok());
    unsafe { hand_over(&said, text, room, length) };
    i32::from(!written)
}

#[unsafe(no_mangle)]
pub unsafe extern "C" fn original_write_record(
    record: *const u8,
    entries: *const u8,
    text: *mut u8,
    room: usize,
    length: *mut usize,
) -> i32 {
    let mut said = String::new();
    let record = unsafe { read(record, RECORD) };
    let signature = signature_of(record, unsafe { read(entries, 2 * usize::from(record[20])) });
    let written = signature.is_some_and(|s| write_signature(&mut said, &s).is_ok());
    unsafe { hand_over(&said, text, room, length) };
    i32::from(!written)
}
