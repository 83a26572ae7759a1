//! The terminal reader called from Rust: reads a bundle (document 01) on standard input and prints what the program `termread` prints.
//! What reaches standard output is always a prefix of that; if it is cut, standard error says so and the status is 1. (Rust itself opens
//! /dev/null in the place of a standard stream that is closed when the program starts, and ignores SIGPIPE.)
//!
//! usage: gateway [-l] [-r] [-s] [-u] [-w] <BUNDLE, as examples/gateway.c. Built and run by tools/link_examples:
//!     rustc --edition 2021 -O -o gateway examples/gateway.rs -C link-arg=target/staticlib/libgateway.a

// All of it is called here but what compiles a list.
#[allow(dead_code)]
mod termread;

use std::fs::File;
use std::io::{self, ErrorKind, Read, Write};
use std::mem::ManuallyDrop;
use std::os::fd::FromRawFd;
use std::process::ExitCode;
use std::thread::sleep;
use std::time::Duration;
use termread::{answer, answer_in, raw_line, raw_line_in, record_line, RAW_LINE_MOST, RECORD_LINE_MOST};
use termread::{Answer, Hit, Kind, List, ListRefusal, Mode, PacketRefusal, Quirk, Quirks, RawLine, Reason, RecordLineRefusal};

const BUNDLE_MOST: usize = 65535;

#[derive(Clone, Copy, Default)]
struct Options {
    raw_lines: bool,
    reasons: bool,
    strict: bool,
    unchecked: bool,
    records: bool,
}

/// What a bundle holds: its packets, each with the MSS of its peer, and its list.
struct Bundle<'a> {
    packets: Vec<(u16, &'a [u8])>,
    list: &'a [u8],
}

fn be16(bytes: &[u8], at: usize) -> Option<usize> {
    let pair = bytes.get(at..at.checked_add(2)?)?;
    Some(usize::from(u16::from_be_bytes([pair[0], pair[1]])))
}

/// None is refusal 12.
fn read_bundle(bytes: &[u8]) -> Option<Bundle<'_>> {
    if bytes.len() > BUNDLE_MOST {
        return None;
    }
    let (count, mut at) = (be16(bytes, 0)?, be16(bytes, 2)?);
    let (list_length, list_at) = (be16(bytes, 4)?, be16(bytes, 6)?);
    let list = bytes.get(list_at..list_at + list_length)?;
    let mut packets = Vec::with_capacity(count);
    for _ in 0..count {
        let (peer, length) = (be16(bytes, at)?, be16(bytes, at + 2)?);
        packets.push((peer as u16, bytes.get(at + 4..at + 4 + length)?));
        at += 4 + length;
    }
    (at <= bytes.len()).then_some(Bundle { packets, list })
}

fn quirks_text(word: &str, quirks: Quirks) -> String {
    let name = |quirk| match quirk {
        Quirk::Ecn => "ecn",
        Quirk::Df => "df",
        Quirk::IdNonZero => "id+",
        Quirk::IdZero => "id-",
    };
    quirks.iter().map(|quirk| format!(" {word} {}", name(quirk))).collect()
}

fn reason_text(reason: Reason) -> String {
    let hops = reason.hops.map_or(String::new(), |hops| format!(" hops {hops}"));
    hops + &quirks_text("added", reason.added) + &quirks_text("missing", reason.missing)
}

fn kind_text(kind: Kind) -> &'static str {
    match kind {
        Kind::Syn => "syn",
        Kind::SynAck => "synack",
    }
}

fn refusal_text(refusal: PacketRefusal, reasons: bool) -> String {
    let number = match refusal {
        PacketRefusal::Version => 1,
        PacketRefusal::TooShort => 2,
        PacketRefusal::HeaderLength => 3,
        PacketRefusal::UnsupportedProtocol => 4,
        PacketRefusal::Fragment => 5,
        PacketRefusal::TcpTooShort => 6,
        PacketRefusal::InvalidTcpFlags(_) => 7,
        PacketRefusal::DataOffset => 14,
    };
    match refusal {
        PacketRefusal::InvalidTcpFlags(flags) if reasons => format!("refused {number} flags {flags}"),
        _ => format!("refused {number}"),
    }
}

fn list_refusal_text(refusal: ListRefusal, reasons: bool) -> String {
    match refusal {
        ListRefusal::DoesNotFit => "refused 9".into(),
        ListRefusal::BadRecord(index) if reasons => format!("refused 10 record {index}"),
        ListRefusal::BadRecord(_) => "refused 10".into(),
    }
}

fn record_text(hit: Hit) -> String {
    format!(" record {}{}", hit.number, if hit.generic { " generic" } else { "" })
}

fn examined_text(examined: u16) -> String {
    format!(" examined {examined}")
}

fn answer_text(answer: Answer, reasons: bool) -> String {
    match answer {
        Answer::Exact { kind, hit, examined } if reasons => {
            format!("{} exact {}{}{}", kind_text(kind), hit.label, record_text(hit), examined_text(examined))
        }
        Answer::Exact { kind, hit, .. } => format!("{} exact {}", kind_text(kind), hit.label),
        Answer::Fuzzy { kind, hit, reason, examined } if reasons => {
            let found = format!("{} fuzzy {}{}", kind_text(kind), hit.label, record_text(hit));
            found + &examined_text(examined) + &reason_text(reason)
        }
        Answer::Fuzzy { kind, hit, .. } => format!("{} fuzzy {}", kind_text(kind), hit.label),
        Answer::None { kind, examined } if reasons => format!("{} none{}", kind_text(kind), examined_text(examined)),
        Answer::None { kind, .. } => format!("{} none", kind_text(kind)),
        Answer::Nothing => "nothing".into(),
        Answer::Refused(refusal) => refusal_text(refusal, reasons),
    }
}

/// The answer of a packet against a list that was checked; with -u there is none, and its bytes are checked here.
fn answer_of(packet: &[u8], mss: u16, list: Option<List>, bytes: &[u8], strict: bool) -> Result<Answer, ListRefusal> {
    let peer = (mss != 0).then_some(mss);
    match list {
        Some(list) if strict => Ok(list.answer_in(packet, peer, Mode { strict })),
        Some(list) => Ok(list.answer(packet, peer)),
        None if strict => answer_in(packet, peer, bytes, Mode { strict }),
        None => answer(packet, peer, bytes),
    }
}

/// The answers of a bundle's packets; with -u the list is checked with each, an empty one first.
fn answers(bundle: &Bundle, options: Options) -> Result<Vec<Answer>, ListRefusal> {
    let list = if options.unchecked { None } else { Some(List::new(bundle.list)?) };
    let ask = |packet, mss| answer_of(packet, mss, list, bundle.list, options.strict);
    if list.is_none() {
        ask(&[], 0)?;
    }
    bundle.packets.iter().map(|&(mss, packet)| ask(packet, mss)).collect()
}

/// A line is of ASCII alone.
fn text_of(line: &[u8]) -> String {
    String::from_utf8_lossy(line).into_owned()
}

fn raw_text(packet: &[u8], mss: u16, strict: bool) -> String {
    let peer = (mss != 0).then_some(mss);
    let mut buffer = [0; RAW_LINE_MOST];
    let seen = match strict {
        true => raw_line_in(&mut buffer, packet, peer, Mode { strict }),
        false => raw_line(&mut buffer, packet, peer),
    };
    match seen {
        RawLine::Line { line, .. } => format!(" raw {}", text_of(line)),
        RawLine::Nothing | RawLine::Refused(_) => " raw -".into(),
        RawLine::BufferTooShort => unreachable!("the buffer is for the longest line"),
    }
}

/// The records of a list that was found well formed, up to the first index that it does not have.
fn records_text(list: &[u8]) -> String {
    let mut buffer = [0; RECORD_LINE_MOST];
    let mut text = String::new();
    for index in 0.. {
        match record_line(&mut buffer, list, index) {
            Ok(line) => text += &format!("record {index} {}\n", text_of(line)),
            Err(RecordLineRefusal::NoSuchRecord) => break,
            Err(refusal) => unreachable!("the list was checked, and the buffer is for the longest line: {refusal:?}"),
        }
    }
    text
}

fn output(bytes: &[u8], options: Options) -> String {
    let bundle = match read_bundle(bytes) {
        Some(bundle) => bundle,
        None => return "refused 12\n".into(),
    };
    match answers(&bundle, options) {
        Err(refusal) => list_refusal_text(refusal, options.reasons) + "\n",
        Ok(answers) => {
            let records = if options.records { records_text(bundle.list) } else { String::new() };
            let lines = answers.into_iter().zip(&bundle.packets).map(|(answer, &(mss, packet))| {
                let raw = if options.raw_lines { raw_text(packet, mss, options.strict) } else { String::new() };
                answer_text(answer, options.reasons) + &raw + "\n"
            });
            records + &format!("packets {}\n", bundle.packets.len()) + &lines.collect::<String>()
        }
    }
}

/// A standard stream as a file: `io::stdout` takes a descriptor that is not open for writing for one that takes everything.
fn stream(descriptor: i32) -> ManuallyDrop<File> {
    // Safety: nothing else in this program reads or writes the descriptor, and it stays open.
    ManuallyDrop::new(unsafe { File::from_raw_fd(descriptor) })
}

/// A call tried again while it is interrupted or would have to wait, which is done here.
fn persist(mut call: impl FnMut() -> io::Result<usize>) -> io::Result<usize> {
    loop {
        match call() {
            Err(error) if error.kind() == ErrorKind::Interrupted => {}
            Err(error) if error.kind() == ErrorKind::WouldBlock => sleep(Duration::from_millis(1)),
            done => return done,
        }
    }
}

/// The input, up to a byte more than a bundle may have.
fn read_input() -> io::Result<Vec<u8>> {
    let mut bytes = vec![0; BUNDLE_MOST + 1];
    let mut length = 0;
    while length < bytes.len() {
        match persist(|| stream(0).read(&mut bytes[length..]))? {
            0 => break,
            got => length += got,
        }
    }
    bytes.truncate(length);
    Ok(bytes)
}

/// Ends at the first write that fails.
fn write_output(text: &[u8]) -> io::Result<()> {
    let mut rest = text;
    while !rest.is_empty() {
        match persist(|| stream(1).write(rest))? {
            0 => return Err(ErrorKind::WriteZero.into()),
            taken => rest = &rest[taken..],
        }
    }
    Ok(())
}

fn failed(message: &str) -> ExitCode {
    eprintln!("gateway: {message}");
    ExitCode::FAILURE
}

fn main() -> ExitCode {
    let mut options = Options::default();
    for word in std::env::args().skip(1) {
        match word.as_str() {
            "-l" => options.raw_lines = true,
            "-r" => options.reasons = true,
            "-s" => options.strict = true,
            "-u" => options.unchecked = true,
            "-w" => options.records = true,
            _ => {
                eprintln!("usage: gateway [-l] [-r] [-s] [-u] [-w] <BUNDLE");
                return ExitCode::from(2);
            }
        }
    }
    let Ok(bytes) = read_input() else {
        return failed("standard input could not be read");
    };
    match write_output(output(&bytes, options).as_bytes()) {
        Ok(()) => ExitCode::SUCCESS,
        Err(_) => failed("standard output could not be written, and ends early"),
    }
}
