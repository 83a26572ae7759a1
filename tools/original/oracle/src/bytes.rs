//! The answers as bytes of fixed length, so that two answers are compared byte by byte.
//! Numbers are big-endian. `original.h` says what stands where.

use crate::*;

pub const OBSERVATION: usize = 110;
pub const ANSWER: usize = 1 + OBSERVATION;
pub const OPTIONS: usize = 87;
pub const FIT: usize = 14;
pub const RECORD: usize = 24;
pub const ENTRIES: usize = 40;

/// Two rows of 40: the kinds, and the bytes left after an end of options. Entries past 40 are cut.
fn put_layout(out: &mut [u8], layout: &[TcpOption]) {
    out[0] = layout.len().min(255) as u8;
    for (i, option) in layout.iter().take(ENTRIES).enumerate() {
        let (kind, byte) = entry_of(*option);
        out[1 + i] = kind;
        out[1 + ENTRIES + i] = byte;
    }
}

pub fn entry_of(option: TcpOption) -> (u8, u8) {
    match option {
        TcpOption::Eol(left) => (0, left),
        TcpOption::Nop => (1, 0),
        TcpOption::Mss => (2, 0),
        TcpOption::Ws => (3, 0),
        TcpOption::Sok => (4, 0),
        TcpOption::Sack => (5, 0),
        TcpOption::TS => (8, 0),
        TcpOption::Unknown(kind) => (kind, 0),
    }
}

pub fn option_of(kind: u8, byte: u8) -> TcpOption {
    match kind {
        0 => TcpOption::Eol(byte),
        1 => TcpOption::Nop,
        2 => TcpOption::Mss,
        3 => TcpOption::Ws,
        4 => TcpOption::Sok,
        5 => TcpOption::Sack,
        8 => TcpOption::TS,
        _ => TcpOption::Unknown(kind),
    }
}

pub fn put_ttl(out: &mut [u8], ttl: &Ttl) {
    let (form, value, distance) = match *ttl {
        Ttl::Value(value) => (0, value, 0),
        Ttl::Distance(value, distance) => (1, value, distance),
        Ttl::Guess(value) => (2, value, 0),
        Ttl::Bad(value) => (3, value, 0),
    };
    out[..3].copy_from_slice(&[form, value, distance]);
}

pub fn ttl_of(bytes: &[u8]) -> Option<Ttl> {
    match bytes[0] {
        0 => Some(Ttl::Value(bytes[1])),
        1 => Some(Ttl::Distance(bytes[1], bytes[2])),
        2 => Some(Ttl::Guess(bytes[1])),
        3 => Some(Ttl::Bad(bytes[1])),
        _ => None,
    }
}

fn put_u16(out: &mut [u8], number: u16) {
    out[..2].copy_from_slice(&number.to_be_bytes());
}

fn put_u32(out: &mut [u8], number: u32) {
    out[..4].copy_from_slice(&number.to_be_bytes());
}

fn u16_of(bytes: &[u8]) -> u16 {
    u16::from_be_bytes([bytes[0], bytes[1]])
}

fn u32_of(bytes: &[u8]) -> u32 {
    u32::from_be_bytes([bytes[0], bytes[1], bytes[2], bytes[3]])
}

/// A byte that says whether a number is there, then the number.
fn put_u16_if(out: &mut [u8], number: Option<u16>) {
    out[0] = number.is_some() as u8;
    put_u16(&mut out[1..], number.unwrap_or(0));
}

fn put_u8_if(out: &mut [u8], number: Option<u8>) {
    out[0] = number.is_some() as u8;
    out[1] = number.unwrap_or(0);
}

pub fn put_multiplier(out: &mut [u8], found: Option<WindowMultiplier>) {
    out[0] = found.map_or(0, |m| if m.of_mtu { 2 } else { 1 });
    put_u16(&mut out[1..], found.map_or(0, |m| m.multiple));
}

pub fn put_observation(out: &mut [u8], o: &TcpObservation) {
    out[..OBSERVATION].fill(0);
    out[0] = if o.version == IpVersion::V6 { 6 } else { 4 };
    put_ttl(&mut out[1..], &o.ittl);
    out[4] = o.olen;
    put_u16_if(&mut out[5..], o.mss);
    put_u16(&mut out[8..], o.wsize);
    put_u16(&mut out[10..], o.tot_hdr);
    put_u8_if(&mut out[12..], o.wscale);
    put_layout(&mut out[14..], &o.olayout);
    put_u32(&mut out[95..], o.quirks.bits());
    out[99] = (o.pclass != PayloadSize::Zero) as u8;
    put_u16_if(&mut out[100..], o.peer_mss);
    out[103] = o.tos;
    put_multiplier(&mut out[104..], o.window_multiplier());
}

/// The observation that these bytes stand for; what follows from the rest (104 on) is not read.
pub fn observation_of(bytes: &[u8]) -> Option<TcpObservation> {
    let count = usize::from(bytes[14]);
    if count > ENTRIES || bytes[99] > 1 {
        return None;
    }
    Some(TcpObservation {
        version: match bytes[0] {
            4 => IpVersion::V4,
            6 => IpVersion::V6,
            _ => return None,
        },
        ittl: ttl_of(&bytes[1..])?,
        olen: bytes[4],
        mss: (bytes[5] != 0).then(|| u16_of(&bytes[6..])),
        wsize: u16_of(&bytes[8..]),
        tot_hdr: u16_of(&bytes[10..]),
        wscale: (bytes[12] != 0).then_some(bytes[13]),
        olayout: (0..count).map(|i| option_of(bytes[15 + i], bytes[55 + i])).collect(),
        quirks: QuirkSet::from_bits(u32_of(&bytes[95..])),
        pclass: if bytes[99] == 0 { PayloadSize::Zero } else { PayloadSize::NonZero },
        peer_mss: (bytes[100] != 0).then(|| u16_of(&bytes[101..])),
        tos: bytes[103],
    })
}

pub fn put_answer(out: &mut [u8], answer: &Observed) {
    out[..ANSWER].fill(0);
    match answer {
        Observed::Nothing => {}
        Observed::Syn(observed) => {
            out[0] = 1;
            put_observation(&mut out[1..], observed);
        }
        Observed::SynAck(observed) => {
            out[0] = 2;
            put_observation(&mut out[1..], observed);
        }
        Observed::Refused(Refusal::UnsupportedProtocol) => out[0] = 3,
        Observed::Refused(Refusal::UnexpectedPackage) => out[0] = 4,
        Observed::Refused(Refusal::InvalidTcpFlags(flags)) => {
            out[..2].copy_from_slice(&[5, *flags])
        }
        Observed::Refused(Refusal::Other) => out[0] = 6,
    }
}

pub fn put_options(out: &mut [u8], parsed: &ParsedTcpOptions) {
    out[..OPTIONS].fill(0);
    out[0] = parsed.malformed as u8;
    put_u16_if(&mut out[1..], parsed.mss);
    put_u8_if(&mut out[4..], parsed.wscale);
    put_layout(&mut out[6..], &parsed.olayout);
}

pub fn put_fit(out: &mut [u8], fit: &Option<SignatureFit<FuzzyReason>>) {
    out[..FIT].fill(0);
    match fit {
        None => {}
        Some(SignatureFit::Exact) => out[0] = 1,
        Some(SignatureFit::Fuzzy(reason)) => {
            out[0] = 2;
            out[1] = reason.implausible_hop_distance.is_some() as u8;
            put_u32(&mut out[2..], reason.implausible_hop_distance.unwrap_or(0));
            put_u32(&mut out[6..], reason.added_quirks.bits());
            put_u32(&mut out[10..], reason.missing_quirks.bits());
        }
    }
}

/// The signature of a list record of document 01 and its own layout entries (kind and byte, in pairs).
/// None if a code is not listed or a multiple is over 255; the other faults of a record are not looked for.
pub fn signature_of(record: &[u8], entries: &[u8]) -> Option<Signature> {
    let number = u16_of(&record[9..]);
    Some(Signature {
        version: match record[0] {
            0 => IpVersion::Any,
            4 => IpVersion::V4,
            6 => IpVersion::V6,
            _ => return None,
        },
        ittl: ttl_of(&record[1..])?,
        olen: record[4],
        mss: (record[5] != 0).then(|| u16_of(&record[6..])),
        wsize: match record[8] {
            0 => WindowSize::Any,
            1 => WindowSize::Value(number),
            2 => WindowSize::Mod(number),
            3 => WindowSize::Mss(u8::try_from(number).ok()?),
            4 => WindowSize::Mtu(u8::try_from(number).ok()?),
            _ => return None,
        },
        wscale: (record[11] != 0).then_some(record[12]),
        olayout: entries.chunks_exact(2).map(|entry| option_of(entry[0], entry[1])).collect(),
        quirks: QuirkSet::from_bits(u32_of(&record[14..])),
        pclass: match record[13] {
            0 => PayloadSize::Zero,
            1 => PayloadSize::NonZero,
            2 => PayloadSize::Any,
            _ => return None,
        },
    })
}

/// The record of a signature but for its layout: label, first entry and count are 0.
fn put_fields(record: &mut [u8], s: &Signature) {
    record[..RECORD].fill(0);
    record[0] = match s.version {
        IpVersion::Any => 0,
        IpVersion::V4 => 4,
        IpVersion::V6 => 6,
    };
    put_ttl(&mut record[1..], &s.ittl);
    record[4] = s.olen;
    put_u16_if(&mut record[5..], s.mss);
    let (form, number) = match s.wsize {
        WindowSize::Any => (0, 0),
        WindowSize::Value(number) => (1, number),
        WindowSize::Mod(number) => (2, number),
        WindowSize::Mss(number) => (3, u16::from(number)),
        WindowSize::Mtu(number) => (4, u16::from(number)),
    };
    record[8] = form;
    put_u16(&mut record[9..], number);
    put_u8_if(&mut record[11..], s.wscale);
    record[13] = match s.pclass {
        PayloadSize::Zero => 0,
        PayloadSize::NonZero => 1,
        PayloadSize::Any => 2,
    };
    put_u32(&mut record[14..], s.quirks.bits());
}

/// An unknown option whose kind has a name: a layout entry cannot hold it.
pub fn is_named_unknown(option: TcpOption) -> bool {
    let (kind, byte) = entry_of(option);
    option_of(kind, byte) != option
}

/// The list record of a signature (label and first entry 0) and its layout entries.
/// None if a record cannot hold it: over 40 entries, or an unknown kind that has a name.
pub fn put_signature(record: &mut [u8], entries: &mut [u8], s: &Signature) -> Option<()> {
    record[..RECORD].fill(0);
    entries[..2 * ENTRIES].fill(0);
    if s.olayout.len() > ENTRIES || s.olayout.iter().any(|option| is_named_unknown(*option)) {
        return None;
    }
    put_fields(record, s);
    record[20] = s.olayout.len() as u8;
    for (i, option) in s.olayout.iter().enumerate() {
        let (kind, byte) = entry_of(*option);
        entries[2 * i] = kind;
        entries[2 * i + 1] = byte;
    }
    Some(())
}

/// The same of any signature: three rows of as many entries as there is room for (kinds, bytes, whether the kind is an unknown one
/// that has a name). Gives the number of entries; in the record it stands modulo 256.
pub fn put_line(record: &mut [u8], rows: &mut [u8], room: usize, s: &Signature) -> usize {
    put_fields(record, s);
    record[20] = s.olayout.len() as u8;
    rows[..3 * room].fill(0);
    for (i, option) in s.olayout.iter().take(room).enumerate() {
        let (kind, byte) = entry_of(*option);
        rows[i] = kind;
        rows[room + i] = byte;
        rows[2 * room + i] = is_named_unknown(*option) as u8;
    }
    s.olayout.len()
}
