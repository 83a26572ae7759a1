//! The rules that document 01 writes out for packets and option strings, against the original on random
//! input: `rules [HOW_MANY [SEED]]`. Each kind of difference is shown once, by its shortest input.

use oracle::bytes::{ANSWER, OPTIONS, put_answer, put_options};
use oracle::{observe, option_length, parse_options};
use std::collections::BTreeMap;

// ------------------------------------------------------------------------------------ the rules

fn be16(s: &[u8], at: usize) -> u16 {
    u16::from(s[at]) * 256 + u16::from(s[at + 1])
}

fn all_zero(s: &[u8]) -> bool {
    s.iter().all(|&b| b == 0)
}

/// `s` from `start` to `end`, never past the slice; empty if the end does not exceed the start.
fn part(s: &[u8], start: usize, end: usize) -> &[u8] {
    let end = end.min(s.len());
    if end <= start { &[] } else { &s[start..end] }
}

/// Refusals 1 to 3: outside the domain of equality.
fn no_packet(p: &[u8]) -> bool {
    match p.first().map(|b| b / 16) {
        Some(4) => p.len() < 20 || p[0] % 16 < 5,
        Some(6) => p.len() < 40,
        _ => true,
    }
}

fn answer(p: &[u8], peer: Option<u16>) -> [u8; ANSWER] {
    let mut out = [0; ANSWER];
    let six = p[0] / 16 == 6;
    if p[if six { 6 } else { 9 }] != 6 {
        out[0] = 3;
        return out;
    }
    let header = if six { 40 } else { usize::from(p[0] % 16) * 4 };
    let (length, ttl, class) = if six {
        (40 + usize::from(be16(p, 4)), p[7], p[0] % 16 * 16 + p[1] / 16)
    } else {
        (usize::from(be16(p, 2)), p[8], p[1])
    };
    let fragment = !six && be16(p, 6) & 0x3fff != 0;
    let tcp = part(p, header, length);
    if fragment || tcp.len() < 20 {
        out[0] = 4;
        return out;
    }

    let flags = tcp[13];
    let on = |bits: u8| flags & bits != 0;
    let (fin, syn, rst, push, ack, urg) = (on(1), on(2), on(4), on(8), on(16), on(32));
    if syn && (fin || rst) || fin && rst || !(syn || ack || fin || rst) {
        out[..2].copy_from_slice(&[5, flags]);
        return out;
    }
    if !syn || fin || rst {
        return out;
    }

    let offset = usize::from(tcp[12] / 16) * 4;
    let walk = Walk::of(part(tcp, 20, offset), !ack);
    let mut quirks = walk.quirks;
    let mut add = |quirk: u32, holds: bool| quirks |= if holds { quirk } else { 0 };
    add(0x1, class % 4 != 0 || on(0xc0));
    if six {
        add(0x20, p[1] % 16 != 0 || !all_zero(&p[2..4]));
    } else {
        let (must_be_zero, df, id) = (p[6] & 0x80 != 0, p[6] & 0x40 != 0, be16(p, 4));
        add(0x2, df);
        add(0x4, df && id != 0);
        add(0x8, !df && id == 0);
        add(0x10, must_be_zero);
    }
    add(0x1000, all_zero(&tcp[4..8]));
    add(0x2000, !ack && !all_zero(&tcp[8..12]));
    add(0x4000, ack && all_zero(&tcp[8..12]));
    add(0x8000, !urg && !all_zero(&tcp[18..20]));
    add(0x1_0000, urg);
    add(0x2_0000, push);

    out[0] = if ack { 2 } else { 1 };
    let o = &mut out[1..];
    o[0] = if six { 6 } else { 4 };
    o[1..4].copy_from_slice(&ttl_reading(ttl));
    o[4] = if six { 0 } else { ((header - 20).min(255)) as u8 };
    let peer = if ack { peer.filter(|&mss| mss != 0) } else { None };
    let (window, total) = (be16(tcp, 14), (header + offset) as u16);
    number(&mut o[5..], walk.mss);
    o[8..10].copy_from_slice(&window.to_be_bytes());
    o[10..12].copy_from_slice(&total.to_be_bytes());
    o[12..14].copy_from_slice(&[walk.scale.is_some() as u8, walk.scale.unwrap_or(0)]);
    walk.put_layout(&mut o[14..]);
    o[95..99].copy_from_slice(&quirks.to_be_bytes());
    o[99] = (tcp.len() > offset.max(20)) as u8;
    number(&mut o[100..], peer);
    o[103] = class / 4;
    let stamped = walk.kinds.contains(&8) && quirks & 0x100_0000 == 0;
    if let Some((of_mtu, multiple)) = multiplier(window, walk.mss, total, stamped, six, peer) {
        o[104] = if of_mtu { 2 } else { 1 };
        o[105..107].copy_from_slice(&multiple.to_be_bytes());
    }
    out
}

fn number(out: &mut [u8], n: Option<u16>) {
    out[0] = n.is_some() as u8;
    out[1..3].copy_from_slice(&n.unwrap_or(0).to_be_bytes());
}

/// Form, TTL, distance: byte 0 is Bad; a guess of at most 30 is Distance, else Value.
fn ttl_reading(ttl: u8) -> [u8; 3] {
    let start = [32, 64, 128, 255].into_iter().find(|&s| ttl <= s).unwrap_or(255);
    match (ttl, start - ttl) {
        (0, _) => [3, 0, 0],
        (_, distance) if distance <= 30 => [1, ttl, distance],
        _ => [0, ttl, 0],
    }
}

fn multiplier(
    window: u16,
    mss: Option<u16>,
    total: u16,
    stamped: bool,
    six: bool,
    peer: Option<u16>,
) -> Option<(bool, u16)> {
    let mss = mss.filter(|&m| m >= 100)?;
    let peer = peer.unwrap_or(0);
    let divisors = [
        (true, false, mss),
        (stamped, false, mss.saturating_sub(12)),
        (true, false, 1460),
        (true, false, 1448),
        (six, false, 1440),
        (six, false, 1428),
        (true, true, mss.saturating_add(40)),
        (true, true, mss.saturating_add(total)),
        (six, true, mss.saturating_add(60)),
        (true, true, 1500),
        (true, false, peer),
        (true, false, peer.saturating_sub(12)),
    ];
    let (_, of_mtu, divisor) = divisors
        .into_iter()
        .find(|&(applies, _, d)| applies && d != 0 && window != 0 && window % d == 0)?;
    Some((of_mtu, window / divisor))
}

#[derive(Default)]
struct Walk {
    kinds: Vec<u8>,
    left: Vec<u8>,
    mss: Option<u16>,
    scale: Option<u8>,
    quirks: u32,
    malformed: bool,
}

impl Walk {
    /// The walk of `flow.rs`: it goes on after clipping.
    fn of(options: &[u8], syn: bool) -> Walk {
        let mut walk = Walk::default();
        let mut at = 0;
        while at < options.len() {
            at = walk.step(options, at, syn);
        }
        walk
    }

    /// `parse_options_raw`: it stops before an option that runs past the end.
    fn strict(options: &[u8]) -> Walk {
        let mut walk = Walk::default();
        let mut at = 0;
        while at < options.len() {
            if at + size(options, at) > options.len() {
                walk.malformed = true;
                break;
            }
            at = walk.step(options, at, false);
        }
        walk
    }

    /// Reads the option at `at`; gives where the next one begins.
    fn step(&mut self, options: &[u8], at: usize, syn: bool) -> usize {
        let kind = options[at];
        let next = at + size(options, at);
        let data = if kind < 2 { &[] } else { part(options, at + 2, next) };
        self.kinds.push(kind);
        self.left.push(if kind == 0 { (options.len() - next) as u8 } else { 0 });
        match kind {
            0 => {
                if !all_zero(&options[next..]) {
                    self.quirks |= 0x400_0000;
                }
                return options.len();
            }
            2 if data.len() >= 2 => self.mss = Some(be16(data, 0)),
            3 if !data.is_empty() => {
                self.scale = Some(data[0]);
                if data[0] > 14 {
                    self.quirks |= 0x800_0000;
                }
            }
            8 => {
                if data.len() >= 4 && all_zero(&data[..4]) {
                    self.quirks |= 0x100_0000;
                }
                if syn && data.len() >= 8 && !all_zero(&data[4..8]) {
                    self.quirks |= 0x200_0000;
                }
            }
            _ => {}
        }
        next
    }

    fn put_layout(&self, out: &mut [u8]) {
        out[0] = self.kinds.len() as u8;
        out[1..1 + self.kinds.len()].copy_from_slice(&self.kinds);
        out[41..41 + self.left.len()].copy_from_slice(&self.left);
    }

    fn put(&self) -> [u8; OPTIONS] {
        let mut out = [0; OPTIONS];
        out[0] = self.malformed as u8;
        number(&mut out[1..], self.mss);
        out[4..6].copy_from_slice(&[self.scale.is_some() as u8, self.scale.unwrap_or(0)]);
        self.put_layout(&mut out[6..]);
        out
    }
}

/// Kinds 0 and 1 take one byte; any other its length byte, but 2 if that is absent, 0 or 1.
fn size(options: &[u8], at: usize) -> usize {
    match (options[at], options.get(at + 1)) {
        (0 | 1, _) => 1,
        (_, Some(&length)) if length > 1 => usize::from(length),
        _ => 2,
    }
}

/// `ip_options.rs`, as module 4 of document 01 says it.
fn rule_option_length(p: &[u8]) -> u8 {
    if p[0] / 16 == 4 {
        return (usize::from(p[0] % 16).saturating_sub(5) * 4).min(255) as u8;
    }
    let payload = part(p, 40, 40 + usize::from(be16(p, 4)));
    match (p[6], payload) {
        (6, _) | (_, []) => 0,
        (44, _) => 8,
        (_, [_, second, ..]) => ((usize::from(*second) + 1) * 8 % 256) as u8,
        (_, [_]) => 0,
    }
}

// -------------------------------------------------------------------------------- random input

struct Random(u64);

impl Random {
    fn next(&mut self) -> u64 {
        self.0 ^= self.0 << 13;
        self.0 ^= self.0 >> 7;
        self.0 ^= self.0 << 17;
        self.0.wrapping_mul(0x2545_f491_4f6c_dd1d) >> 16
    }

    fn below(&mut self, n: usize) -> usize {
        (self.next() % n as u64) as usize
    }

    fn once_in(&mut self, n: usize) -> bool {
        self.below(n) == 0
    }

    fn byte(&mut self) -> u8 {
        self.next() as u8
    }

    fn pick<T: Copy>(&mut self, from: &[T]) -> T {
        from[self.below(from.len())]
    }

    /// Bytes that are often all zero.
    fn fill(&mut self, s: &mut [u8]) {
        if !self.once_in(3) {
            s.iter_mut().for_each(|b| *b = self.byte());
        }
    }

    fn mss(&mut self) -> u16 {
        let any = self.next() as u16;
        self.pick(&[1460, 1440, 1380, 536, 100, 99, 12, 13, 0, 65500, 65535, any])
    }

    /// Options that are mostly whole, then cut or filled up to `length`.
    fn options(&mut self, length: usize) -> Vec<u8> {
        let mut s = Vec::new();
        while s.len() < length {
            match self.below(12) {
                0 => s.push(0),
                1 | 2 => s.push(1),
                3 | 4 => {
                    s.extend([2, 4]);
                    s.extend(self.mss().to_be_bytes());
                }
                5 => s.extend([3, 3, self.below(18) as u8]),
                6 => s.extend([4, 2]),
                7 | 8 => {
                    let mut stamps = [0; 8];
                    self.fill(&mut stamps[..4]);
                    self.fill(&mut stamps[4..]);
                    s.extend([8, 10]);
                    s.extend(stamps);
                }
                9 => s.extend([self.below(10) as u8, self.below(14) as u8]),
                _ => s.push(self.byte()),
            }
        }
        s.truncate(length);
        s
    }

    /// A packet that is mostly sound, or now and then any bytes.
    fn packet(&mut self) -> Vec<u8> {
        if self.once_in(20) {
            let n = self.below(100);
            return (0..n).map(|_| self.byte()).collect();
        }
        let six = self.once_in(3);
        let words = if self.once_in(8) { self.below(16) } else { 5 };
        let header = if six { 40 } else { (words * 4).max(20) };
        let offset = if self.once_in(6) { self.below(16) } else { 5 + self.below(11) };
        let option_bytes = (offset * 4).saturating_sub(20);
        let mut p = vec![0; header];
        self.fill(&mut p);
        let mut tcp = vec![0; 20];
        for (from, to) in [(0, 4), (4, 8), (8, 12), (14, 16), (16, 18), (18, 20)] {
            self.fill(&mut tcp[from..to]);
        }
        tcp[12] = (offset * 16) as u8 + self.byte() % 16;
        let any = self.byte();
        tcp[13] = self.pick(&[2, 2, 2, 18, 18, 18, 2 | any & 0xe8, 18 | any & 0xe8, any]);
        if self.once_in(2) {
            let window = self
                .mss()
                .wrapping_mul(self.below(8) as u16)
                .wrapping_add(self.pick(&[0, 12, 40, 44, 60]));
            tcp[14..16].copy_from_slice(&window.to_be_bytes());
        }
        p.extend(tcp);
        p.extend(self.options(option_bytes));
        if self.once_in(3) {
            let n = self.below(30);
            p.extend((0..n).map(|i| i as u8));
        }
        let near = |r: &mut Random, n: usize| match r.below(8) {
            0 => r.next() as u16,
            1 => (n + r.below(9)).saturating_sub(4) as u16,
            2 => r.below(n + 1) as u16,
            _ => n as u16,
        };
        if six {
            p[0] = 0x60 + p[0] % 16;
            let length = near(self, p.len() - 40);
            p[4..6].copy_from_slice(&length.to_be_bytes());
            p[6] = if self.once_in(16) { self.pick(&[0, 17, 43, 44, 60]) } else { 6 };
        } else {
            p[0] = 0x40 + words as u8;
            let length = near(self, p.len());
            p[2..4].copy_from_slice(&length.to_be_bytes());
            let fragment = self.pick(&[[0x20, 0], [0, 1], [0x1f, 0xff], [0x10, 0]]);
            let parts = if self.once_in(8) { fragment } else { [0, 0] };
            p[6] = p[6] & 0xc0 | parts[0];
            p[7] = parts[1];
            p[9] = if self.once_in(16) { self.byte() } else { 6 };
        }
        if self.once_in(6) {
            let cut = self.below(p.len() + 1);
            p.truncate(cut);
        }
        if self.once_in(10) && !p.is_empty() {
            let at = self.below(p.len());
            p[at] = self.byte();
        }
        p
    }
}

// ------------------------------------------------------------------------------------ the runs

fn hex(s: &[u8]) -> String {
    s.iter().map(|b| format!("{b:02x}")).collect::<Vec<_>>().join(" ")
}

#[derive(Default)]
struct Differences(BTreeMap<String, (Vec<u8>, String)>);

impl Differences {
    /// Files a difference under the places where the two answers differ; keeps the shortest input.
    fn compare(&mut self, what: &str, input: &[u8], rule: &[u8], original: &[u8]) {
        if rule == original {
            return;
        }
        let places: Vec<usize> = (0..rule.len()).filter(|&i| rule[i] != original[i]).collect();
        let shown = format!("rule {} original {}", hex(rule), hex(original));
        let entry =
            self.0.entry(format!("{what} {places:?}")).or_insert((input.to_vec(), shown.clone()));
        if input.len() < entry.0.len() {
            *entry = (input.to_vec(), shown);
        }
    }
}

fn main() {
    let word =
        |n: usize, or: u64| std::env::args().nth(n).map_or(or, |w| w.parse().expect("a number"));
    let (how_many, seed) = (word(1, 100_000), word(2, 1));
    let mut random = Random(seed.wrapping_mul(0x9e37_79b9_7f4a_7c15) | 1);
    let mut differences = Differences::default();
    let mut answers = [0u64; 7];
    let mut outside = 0u64;
    for _ in 0..how_many {
        let packet = random.packet();
        let peer = if random.once_in(2) { Some(random.mss()) } else { None };
        let mut original = [0; ANSWER];
        put_answer(&mut original, &observe(&packet, peer));
        if no_packet(&packet) {
            outside += 1;
        } else {
            answers[usize::from(original[0])] += 1;
            differences.compare("packet", &packet, &answer(&packet, peer), &original);
            let length = option_length(&packet).expect("a packet");
            differences.compare(
                "option length",
                &packet,
                &[rule_option_length(&packet)],
                &[length],
            );
        }

        let length = random.below(41);
        let options = random.options(length);
        let mut original = [0; OPTIONS];
        put_options(&mut original, &parse_options(&options));
        differences.compare("options", &options, &Walk::strict(&options).put(), &original);
    }
    println!(
        "packets {how_many}, of these outside the domain {outside}; option strings {how_many}"
    );
    println!(
        "nothing {}, SYN {}, SYN+ACK {}, protocol {}, package {}, flags {}, other {}",
        answers[0], answers[1], answers[2], answers[3], answers[4], answers[5], answers[6]
    );
    for (what, (input, shown)) in &differences.0 {
        println!("differs: {what}: {}\n  {shown}", hex(input));
    }
    println!("kinds of difference: {}", differences.0.len());
    std::process::exit(i32::from(!differences.0.is_empty()));
}
