//! The original's answers, as plain values. What they are made from is the original's own text.

pub mod bytes;
#[cfg(feature = "c")]
pub mod c;

pub use huginn_net_db::db_matching_trait::SignatureFit;
pub use huginn_net_db::tcp::{Signature, TtlFit, report_hop_distance, ttl_fit};
pub use huginn_net_tcp::output::FuzzyReason;
pub use huginn_net_tcp::tcp::{
    IpVersion, ParsedTcpOptions, PayloadSize, QuirkSet, TcpObservation, TcpOption, Ttl,
    WindowMultiplier, WindowSize, calculate_ttl, guess_distance, parse_options_raw,
};

use huginn_net_db::db_matching_trait::DatabaseSignature;
use huginn_net_tcp::process::flow::{ObservableTCPPackage, process_tcp_ipv4, process_tcp_ipv6};
use huginn_net_tcp::tcp::IpOptions;
use huginn_net_tcp::{ConnectionTracker, HuginnNetTcpError};
use pnet::packet::Packet;
use pnet::packet::ipv4::Ipv4Packet;
use pnet::packet::ipv6::Ipv6Packet;
use pnet::packet::tcp::TcpPacket;
use std::fmt::{self, Display, Write};

#[derive(Debug, Clone, Copy, PartialEq, Eq)]
pub enum Refusal {
    UnsupportedProtocol,
    UnexpectedPackage,
    InvalidTcpFlags(u8),
    /// Any other error of the original; also no packet at all: neither version 4 nor 6, or too short.
    Other,
}

#[derive(Debug, Clone, PartialEq)]
pub enum Observed {
    Refused(Refusal),
    Nothing,
    Syn(TcpObservation),
    SynAck(TcpObservation),
}

/// What the original observes in one packet. The peer's MSS reaches it by its own way: the tracker,
/// new for each packet, is first shown the SYN that the packet answers.
pub fn observe(packet: &[u8], peer_mss: Option<u16>) -> Observed {
    let mut tracker = ConnectionTracker::new(1);
    if let Some(mss) = peer_mss {
        show_peer_syn(packet, mss, &mut tracker);
    }
    answer_of(process(packet, &mut tracker))
}

/// The original's entry for the version that the top four bits name; none if there is no such packet.
pub fn process(
    packet: &[u8],
    tracker: &mut ConnectionTracker,
) -> Option<Result<ObservableTCPPackage, HuginnNetTcpError>> {
    match packet.first()? >> 4 {
        4 => Some(process_tcp_ipv4(&Ipv4Packet::new(packet)?, tracker)),
        6 => Some(process_tcp_ipv6(&Ipv6Packet::new(packet)?, tracker)),
        _ => None,
    }
}

fn answer_of(result: Option<Result<ObservableTCPPackage, HuginnNetTcpError>>) -> Observed {
    match result {
        Some(Ok(found)) => match (found.tcp_request, found.tcp_response) {
            (Some(syn), None) => Observed::Syn(syn.matching),
            (None, Some(syn_ack)) => Observed::SynAck(syn_ack.matching),
            (None, None) => Observed::Nothing,
            (Some(_), Some(_)) => unreachable!("a packet is a SYN or a SYN+ACK"),
        },
        Some(Err(error)) => Observed::Refused(match error {
            HuginnNetTcpError::UnsupportedProtocol(_) => Refusal::UnsupportedProtocol,
            HuginnNetTcpError::UnexpectedPackage(_) => Refusal::UnexpectedPackage,
            HuginnNetTcpError::InvalidTcpFlags(flags) => Refusal::InvalidTcpFlags(flags),
            _ => Refusal::Other,
        }),
        None => Observed::Refused(Refusal::Other),
    }
}

/// Shows the tracker a SYN with addresses and ports of `packet` exchanged and this MSS.
/// A packet without a TCP part names no flow, and needs none.
fn show_peer_syn(packet: &[u8], mss: u16, tracker: &mut ConnectionTracker) {
    let mut syn = [0u8; 64];
    let tcp_at = match packet.first().map(|byte| byte >> 4) {
        Some(4) => {
            let Some(ip) = Ipv4Packet::new(packet) else { return };
            let Some(tcp) = TcpPacket::new(ip.payload()) else { return };
            syn[0] = 0x45;
            syn[3] = 44;
            syn[9] = 6;
            syn[12..16].copy_from_slice(&ip.get_destination().octets());
            syn[16..20].copy_from_slice(&ip.get_source().octets());
            write_tcp_syn(&mut syn[20..], &tcp, mss);
            20
        }
        Some(6) => {
            let Some(ip) = Ipv6Packet::new(packet) else { return };
            let Some(tcp) = TcpPacket::new(ip.payload()) else { return };
            syn[0] = 0x60;
            syn[5] = 24;
            syn[6] = 6;
            syn[8..24].copy_from_slice(&ip.get_destination().octets());
            syn[24..40].copy_from_slice(&ip.get_source().octets());
            write_tcp_syn(&mut syn[40..], &tcp, mss);
            40
        }
        _ => return,
    };
    let _ = process(&syn[..tcp_at + 24], tracker);
}

/// A TCP header of 24 bytes: SYN, ports of `answer` exchanged, the MSS its only option.
fn write_tcp_syn(syn: &mut [u8], answer: &TcpPacket, mss: u16) {
    syn[0..2].copy_from_slice(&answer.get_destination().to_be_bytes());
    syn[2..4].copy_from_slice(&answer.get_source().to_be_bytes());
    syn[12] = 0x60;
    syn[13] = 0x02;
    syn[20..22].copy_from_slice(&[2, 4]);
    syn[22..24].copy_from_slice(&mss.to_be_bytes());
}

pub fn parse_options(options: &[u8]) -> ParsedTcpOptions {
    parse_options_raw(options)
}

pub fn fit(signature: &Signature, observed: &TcpObservation) -> Option<SignatureFit<FuzzyReason>> {
    signature.fit(observed)
}

/// Length of IPv4 options or IPv6 extension headers, as `ip_options.rs` has it.
pub fn option_length(packet: &[u8]) -> Option<u8> {
    match packet.first()? >> 4 {
        4 => Some(IpOptions::calculate_ipv4_length(&Ipv4Packet::new(packet)?)),
        6 => Some(IpOptions::calculate_ipv6_length(&Ipv6Packet::new(packet)?)),
        _ => None,
    }
}

/// A signature from p0f's text form.
pub fn parse_signature(line: &str) -> Option<Signature> {
    line.parse().ok()
}

#[derive(Debug, Clone, PartialEq)]
pub enum LineRead {
    /// The original's parser takes text: other bytes cannot be asked.
    NotText,
    Refused,
    Read(Signature),
}

/// A line as the original's `from_str` reads it.
pub fn read_line(line: &[u8]) -> LineRead {
    match std::str::from_utf8(line) {
        Err(_) => LineRead::NotText,
        Ok(text) => parse_signature(text).map_or(LineRead::Refused, LineRead::Read),
    }
}

/// The text of an observation: the original's own Display.
pub fn write_observation(out: &mut String, observed: &TcpObservation) -> fmt::Result {
    write!(out, "{observed}")
}

fn write_or_star(out: &mut String, number: Option<impl Display>) -> fmt::Result {
    match number {
        Some(number) => write!(out, "{number}"),
        None => out.write_str("*"),
    }
}

/// The text of a signature: the original's Displays of its parts, put together as the one of an observation puts them. That of the
/// signature itself is not in the text.
pub fn write_signature(out: &mut String, s: &Signature) -> fmt::Result {
    write!(out, "{}:{}:{}:", s.version, s.ittl, s.olen)?;
    write_or_star(out, s.mss)?;
    write!(out, ":{},", s.wsize)?;
    write_or_star(out, s.wscale)?;
    out.write_str(":")?;
    for (i, option) in s.olayout.iter().enumerate() {
        if i > 0 {
            out.write_str(",")?;
        }
        write!(out, "{option}")?;
    }
    write!(out, ":{}:{}", s.quirks, s.pclass)
}
