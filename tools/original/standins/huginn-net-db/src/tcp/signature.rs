//! Stand-in: a signature, with the fields that `parse/tcp.rs` fills in and `matching.rs` reads.

use super::{IpVersion, PayloadSize, QuirkSet, TcpOption, Ttl, WindowSize};

#[derive(Debug, Clone, PartialEq)]
pub struct Signature {
    pub version: IpVersion,
    pub ittl: Ttl,
    pub olen: u8,
    pub mss: Option<u16>,
    pub wsize: WindowSize,
    pub wscale: Option<u8>,
    pub olayout: Vec<TcpOption>,
    pub quirks: QuirkSet,
    pub pclass: PayloadSize,
}
