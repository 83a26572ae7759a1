//! The packets that are measured.

/// A SYN as Linux sends it: MSS, SACK permitted, timestamps, no-op, scale. Window 64240, 44 of the MSS.
pub const LINUX: [u8; 60] = [
    0x45, 0, 0, 60, 0x1c, 0x46, 0x40, 0, 64, 6, 0, 0, 10, 0, 0, 1, 10, 0, 0, 2, //
    0xd4, 0x31, 0, 80, 0x5d, 0x1f, 2, 9, 0, 0, 0, 0, 0xa0, 2, 0xfa, 0xf0, 0, 0, 0, 0, //
    2, 4, 5, 0xb4, 4, 2, 8, 10, 0x11, 0x22, 0x33, 0x44, 0, 0, 0, 0, 1, 3, 3, 7,
];

/// A SYN as Windows sends it: MSS, no-op, scale, two no-ops, SACK permitted.
pub const WINDOWS: [u8; 52] = [
    0x45, 0, 0, 52, 0x1c, 0x46, 0x40, 0, 128, 6, 0, 0, 10, 0, 0, 1, 10, 0, 0, 2, //
    0xd4, 0x31, 0, 80, 0x5d, 0x1f, 2, 9, 0, 0, 0, 0, 0x80, 2, 0xfa, 0xf0, 0, 0, 0, 0, //
    2, 4, 5, 0xb4, 1, 3, 3, 8, 1, 1, 4, 2,
];

/// Linux's answer to `PEER`.
pub const SYN_ACK: [u8; 60] = [
    0x45, 0, 0, 60, 0, 0, 0x40, 0, 64, 6, 0, 0, 10, 0, 0, 2, 10, 0, 0, 1, //
    0, 80, 0xd4, 0x31, 0x77, 0x1f, 2, 9, 0x5d, 0x1f, 2, 10, 0xa0, 0x12, 0xfe, 0x88, 0, 0, 0, 0, //
    2, 4, 5, 0xb4, 4, 2, 8, 10, 0x11, 0x22, 0x33, 0x44, 0x55, 0x66, 0x77, 0x88, 1, 3, 3, 7,
];

/// A SYN whose only option is an MSS; the flow that `SYN_ACK` answers.
pub const PEER: [u8; 44] = [
    0x45, 0, 0, 44, 0x1c, 0x46, 0x40, 0, 64, 6, 0, 0, 10, 0, 0, 1, 10, 0, 0, 2, //
    0xd4, 0x31, 0, 80, 0x5d, 0x1f, 2, 9, 0, 0, 0, 0, 0x60, 2, 0xfa, 0xf0, 0, 0, 0, 0, 2, 4, 5, 0xb4,
];

pub const PEER_MSS: u16 = 1460;

/// Linux's SYN over IPv6, with a flow label.
pub const LINUX_V6: [u8; 80] = [
    0x60, 1, 2, 3, 0, 40, 6, 64, //
    0xfd, 0, 0, 0, 0, 0, 0, 0, 0, 0, 0, 0, 0, 0, 0, 1, //
    0xfd, 0, 0, 0, 0, 0, 0, 0, 0, 0, 0, 0, 0, 0, 0, 2, //
    0xd4, 0x31, 0, 80, 0x5d, 0x1f, 2, 9, 0, 0, 0, 0, 0xa0, 2, 0xfd, 0x20, 0, 0, 0, 0, //
    2, 4, 5, 0xa0, 4, 2, 8, 10, 0x11, 0x22, 0x33, 0x44, 0, 0, 0, 0, 1, 3, 3, 7,
];

/// A SYN without options.
pub const NO_OPTIONS: [u8; 40] = [
    0x45, 0, 0, 40, 0x1c, 0x46, 0x40, 0, 64, 6, 0, 0, 10, 0, 0, 1, 10, 0, 0, 2, //
    0xd4, 0x31, 0, 80, 0x5d, 0x1f, 2, 9, 0, 0, 0, 0, 0x50, 2, 0xfa, 0xf0, 0, 0, 0, 0,
];

/// A SYN with forty options: no-ops.
pub fn forty_options() -> [u8; 80] {
    let mut packet = [1; 80];
    packet[..40].copy_from_slice(&NO_OPTIONS);
    packet[3] = 80;
    packet[32] = 0xf0;
    packet
}
