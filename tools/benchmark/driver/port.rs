//! The port: the static library of the crate `gateway`, which ships (include/termread.h); that of the crate `counted` for a packet's
//! reading alone and for a signature line, for which the library has no call.

/// `witness::PlainObservation`: an observation as numbers (tools/witness/witness.h).
#[repr(C)]
pub struct Observation {
    pub count: u64,
    pub quirks: u32,
    pub mss: u16,
    pub wsize: u16,
    pub peer_mss: u16,
    pub tot_hdr: u16,
    pub multiple: u16,
    pub multiple_of: u8,
    pub version: u8,
    pub ttl_form: u8,
    pub ttl: u8,
    pub hops: u8,
    pub olen: u8,
    pub tos: u8,
    pub wscale: u8,
    pub pclass: u8,
    pub has_mss: u8,
    pub has_wscale: u8,
    pub has_peer_mss: u8,
    pub kinds: [u8; 40],
    pub bytes: [u8; 40],
}

/// `witness::PlainPacket`: a reading, without the window's multiplier.
#[repr(C)]
pub struct Reading {
    pub observation: Observation,
    pub answer: u8,
    pub refusal: u8,
    pub flags: u8,
}

/// `witness::PlainLine`: what is read of a signature line.
#[repr(C)]
pub struct Line {
    pub count: u64,
    pub offset: u64,
    pub refusal: u8,
    pub raw: [u8; 24],
    pub kinds: [u8; 40],
    pub bytes: [u8; 40],
}

/// `termread_result` of include/termread.h: sixteen bytes, in two registers.
#[repr(C)]
#[derive(Clone, Copy, Debug, Default, PartialEq, Eq)]
pub struct Given {
    pub outcome: u8,
    pub kind: u8,
    pub refusal: u8,
    pub tolerated: u8,
    pub label: u16,
    pub number: u16,
    pub examined: u16,
    pub value: u16,
    pub added: u8,
    pub missing: u8,
    pub hops: u8,
    pub marks: u8,
}

/// Outcomes.
pub const GOOD: u8 = 0;
pub const EXACT: u8 = 1;
pub const FUZZY: u8 = 2;
pub const NONE: u8 = 3;
pub const NOTHING: u8 = 4;
pub const REFUSED: u8 = 5;
pub const LINE: u8 = 6;

unsafe extern "C" {
    fn counted_line(line: *const u8, size: usize) -> Line;
    fn counted_observe(packet: *const u8, size: usize, peer: u16) -> Reading;
    fn counted_read(packet: *const u8, size: usize, peer: u16) -> u8;
    fn termread_check_list(list: *const u8, length: usize) -> Given;
    fn termread_answer(packet: *const u8, size: usize, peer: u16, list: *const u8, length: usize) -> Given;
    fn termread_answer_in(packet: *const u8, size: usize, peer: u16, list: *const u8, length: usize, mode: u8) -> Given;
    fn termread_answer_checked(packet: *const u8, size: usize, peer: u16, list: *const u8, length: usize) -> Given;
    fn termread_answer_checked_in(packet: *const u8, size: usize, peer: u16, list: *const u8, length: usize, mode: u8) -> Given;
    fn termread_raw_line(buffer: *mut u8, room: usize, packet: *const u8, size: usize, peer: u16) -> Given;
    fn termread_record_line(buffer: *mut u8, room: usize, list: *const u8, length: usize, index: usize) -> Given;
}

/// A peer's MSS of 0 is an absent one.
#[inline(always)]
pub fn observe(packet: &[u8], peer: u16) -> Reading {
    unsafe { counted_observe(packet.as_ptr(), packet.len(), peer) }
}

/// The reading alone, of which the answer is handed on.
#[inline(always)]
pub fn read(packet: &[u8], peer: u16) -> u8 {
    unsafe { counted_read(packet.as_ptr(), packet.len(), peer) }
}

#[inline(always)]
pub fn line(text: &[u8]) -> Line {
    unsafe { counted_line(text.as_ptr(), text.len()) }
}

#[inline(always)]
pub fn check_list(list: &[u8]) -> Given {
    unsafe { termread_check_list(list.as_ptr(), list.len()) }
}

/// What the library answers against a list that was checked before, and the same in a mode.
#[inline(always)]
pub fn checked(packet: &[u8], peer: u16, list: &[u8]) -> Given {
    unsafe { termread_answer_checked(packet.as_ptr(), packet.len(), peer, list.as_ptr(), list.len()) }
}

#[inline(always)]
pub fn checked_in(packet: &[u8], peer: u16, list: &[u8], mode: u8) -> Given {
    unsafe { termread_answer_checked_in(packet.as_ptr(), packet.len(), peer, list.as_ptr(), list.len(), mode) }
}

/// What it answers against a list that it checks first, and the same in a mode.
#[inline(always)]
pub fn unchecked(packet: &[u8], peer: u16, list: &[u8]) -> Given {
    unsafe { termread_answer(packet.as_ptr(), packet.len(), peer, list.as_ptr(), list.len()) }
}

#[inline(always)]
pub fn unchecked_in(packet: &[u8], peer: u16, list: &[u8], mode: u8) -> Given {
    unsafe { termread_answer_in(packet.as_ptr(), packet.len(), peer, list.as_ptr(), list.len(), mode) }
}

/// The raw line of a packet, and the line of a record of a list.
#[inline(always)]
pub fn raw_line(buffer: &mut [u8], packet: &[u8], peer: u16) -> Given {
    unsafe { termread_raw_line(buffer.as_mut_ptr(), buffer.len(), packet.as_ptr(), packet.len(), peer) }
}

#[inline(always)]
pub fn record_line(buffer: &mut [u8], list: &[u8], index: usize) -> Given {
    unsafe { termread_record_line(buffer.as_mut_ptr(), buffer.len(), list.as_ptr(), list.len(), index) }
}
