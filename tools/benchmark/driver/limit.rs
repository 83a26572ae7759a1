//! The limit: the same answers in C (tools/benchmark/limit), as gcc compiles it.

use crate::port::Given;

/// `limit_observation`: what C read of a packet, which nobody here looks into.
#[repr(C, align(16))]
pub struct Seen([u8; 128]);

impl Seen {
    pub fn new() -> Self {
        Self([0; 128])
    }
}

unsafe extern "C" {
    fn limit_read(packet: *const u8, size: usize, peer: u16, seen: *mut Seen) -> u8;
    fn limit_check_list(list: *const u8, length: usize) -> Given;
    fn limit_answer(packet: *const u8, size: usize, peer: u16, list: *const u8, length: usize) -> Given;
    fn limit_answer_checked(packet: *const u8, size: usize, peer: u16, list: *const u8, length: usize) -> Given;
}

#[inline(always)]
pub fn read(packet: &[u8], peer: u16, seen: &mut Seen) -> u8 {
    unsafe { limit_read(packet.as_ptr(), packet.len(), peer, seen) }
}

#[inline(always)]
pub fn check_list(list: &[u8]) -> Given {
    unsafe { limit_check_list(list.as_ptr(), list.len()) }
}

#[inline(always)]
pub fn unchecked(packet: &[u8], peer: u16, list: &[u8]) -> Given {
    unsafe { limit_answer(packet.as_ptr(), packet.len(), peer, list.as_ptr(), list.len()) }
}

#[inline(always)]
pub fn checked(packet: &[u8], peer: u16, list: &[u8]) -> Given {
    unsafe { limit_answer_checked(packet.as_ptr(), packet.len(), peer, list.as_ptr(), list.len()) }
}
