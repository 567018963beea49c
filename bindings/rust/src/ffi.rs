//! The static library's functions, as include/laurelsnap.h declares them.

use crate::{Found, Listed};

#[repr(C)]
pub struct Answer {
    pub number: u64,
    pub first: u64,
    pub second: u64,
}

#[repr(C)]
pub struct Report {
    pub number: u64,
    pub value: u64,
    pub found: Found,
}

#[repr(C)]
pub struct Tally {
    pub number: u64,
    pub value: u64,
    pub listed: Listed,
}

/// Where a state stands: `reached` is 1 or 0, and cost and steps are its place if it is 1.
#[repr(C)]
pub struct Standing {
    pub number: u64,
    pub value: u64,
    pub reached: u64,
    pub cost: u64,
    pub steps: u64,
}

#[rustfmt::skip]
extern "C" {
    pub fn laurelsnap_check(file: *const u8, length: usize) -> Answer;
    pub fn laurelsnap_write(file: *const u8, file_length: usize, out: *mut u8, out_length: usize) -> Answer;
    pub fn laurelsnap_walk(file: *const u8, file_length: usize, plan: *const u8, plan_length: usize) -> Answer;

    pub fn laurelsnap_search(
        file: *const u8, file_length: usize,
        costs: *mut u32, costs_length: usize,
        steps: *mut u32, steps_length: usize,
        sets: *mut u32, sets_length: usize,
        wanted: *mut u32, wanted_length: usize,
        bit: *mut u32, bit_length: usize,
        low: *mut u32, low_length: usize,
        high: *mut u32, high_length: usize,
        utility_bit: *mut u32, utility_bit_length: usize,
        utility_low: *mut u32, utility_low_length: usize,
        utility_high: *mut u32, utility_high_length: usize,
        heads: *mut u32, heads_length: usize,
        chain: *mut u32, chain_length: usize,
        memo: *mut u32, memo_length: usize,
        plan: *mut u16, plan_length: usize,
    ) -> Report;

    pub fn laurelsnap_question(
        file: *const u8, file_length: usize,
        state: *const u8, state_length: usize,
        costs: *const u32, costs_length: usize,
        steps: *const u32, steps_length: usize,
        sets: *const u32, sets_length: usize,
        wanted: *const u32, wanted_length: usize,
        bit: *const u32, bit_length: usize,
        low: *const u32, low_length: usize,
        high: *const u32, high_length: usize,
        count: usize, pairs: usize,
    ) -> Standing;

    pub fn laurelsnap_states(
        file: *const u8, file_length: usize,
        states: *mut u64, states_length: usize,
        costs: *mut u32, costs_length: usize,
        steps: *mut u32, steps_length: usize,
        heads: *mut u32, heads_length: usize,
        links: *mut u32, links_length: usize,
        plan: *mut u16, plan_length: usize,
    ) -> Tally;
}
