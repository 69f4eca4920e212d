//! The declarations of `megzhoi.h`, for callers that want the numbers as they come.

#![allow(missing_docs)]

/// Numbers in the record of a text.
pub const RECORD_ENTRIES: usize = 3868;

/// The places of the record's counts.
pub const CHANNEL_COUNT: usize = 0;
pub const CLOCK_COUNT: usize = 1;
pub const LOCATION_COUNT: usize = 2;
pub const INIT: usize = 3;
pub const EDGE_COUNT: usize = 4;
pub const STATE_COUNT: usize = 5;

/// The places of the record's items, and the entries of each.
pub const CHANNELS: usize = 6;
pub const CHANNEL_ENTRIES: usize = 3;
pub const CLOCKS: usize = 54;
pub const CLOCK_ENTRIES: usize = 2;
pub const LOCATIONS: usize = 60;
pub const LOCATION_ENTRIES: usize = 15;
pub const EDGES: usize = 540;
pub const EDGE_ENTRIES: usize = 26;
pub const COMPARISON_ENTRIES: usize = 3;
pub const ASSIGNMENT_ENTRIES: usize = 3;

extern "C" {
    pub fn megzhoi_read(
        tick_length: usize, text: *const u8, text_len: usize, record: *mut usize, record_len: usize,
        file: *mut usize, p: *mut usize, q: *mut usize,
    ) -> usize;
    pub fn megzhoi_safe_states(
        tick_length: usize, text: *const u8, text_len: usize, keep: *mut u8, keep_len: usize,
        file: *mut usize, p: *mut usize, q: *mut usize,
    ) -> usize;
    pub fn megzhoi_implementation(
        tick_length: usize, text: *const u8, text_len: usize, file: *mut usize, p: *mut usize, q: *mut usize,
    ) -> usize;
    pub fn megzhoi_search(
        tick_length: usize, left: *const u8, left_len: usize, right: *const u8, right_len: usize,
        keep: *mut u8, keep_len: usize,
        back: *mut u32, back_len: usize, line: *mut u32, line_len: usize, run: *mut u32, run_len: usize,
        file: *mut usize, p: *mut usize, q: *mut usize,
    ) -> usize;
    pub fn megzhoi_check(
        tick_length: usize, left: *const u8, left_len: usize, right: *const u8, right_len: usize,
        keep: *mut u8, keep_len: usize, table: *const u8, table_len: usize,
        file: *mut usize, p: *mut usize, q: *mut usize,
    ) -> usize;
    pub fn megzhoi_widest(
        tick_length: usize, left: *const u8, left_len: usize, right: *const u8, right_len: usize,
        keep: *mut u8, keep_len: usize, table: *mut u8, table_len: usize,
        file: *mut usize, p: *mut usize, q: *mut usize,
    ) -> usize;
    pub fn megzhoi_join(
        tick_length: usize, left: *const u8, left_len: usize, right: *const u8, right_len: usize,
        out: *mut u8, out_len: usize, file: *mut usize, p: *mut usize, q: *mut usize,
    ) -> usize;
    pub fn megzhoi_keep_bytes(states: usize) -> usize;
    pub fn megzhoi_table_bytes(left_states: usize, right_states: usize) -> usize;
    pub fn megzhoi_queue_entries(left_states: usize, right_states: usize) -> usize;
}
