//! The C functions as include/chaffrail.h declares them.

/// What every function answers.
#[repr(C)]
#[derive(Clone, Copy, Debug, PartialEq, Eq)]
pub struct Answer {
    pub refusal: u32,
    pub place: u32,
    pub value: u32,
    pub carry: i32,
}

/// A display mode. Polarities are 0 (negative) or 1 (positive), the bit clock is in kilohertz.
#[repr(C)]
#[derive(Clone, Copy, Debug, PartialEq, Eq)]
pub struct Timing {
    pub h_front_porch: u32,
    pub h_sync_width: u32,
    pub h_back_porch: u32,
    pub h_active_pixels: u32,
    pub v_front_porch: u32,
    pub v_sync_width: u32,
    pub v_back_porch: u32,
    pub v_active_lines: u32,
    pub bit_clk: u32,
    pub h_sync_polarity: u8,
    pub v_sync_polarity: u8,
}

extern "C" {
    pub fn chaffrail_encode_symbol(discrepancy: i32, byte: u8) -> Answer;
    pub fn chaffrail_read_symbol(symbol: u16) -> Answer;
    pub fn chaffrail_control_symbol(c0: u8, c1: u8) -> Answer;
    pub fn chaffrail_join_symbols(first: u16, second: u16) -> Answer;
    pub fn chaffrail_encode_pair(b0: u8, b1: u8) -> Answer;
    pub fn chaffrail_encode_pair_discrepancy(b0: u8, b1: u8) -> Answer;
    pub fn chaffrail_encode_balanced_approx(byte: u8) -> Answer;
    pub fn chaffrail_encode_row(discrepancy: i32, bytes: *const u8, bytes_len: usize, symbols: *mut u8, symbols_len: usize) -> Answer;
    pub fn chaffrail_read_row(symbols: *const u8, symbols_len: usize, bytes: *mut u8, bytes_len: usize) -> Answer;
    pub fn chaffrail_parity(block: *const u8, block_len: usize) -> Answer;
    pub fn chaffrail_terc4_symbol(number: u8) -> Answer;
    pub fn chaffrail_read_terc4(symbol: u16) -> Answer;
    pub fn chaffrail_set_audio(packet: *mut u8, packet_len: usize, samples: *const u8, samples_len: usize, count: i32) -> Answer;
    pub fn chaffrail_set_audio_clock_regeneration(packet: *mut u8, packet_len: usize, cts: u32, n: u32) -> Answer;
    pub fn chaffrail_set_audio_info_frame(packet: *mut u8, packet_len: usize, rate: u32) -> Answer;
    #[allow(clippy::too_many_arguments)]
    pub fn chaffrail_set_avi_info_frame(packet: *mut u8, packet_len: usize, s: u32, y: u32, c: u32, m: u32, r: u32, q: u32, v: u32) -> Answer;
    pub fn chaffrail_encode_island(hv: u8, packet: *const u8, packet_len: usize, words: *mut u8, words_len: usize) -> Answer;
    pub fn chaffrail_read_island(words: *const u8, words_len: usize, packet: *mut u8, packet_len: usize) -> Answer;
    pub fn chaffrail_vga_timing() -> Timing;
    pub fn chaffrail_check_timing(timing: Timing) -> Answer;
    pub fn chaffrail_tmds3_for_sync(timing: Timing, h_sync: u8, v_sync: u8) -> Answer;
    pub fn chaffrail_hstx_cmd_raw(words: u32) -> Answer;
    pub fn chaffrail_hstx_cmd_raw_repeat(times: u32) -> Answer;
    pub fn chaffrail_make_sync_pulse(timing: Timing, v_sync: u8, line: *mut u8, line_len: usize) -> Answer;
    pub fn chaffrail_make_sync_line_only(timing: Timing, v_sync: u8, line: *mut u8, line_len: usize) -> Answer;
    pub fn chaffrail_init_data_island(timing: Timing, line: *mut u8, line_len: usize) -> Answer;
    pub fn chaffrail_encode_data_island(timing: Timing, line: *mut u8, line_len: usize, state: u8, packet: *const u8, packet_len: usize) -> Answer;
    pub fn chaffrail_encode_data_island_empty(timing: Timing, line: *mut u8, line_len: usize, state: u8) -> Answer;
    pub fn chaffrail_counter_advance(counter: u32, timing: Timing) -> Answer;
    pub fn chaffrail_counter_advance_in_place(counter: *mut u8, counter_len: usize, timing: Timing) -> Answer;
    pub fn chaffrail_counter_state(counter: u32, timing: Timing) -> Answer;
    pub fn chaffrail_counter_row(counter: u32, timing: Timing, offset: u32) -> Answer;
}

/// The value of [`chaffrail_counter_row`] for a line that shows no row.
pub const NO_ROW: u32 = 4294967295;
