//! pico-dvi-rs as published, its three files unchanged, behind C functions for the board's bench. ORIGINAL names a checkout; the folder `dvi` beside the
//! copy of this file that is compiled is that checkout's src/dvi.
#![no_std]
#![allow(dead_code, unused)]

extern crate self as fugit;

/// Stands for fugit's clock type, of which the files use the constructor alone.
#[derive(Clone, Copy)]
pub struct KilohertzU32(pub u32);

impl KilohertzU32 {
    #[allow(non_snake_case)]
    pub const fn kHz(kilohertz: u32) -> Self {
        KilohertzU32(kilohertz)
    }
}

pub mod dvi {
    pub mod timing;
    pub mod tmds;

    pub mod data_island {
        // Arm's assembler is left out, so that both cores compile the same: it clears a packet and is not measured.
        mod core {
            pub use ::core::mem;
            pub mod arch {
                macro_rules! asm { ($($t:tt)*) => {}; }
                pub(crate) use asm;
            }
        }
        include!(concat!(env!("ORIGINAL"), "/src/dvi/data_island.rs"));

        pub fn parity(block: &[u8]) -> u8 {
            compute_bch(block)
        }
    }

    /// RP2350 datasheet, HSTX command expander.
    pub const fn hstx_cmd_raw(count: u32) -> u32 {
        count
    }

    pub const fn hstx_cmd_raw_repeat(count: u32) -> u32 {
        count | 0x1000
    }
}

use core::slice::{from_raw_parts, from_raw_parts_mut};
use dvi::data_island::{parity, DataPacket};
use dvi::timing::{DviTiming, DviTimingLineState, DviTimingState, VGA_TIMING};
use dvi::tmds::{TmdsPair, TmdsSymbol};

#[panic_handler]
fn panic(_: &core::panic::PanicInfo) -> ! {
    loop {}
}

fn number(symbol: TmdsSymbol) -> u32 {
    unsafe { core::mem::transmute(symbol) }
}

/// A row as the original's user writes it: one call for each byte, the discrepancy carried.
#[no_mangle]
pub unsafe extern "C" fn original_encode_row(mut d: i32, bytes: *const u8, len: usize, out: *mut u16) -> i32 {
    for (byte, out) in from_raw_parts(bytes, len).iter().zip(from_raw_parts_mut(out, len)) {
        let (end, symbol) = TmdsSymbol::encode(d, *byte);
        d = end;
        *out = number(symbol) as u16;
    }
    d
}

#[no_mangle]
pub extern "C" fn original_encode_symbol(d: &mut i32, byte: u8) -> u32 {
    let (end, symbol) = TmdsSymbol::encode(*d, byte);
    *d = end;
    number(symbol)
}

#[no_mangle]
pub extern "C" fn original_encode_pair(b0: u8, b1: u8, end: &mut i32) -> u32 {
    let (pair, d) = TmdsPair::encode_pair_discrepancy(b0, b1);
    *end = d;
    pair.raw()
}

#[no_mangle]
pub unsafe extern "C" fn original_parity(block: *const u8, len: usize) -> u8 {
    parity(from_raw_parts(block, len))
}

/// A packet of the original's, for C to hold: `rustc` orders its fields as it likes.
#[no_mangle]
pub static ORIGINAL_PACKET_SIZE: usize = core::mem::size_of::<DataPacket>();

/// The packet's 36 bytes, header first.
#[no_mangle]
pub extern "C" fn original_flat(p: &DataPacket, out: &mut [u8; 36]) {
    out[..4].copy_from_slice(&p.header);
    for (s, out) in p.subpacket.iter().zip(out[4..].chunks_mut(8)) {
        out.copy_from_slice(s);
    }
}

#[no_mangle]
pub extern "C" fn original_clear(p: &mut DataPacket) {
    *p = DataPacket::default();
}

#[no_mangle]
pub unsafe extern "C" fn original_set_audio(p: &mut DataPacket, frames: *const [i16; 2], n: usize, count: &mut i32) {
    p.set_audio(from_raw_parts(frames, n), count)
}

#[no_mangle]
pub extern "C" fn original_set_clock(p: &mut DataPacket, cts: u32, n: u32) {
    p.set_audio_clock_regeneration(cts, n)
}

#[no_mangle]
pub extern "C" fn original_set_audio_info(p: &mut DataPacket, rate: u32) {
    p.set_audio_info_frame(rate)
}

/// The original's enums have no way in from a number, so each is made of the byte that it is stored as.
fn field<T>(n: u32) -> T {
    unsafe { core::mem::transmute_copy(&(n as u8)) }
}

#[no_mangle]
pub extern "C" fn original_set_avi(p: &mut DataPacket, s: u32, y: u32, c: u32, m: u32, r: u32, q: u32, v: u32) {
    p.set_avi_info_frame(field(s), field(y), field(c), field(m), field(r), field(q), field(v))
}

#[no_mangle]
pub extern "C" fn original_encode_island(p: &DataPacket, hv: u8, out: &mut [u32; 36]) {
    p.encode(hv, out)
}

#[no_mangle]
pub static ORIGINAL_VGA: DviTiming = VGA_TIMING;

fn state(n: u8) -> DviTimingLineState {
    match n {
        0 => DviTimingLineState::FrontPorch,
        1 => DviTimingLineState::Sync,
        2 => DviTimingLineState::BackPorch,
        _ => DviTimingLineState::Active,
    }
}

#[no_mangle]
pub extern "C" fn original_sync_word(t: &DviTiming, h: bool, v: bool) -> u32 {
    t.tmds3_for_sync(h, v)
}

#[no_mangle]
pub extern "C" fn original_sync_pulse(t: &DviTiming, v: bool, line: &mut [u32; 15]) {
    *line = t.make_sync_pulse(v)
}

#[no_mangle]
pub extern "C" fn original_sync_only(t: &DviTiming, v: bool, line: &mut [u32; 11]) {
    *line = t.make_sync_line_only(v)
}

#[no_mangle]
pub extern "C" fn original_init_line(t: &DviTiming, line: &mut [u32; 56]) {
    t.init_data_island(line)
}

#[no_mangle]
pub extern "C" fn original_island_line(t: &DviTiming, line: &mut [u32; 56], s: u8, p: &DataPacket) {
    t.encode_data_island(line, state(s), p)
}

#[no_mangle]
pub extern "C" fn original_empty_line(t: &DviTiming, line: &mut [u32; 56], s: u8) {
    t.encode_data_island_empty(line, state(s))
}

#[no_mangle]
pub extern "C" fn original_advance(counter: u32, t: &DviTiming) -> u32 {
    let mut s = DviTimingState::new(counter);
    s.advance(t);
    s.v_ctr()
}

#[no_mangle]
pub extern "C" fn original_state(counter: u32, t: &DviTiming) -> u32 {
    DviTimingState::new(counter).v_state(t) as u32
}

#[no_mangle]
pub extern "C" fn original_row(counter: u32, t: &DviTiming, offset: u32) -> u32 {
    DviTimingState::new(counter).v_scanline_index(t, offset).unwrap_or(u32::MAX)
}
