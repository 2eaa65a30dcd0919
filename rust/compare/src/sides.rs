//! The same thing for both sides: rows, packets, fields and timings of the original, and the bytes that ours takes.
use crate::dvi::data_island::DataPacket;
use crate::dvi::timing::{DviTiming, DviTimingLineState};
use crate::{original_encode, KilohertzU32, Random};

/// A row as the original's user writes it: one call for each byte, the symbols stored as they come, low byte first.
pub fn original_row(mut d: i32, bytes: &[u8], out: &mut [u8]) -> i32 {
    for (i, &b) in bytes.iter().enumerate() {
        let (symbol, end) = original_encode(d, b);
        out[2 * i..2 * i + 2].copy_from_slice(&symbol.to_le_bytes());
        d = end;
    }
    d
}

/// A packet's 36 bytes, header first.
pub fn flat(p: &DataPacket) -> [u8; 36] {
    let mut bytes = [0; 36];
    bytes[..4].copy_from_slice(&p.header);
    for (s, out) in p.subpacket.iter().zip(bytes[4..].chunks_mut(8)) {
        out.copy_from_slice(s);
    }
    bytes
}

pub fn packet_of(bytes: &[u8; 36]) -> DataPacket {
    let mut p = DataPacket::default();
    p.header.copy_from_slice(&bytes[..4]);
    for (s, from) in p.subpacket.iter_mut().zip(bytes[4..].chunks(8)) {
        s.copy_from_slice(from);
    }
    p
}

/// What the original makes of a cleared packet.
pub fn built(fill: impl FnOnce(&mut DataPacket)) -> [u8; 36] {
    let mut packet = DataPacket::default();
    fill(&mut packet);
    flat(&packet)
}

/// The original's field of a number. Its enums have no way in from a number, so each is made of the byte that it is stored as.
fn field<T>(number: u32) -> T {
    assert_eq!(size_of::<T>(), 1);
    unsafe { std::mem::transmute_copy(&(number as u8)) }
}

/// The original's AVI frame. It stores the active format `NoData` as 255.
pub fn original_avi(f: chaffrail::Avi) -> DataPacket {
    let mut p = DataPacket::default();
    let r = if f.active_aspect == 0 { 255 } else { f.active_aspect };
    p.set_avi_info_frame(field(f.scan), field(f.pixel_format), field(f.colorimetry), field(f.picture_aspect), field(r), field(f.quantization), field(f.video_code));
    p
}

/// The original's timing.
pub fn original_timing(t: chaffrail::Timing) -> DviTiming {
    DviTiming {
        h_sync_polarity: t.h_sync_polarity == 1,
        h_front_porch: t.h_front_porch,
        h_sync_width: t.h_sync_width,
        h_back_porch: t.h_back_porch,
        h_active_pixels: t.h_active_pixels,
        v_sync_polarity: t.v_sync_polarity == 1,
        v_front_porch: t.v_front_porch,
        v_sync_width: t.v_sync_width,
        v_back_porch: t.v_back_porch,
        v_active_lines: t.v_active_lines,
        bit_clk: KilohertzU32::kHz(t.bit_clk),
    }
}

/// Ours, of the original's timing.
pub fn timing_of(t: &DviTiming) -> chaffrail::Timing {
    chaffrail::Timing {
        h_sync_polarity: t.h_sync_polarity as u8,
        h_front_porch: t.h_front_porch,
        h_sync_width: t.h_sync_width,
        h_back_porch: t.h_back_porch,
        h_active_pixels: t.h_active_pixels,
        v_sync_polarity: t.v_sync_polarity as u8,
        v_front_porch: t.v_front_porch,
        v_sync_width: t.v_sync_width,
        v_back_porch: t.v_back_porch,
        v_active_lines: t.v_active_lines,
        bit_clk: t.bit_clk.0,
    }
}

/// A timing in its ranges, whose vertical numbers are below `lines`.
pub fn timing_below(random: &mut Random, lines: u64) -> chaffrail::Timing {
    let mut from = |low: u64, end: u64| (low + random.below(end - low)) as u32;
    chaffrail::Timing {
        h_sync_polarity: from(0, 2) as u8,
        h_front_porch: from(9, 4096),
        h_sync_width: from(37, 4096),
        h_back_porch: from(11, 4096),
        h_active_pixels: from(9, 4096),
        v_sync_polarity: from(0, 2) as u8,
        v_front_porch: from(1, lines),
        v_sync_width: from(1, lines),
        v_back_porch: from(1, lines),
        v_active_lines: from(1, lines),
        bit_clk: 252000,
    }
}

/// A timing in its ranges.
pub fn timing(random: &mut Random) -> chaffrail::Timing {
    timing_below(random, 4096)
}

/// The original's line state of ours.
pub fn original_state(number: u8) -> DviTimingLineState {
    match number {
        0 => DviTimingLineState::FrontPorch,
        1 => DviTimingLineState::Sync,
        2 => DviTimingLineState::BackPorch,
        _ => DviTimingLineState::Active,
    }
}

/// Words of four bytes each, low byte first.
pub fn words(bytes: &[u8]) -> Vec<u32> {
    bytes.chunks(4).map(|w| u32::from_le_bytes(w.try_into().unwrap())).collect()
}

/// Words as the bytes that they are, for ours to write into: on a host that has the low byte first these are the bytes that cross.
pub fn as_bytes(words: &mut [u32]) -> &mut [u8] {
    const { assert!(cfg!(target_endian = "little")) };
    unsafe { std::slice::from_raw_parts_mut(words.as_mut_ptr().cast(), 4 * words.len()) }
}
