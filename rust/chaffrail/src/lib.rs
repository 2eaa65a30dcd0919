//! Chaffrail's proved functions for HDMI, as safe Rust.
//!
//! Every input gets an answer. A refused call changes nothing that it was lent. Nothing here needs more than `core`.
//!
//! ```
//! // A row in two pieces: the discrepancy that the first leaves is where the second begins.
//! let mut symbols = [0; 4];
//! let d = chaffrail::encode_row(0, &[0x00], &mut symbols[..2])?;
//! let d = chaffrail::encode_row(d, &[0x00], &mut symbols[2..])?;
//! assert_eq!(symbols, [0x00, 0x01, 0xff, 0x03]); // 0x100 and 0x3ff, low byte first
//! let mut bytes = [0; 2];
//! chaffrail::read_row(&symbols, &mut bytes)?;
//! assert_eq!((bytes, d), ([0x00, 0x00], 1));
//! # Ok::<(), chaffrail::Refusal>(())
//! ```
#![no_std]

pub mod raw;

pub use raw::{Answer, Timing};

/// 640 by 480 at 60 Hz.
pub const VGA_TIMING: Timing = Timing {
    h_sync_polarity: 0,
    h_front_porch: 16,
    h_sync_width: 96,
    h_back_porch: 48,
    h_active_pixels: 640,
    v_sync_polarity: 0,
    v_front_porch: 10,
    v_sync_width: 2,
    v_back_porch: 33,
    v_active_lines: 480,
    bit_clk: 252000,
};

/// Why a call was refused: the number of the table in `include/chaffrail.h`, and where.
#[derive(Clone, Copy, Debug, PartialEq, Eq)]
pub struct Refusal {
    pub kind: Kind,
    /// An index or a subpacket; 0 where the kind has no place.
    pub place: u32,
}

/// The seventeen refusals.
#[derive(Clone, Copy, Debug, PartialEq, Eq)]
#[repr(u32)]
pub enum Kind {
    Length = 1,
    Discrepancy,
    SyncPair,
    Unlisted,
    FrameCount,
    ClockValue,
    TimingRange,
    LineCounter,
    LineOffset,
    Unbalanced,
    NotData,
    HighBits,
    GuardWord,
    NotTerc4,
    SyncBits,
    HeaderParity,
    SubpacketParity,
}

const KINDS: [Kind; 17] = [
    Kind::Length,
    Kind::Discrepancy,
    Kind::SyncPair,
    Kind::Unlisted,
    Kind::FrameCount,
    Kind::ClockValue,
    Kind::TimingRange,
    Kind::LineCounter,
    Kind::LineOffset,
    Kind::Unbalanced,
    Kind::NotData,
    Kind::HighBits,
    Kind::GuardWord,
    Kind::NotTerc4,
    Kind::SyncBits,
    Kind::HeaderParity,
    Kind::SubpacketParity,
];

impl core::fmt::Display for Refusal {
    fn fmt(&self, f: &mut core::fmt::Formatter<'_>) -> core::fmt::Result {
        write!(f, "refused with {} ({:?}) at {}", self.kind as u32, self.kind, self.place)
    }
}

impl core::error::Error for Refusal {}

#[inline]
fn told(a: Answer) -> Result<Answer, Refusal> {
    match a.refusal {
        0 => Ok(a),
        n => Err(Refusal { kind: KINDS[n as usize - 1], place: a.place }),
    }
}

/// The symbol of a byte on a lane that stands at this discrepancy, and the discrepancy after it.
///
/// ```
/// assert_eq!(chaffrail::encode_symbol(0, 0x10), Ok((0x1f0, 0)));
/// assert_eq!(chaffrail::encode_symbol(5, 0x10).unwrap_err().kind, chaffrail::Kind::Discrepancy);
/// ```
#[inline]
pub fn encode_symbol(discrepancy: i32, byte: u8) -> Result<(u16, i32), Refusal> {
    told(unsafe { raw::chaffrail_encode_symbol(discrepancy, byte) }).map(|a| (a.value as u16, a.carry))
}

/// The byte of a data symbol.
///
/// ```
/// assert_eq!(chaffrail::read_symbol(0x3ff), Ok(0));
/// assert_eq!(chaffrail::read_symbol(0x354).unwrap_err().kind, chaffrail::Kind::NotData);
/// ```
#[inline]
pub fn read_symbol(symbol: u16) -> Result<u8, Refusal> {
    told(unsafe { raw::chaffrail_read_symbol(symbol) }).map(|a| a.value as u8)
}

/// The control symbol of the levels C0 and C1.
///
/// ```
/// assert_eq!(chaffrail::control_symbol(true, false), 0x0ab);
/// ```
#[inline]
pub fn control_symbol(c0: bool, c1: bool) -> u16 {
    unsafe { raw::chaffrail_control_symbol(c0 as u8, c1 as u8) }.value as u16
}

/// Two symbols in a word, the first in bits 0..9.
#[inline]
pub fn join_symbols(first: u16, second: u16) -> Result<u32, Refusal> {
    told(unsafe { raw::chaffrail_join_symbols(first, second) }).map(|a| a.value)
}

/// The word of two bytes that leave a lane where it stood.
#[inline]
pub fn encode_pair(b0: u8, b1: u8) -> Result<u32, Refusal> {
    told(unsafe { raw::chaffrail_encode_pair(b0, b1) }).map(|a| a.value)
}

/// The word of two bytes on a lane that stands at 0, and where they leave it.
#[inline]
pub fn encode_pair_discrepancy(b0: u8, b1: u8) -> (u32, i32) {
    let a = unsafe { raw::chaffrail_encode_pair_discrepancy(b0, b1) };
    (a.value, a.carry)
}

/// The word of a byte and of the byte that differs in its lowest bit.
///
/// ```
/// assert_eq!(chaffrail::encode_balanced_approx(0), Ok(0x7fd00));
/// ```
#[inline]
pub fn encode_balanced_approx(byte: u8) -> Result<u32, Refusal> {
    told(unsafe { raw::chaffrail_encode_balanced_approx(byte) }).map(|a| a.value)
}

/// The symbols of a row, or of a piece of one, two bytes each, low byte first; answers the discrepancy after it. At most 4,096 bytes a call.
#[inline]
pub fn encode_row(discrepancy: i32, bytes: &[u8], symbols: &mut [u8]) -> Result<i32, Refusal> {
    told(unsafe { raw::chaffrail_encode_row(discrepancy, bytes.as_ptr(), bytes.len(), symbols.as_mut_ptr(), symbols.len()) }).map(|a| a.carry)
}

/// The bytes of a row of symbols. Nothing is written where one of them is no data symbol.
///
/// ```
/// let mut bytes = [7; 2];
/// let refused = chaffrail::read_row(&[0x00, 0x01, 0x54, 0x03], &mut bytes).unwrap_err();
/// assert_eq!((refused.kind, refused.place, bytes), (chaffrail::Kind::NotData, 1, [7; 2]));
/// ```
#[inline]
pub fn read_row(symbols: &[u8], bytes: &mut [u8]) -> Result<(), Refusal> {
    told(unsafe { raw::chaffrail_read_row(symbols.as_ptr(), symbols.len(), bytes.as_mut_ptr(), bytes.len()) }).map(|_| ())
}

/// The parity byte of a block of any length.
///
/// ```
/// assert_eq!(chaffrail::parity(&[1, 0, 0]), 0x4a);
/// ```
#[inline]
pub fn parity(block: &[u8]) -> u8 {
    unsafe { raw::chaffrail_parity(block.as_ptr(), block.len()) }.value as u8
}

/// TERC4 of a number below 16.
#[inline]
pub fn terc4_symbol(number: u8) -> Result<u16, Refusal> {
    told(unsafe { raw::chaffrail_terc4_symbol(number) }).map(|a| a.value as u16)
}

/// The number of a TERC4 symbol.
///
/// ```
/// assert_eq!(chaffrail::terc4_symbol(15).and_then(chaffrail::read_terc4), Ok(15));
/// ```
#[inline]
pub fn read_terc4(symbol: u16) -> Result<u8, Refusal> {
    told(unsafe { raw::chaffrail_read_terc4(symbol) }).map(|a| a.value as u8)
}

/// Audio samples as bytes, low byte first: up to four frames, left then right, so 0, 4, 8, 12 or 16 bytes. The count says how many frames come
/// before the next block of 192; answers the count after these.
///
/// ```
/// let mut packet = [0; 36];
/// let samples = [0x01, 0x00, 0xff, 0xff]; // 1 and -1
/// assert_eq!(chaffrail::set_audio(&mut packet, &samples, 0), Ok(191));
/// assert_eq!((&packet[..3], packet[10]), (&[2, 1, 0x10][..], 0x91));
/// assert_eq!(chaffrail::set_audio(&mut packet, &samples, 192).unwrap_err().kind, chaffrail::Kind::FrameCount);
/// ```
#[inline]
pub fn set_audio(packet: &mut [u8], samples: &[u8], count: i32) -> Result<i32, Refusal> {
    told(unsafe { raw::chaffrail_set_audio(packet.as_mut_ptr(), packet.len(), samples.as_ptr(), samples.len(), count) }).map(|a| a.carry)
}

/// Audio clock regeneration: CTS and N have 20 bits. A packet is 36 bytes.
///
/// ```
/// let mut packet = [0; 36];
/// chaffrail::set_audio_clock_regeneration(&mut packet, 25200, 6144)?;
/// assert_eq!(packet[..4], [1, 0, 0, 0x4a]);
/// # Ok::<(), chaffrail::Refusal>(())
/// ```
#[inline]
pub fn set_audio_clock_regeneration(packet: &mut [u8], cts: u32, n: u32) -> Result<(), Refusal> {
    told(unsafe { raw::chaffrail_set_audio_clock_regeneration(packet.as_mut_ptr(), packet.len(), cts, n) }).map(|_| ())
}

/// Audio info: two channels of 16 bits at this rate.
#[inline]
pub fn set_audio_info_frame(packet: &mut [u8], rate: u32) -> Result<(), Refusal> {
    told(unsafe { raw::chaffrail_set_audio_info_frame(packet.as_mut_ptr(), packet.len(), rate) }).map(|_| ())
}

/// The fields of an AVI info frame, by their numbers in CEA-861-D.
#[derive(Clone, Copy, Debug, Default, PartialEq, Eq)]
pub struct Avi {
    pub scan: u32,
    pub pixel_format: u32,
    pub colorimetry: u32,
    pub picture_aspect: u32,
    pub active_aspect: u32,
    pub quantization: u32,
    pub video_code: u32,
}

/// AVI info from the numbers of its fields.
///
/// ```
/// let mut packet = [0; 36];
/// let avi = chaffrail::Avi { active_aspect: 8, picture_aspect: 1, video_code: 1, ..Default::default() };
/// chaffrail::set_avi_info_frame(&mut packet, avi)?;
/// assert_eq!(packet[4], 0x46);
/// # Ok::<(), chaffrail::Refusal>(())
/// ```
#[inline]
pub fn set_avi_info_frame(packet: &mut [u8], f: Avi) -> Result<(), Refusal> {
    told(unsafe {
        raw::chaffrail_set_avi_info_frame(
            packet.as_mut_ptr(),
            packet.len(),
            f.scan,
            f.pixel_format,
            f.colorimetry,
            f.picture_aspect,
            f.active_aspect,
            f.quantization,
            f.video_code,
        )
    })
    .map(|_| ())
}

/// The 36 words of an island with one packet, four bytes each, low byte first.
#[inline]
pub fn encode_island(hv: u8, packet: &[u8], words: &mut [u8]) -> Result<(), Refusal> {
    told(unsafe { raw::chaffrail_encode_island(hv, packet.as_ptr(), packet.len(), words.as_mut_ptr(), words.len()) }).map(|_| ())
}

/// The packet of an island of 36 words, four bytes each, low byte first; answers the sync pair. Nothing is written where a word is wrong.
///
/// ```
/// let (mut packet, mut words, mut found) = ([0; 36], [0; 144], [0; 36]);
/// chaffrail::set_audio_info_frame(&mut packet, 48000)?;
/// chaffrail::encode_island(1, &packet, &mut words)?;
/// assert_eq!(chaffrail::read_island(&words, &mut found), Ok(1));
/// assert_eq!(found, packet);
/// words[19] |= 0x40; // bit 30 of word 4
/// let refused = chaffrail::read_island(&words, &mut found).unwrap_err();
/// assert_eq!((refused.kind, refused.place), (chaffrail::Kind::HighBits, 4));
/// # Ok::<(), chaffrail::Refusal>(())
/// ```
#[inline]
pub fn read_island(words: &[u8], packet: &mut [u8]) -> Result<u8, Refusal> {
    told(unsafe { raw::chaffrail_read_island(words.as_ptr(), words.len(), packet.as_mut_ptr(), packet.len()) }).map(|a| a.value as u8)
}

/// 640 by 480 at 60 Hz, as the library has it.
///
/// ```
/// assert_eq!(chaffrail::vga_timing(), chaffrail::VGA_TIMING);
/// ```
#[inline]
pub fn vga_timing() -> Timing {
    unsafe { raw::chaffrail_vga_timing() }
}

/// Whether lines can be made of a timing.
///
/// ```
/// let short = chaffrail::Timing { h_front_porch: 8, ..chaffrail::VGA_TIMING };
/// assert_eq!(chaffrail::check_timing(chaffrail::VGA_TIMING), Ok(()));
/// assert_eq!(chaffrail::check_timing(short).unwrap_err().kind, chaffrail::Kind::TimingRange);
/// ```
#[inline]
pub fn check_timing(timing: Timing) -> Result<(), Refusal> {
    told(unsafe { raw::chaffrail_check_timing(timing) }).map(|_| ())
}

/// The control word of three lanes while horizontal and vertical sync are on or off.
///
/// ```
/// assert_eq!(chaffrail::tmds3_for_sync(chaffrail::VGA_TIMING, false, false), Ok(0x354d52ab));
/// ```
#[inline]
pub fn tmds3_for_sync(timing: Timing, h_sync: bool, v_sync: bool) -> Result<u32, Refusal> {
    told(unsafe { raw::chaffrail_tmds3_for_sync(timing, h_sync as u8, v_sync as u8) }).map(|a| a.value)
}

/// The command to send the next words as they stand, 1 to 4,095 of them.
///
/// ```
/// assert_eq!(chaffrail::hstx_cmd_raw(36), Ok(36));
/// assert_eq!(chaffrail::hstx_cmd_raw(0).unwrap_err().kind, chaffrail::Kind::Unlisted);
/// ```
#[inline]
pub fn hstx_cmd_raw(words: u32) -> Result<u32, Refusal> {
    told(unsafe { raw::chaffrail_hstx_cmd_raw(words) }).map(|a| a.value)
}

/// The command to send the next word 1 to 4,095 times.
///
/// ```
/// assert_eq!(chaffrail::hstx_cmd_raw_repeat(4095), Ok(0x1fff));
/// ```
#[inline]
pub fn hstx_cmd_raw_repeat(times: u32) -> Result<u32, Refusal> {
    told(unsafe { raw::chaffrail_hstx_cmd_raw_repeat(times) }).map(|a| a.value)
}

/// The 15 words of a blanking with a sync pulse, four bytes each, low byte first.
///
/// ```
/// let mut line = [0; 60];
/// chaffrail::make_sync_pulse(chaffrail::VGA_TIMING, false, &mut line)?;
/// assert_eq!(line[..4], [0x10, 0x10, 0, 0]); // one word, 16 times
/// # Ok::<(), chaffrail::Refusal>(())
/// ```
#[inline]
pub fn make_sync_pulse(timing: Timing, v_sync: bool, line: &mut [u8]) -> Result<(), Refusal> {
    told(unsafe { raw::chaffrail_make_sync_pulse(timing, v_sync as u8, line.as_mut_ptr(), line.len()) }).map(|_| ())
}

/// The 11 words of a line without pixels, four bytes each, low byte first.
#[inline]
pub fn make_sync_line_only(timing: Timing, v_sync: bool, line: &mut [u8]) -> Result<(), Refusal> {
    told(unsafe { raw::chaffrail_make_sync_line_only(timing, v_sync as u8, line.as_mut_ptr(), line.len()) }).map(|_| ())
}

/// The command words of an island line of 56 words, at 0, 2, 4, 41, 43 and 45; the others stay as lent.
#[inline]
pub fn init_data_island(timing: Timing, line: &mut [u8]) -> Result<(), Refusal> {
    told(unsafe { raw::chaffrail_init_data_island(timing, line.as_mut_ptr(), line.len()) }).map(|_| ())
}

/// The other 50 words of an island line, with one packet. States: 0 front porch, 1 sync, 2 back porch, 3 active.
///
/// ```
/// let mut line = [0; 224];
/// chaffrail::init_data_island(chaffrail::VGA_TIMING, &mut line)?;
/// chaffrail::encode_data_island(chaffrail::VGA_TIMING, &mut line, 0, &[0; 36])?;
/// assert_eq!(line[..8], [0x08, 0x10, 0, 0, 0xab, 0x52, 0x4d, 0x35]);
/// # Ok::<(), chaffrail::Refusal>(())
/// ```
#[inline]
pub fn encode_data_island(timing: Timing, line: &mut [u8], state: u8, packet: &[u8]) -> Result<(), Refusal> {
    told(unsafe { raw::chaffrail_encode_data_island(timing, line.as_mut_ptr(), line.len(), state, packet.as_ptr(), packet.len()) }).map(|_| ())
}

/// The same as [`encode_data_island`] with a packet of 36 zeros.
#[inline]
pub fn encode_data_island_empty(timing: Timing, line: &mut [u8], state: u8) -> Result<(), Refusal> {
    told(unsafe { raw::chaffrail_encode_data_island_empty(timing, line.as_mut_ptr(), line.len(), state) }).map(|_| ())
}

/// The line counter one line on, and from the last line back to 0.
///
/// ```
/// assert_eq!(chaffrail::counter_advance(524, chaffrail::VGA_TIMING), Ok(0));
/// assert_eq!(chaffrail::counter_advance(525, chaffrail::VGA_TIMING).unwrap_err().kind, chaffrail::Kind::LineCounter);
/// ```
#[inline]
pub fn counter_advance(counter: u32, timing: Timing) -> Result<u32, Refusal> {
    told(unsafe { raw::chaffrail_counter_advance(counter, timing) }).map(|a| a.carry as u32)
}

/// The line counter one line on where it lies, for the loop that sends lines. Refused, it stays as it is.
///
/// ```
/// let mut counter = 523;
/// chaffrail::counter_advance_in_place(&mut counter, chaffrail::VGA_TIMING)?;
/// chaffrail::counter_advance_in_place(&mut counter, chaffrail::VGA_TIMING)?;
/// assert_eq!(counter, 0);
/// counter = 525;
/// assert!(chaffrail::counter_advance_in_place(&mut counter, chaffrail::VGA_TIMING).is_err());
/// assert_eq!(counter, 525);
/// # Ok::<(), chaffrail::Refusal>(())
/// ```
#[inline]
pub fn counter_advance_in_place(counter: &mut u32, timing: Timing) -> Result<(), Refusal> {
    let mut bytes = counter.to_le_bytes();
    told(unsafe { raw::chaffrail_counter_advance_in_place(bytes.as_mut_ptr(), bytes.len(), timing) })?;
    *counter = u32::from_le_bytes(bytes);
    Ok(())
}

/// What the counter's line is: 0 front porch, 1 sync, 2 back porch, 3 active.
///
/// ```
/// assert_eq!(chaffrail::counter_state(10, chaffrail::VGA_TIMING), Ok(1));
/// ```
#[inline]
pub fn counter_state(counter: u32, timing: Timing) -> Result<u8, Refusal> {
    told(unsafe { raw::chaffrail_counter_state(counter, timing) }).map(|a| a.value as u8)
}

/// The row of pixels that the line `offset` lines on shows, where it shows one. It doesn't wrap into the next frame.
///
/// ```
/// assert_eq!(chaffrail::counter_row(44, chaffrail::VGA_TIMING, 1), Ok(Some(0)));
/// assert_eq!(chaffrail::counter_row(524, chaffrail::VGA_TIMING, 1), Ok(None));
/// ```
#[inline]
pub fn counter_row(counter: u32, timing: Timing, offset: u32) -> Result<Option<u32>, Refusal> {
    told(unsafe { raw::chaffrail_counter_row(counter, timing, offset) }).map(|a| (a.value != raw::NO_ROW).then_some(a.value))
}
