//! The timing, sync and command words, and the words of a line.
use crate::tally::{refused, unchanged, Tally};
use chaffrail::{Kind, Timing, VGA_TIMING};
use compare::dvi::timing::VGA_TIMING as VGA;
use compare::dvi::{hstx_cmd_raw, hstx_cmd_raw_repeat};
use compare::sides::{original_state, original_timing, packet_of, timing, timing_of, words};
use compare::Random;

/// A timing with another number in one field.
type With = fn(Timing, u32) -> Timing;

/// The lowest number of each field of a timing; the highest is 4,095.
const RANGES: [(u32, With); 8] = [
    (9, |t, n| Timing { h_front_porch: n, ..t }),
    (37, |t, n| Timing { h_sync_width: n, ..t }),
    (11, |t, n| Timing { h_back_porch: n, ..t }),
    (9, |t, n| Timing { h_active_pixels: n, ..t }),
    (1, |t, n| Timing { v_front_porch: n, ..t }),
    (1, |t, n| Timing { v_sync_width: n, ..t }),
    (1, |t, n| Timing { v_back_porch: n, ..t }),
    (1, |t, n| Timing { v_active_lines: n, ..t }),
];

/// Timings outside each range, and with polarities that are none.
pub fn bad_timings() -> Vec<(Kind, Timing)> {
    let beyond = |(low, with): (u32, With)| [0, low - 1, 4096, 1 << 31, u32::MAX].map(|n| (Kind::TimingRange, with(VGA_TIMING, n)));
    let mut bad: Vec<_> = RANGES.into_iter().flat_map(beyond).collect();
    for polarity in [2, 3, 128, 255] {
        bad.push((Kind::Unlisted, Timing { h_sync_polarity: polarity, ..VGA_TIMING }));
        bad.push((Kind::Unlisted, Timing { v_sync_polarity: polarity, h_front_porch: 8, ..VGA_TIMING }));
    }
    bad
}

/// Which timings are fine: VGA's is the original's, and each range holds at its ends.
pub fn timings(t: &mut Tally) {
    t.same("VGA's timing", (), timing_of(&VGA), chaffrail::vga_timing());
    for (low, with) in RANGES {
        for n in [low, low + 1, 4094, 4095] {
            let fine = Timing { h_sync_polarity: 1, bit_clk: n - low, ..with(VGA_TIMING, n) };
            t.same("fine timing", fine, Ok(()), chaffrail::check_timing(fine));
        }
    }
    for (kind, bad) in bad_timings() {
        t.same("bad timing", bad, Some((kind, 0)), refused(chaffrail::check_timing(bad)));
    }
}

/// The word depends on the polarities alone, so any porch is taken.
pub fn sync_words(t: &mut Tally, random: &mut Random) {
    for n in 0..20_000u32 {
        let mut ours = timing(random);
        if n % 2 == 0 {
            ours.h_front_porch = random.next() as u32;
            ours.v_active_lines = random.next() as u32;
        }
        for (h, v) in [(false, false), (false, true), (true, false), (true, true)] {
            t.same("sync word", (ours, h, v), Ok(original_timing(ours).tmds3_for_sync(h, v)), chaffrail::tmds3_for_sync(ours, h, v));
        }
    }
    for polarity in 2..=255 {
        for bad in [Timing { h_sync_polarity: polarity, ..VGA_TIMING }, Timing { v_sync_polarity: polarity, ..VGA_TIMING }] {
            t.same("sync word's polarity", polarity, Some((Kind::Unlisted, 0)), refused(chaffrail::tmds3_for_sync(bad, true, true)));
        }
    }
}

/// Beside the datasheet's words, which stand in `original` since the three files lean on them.
pub fn commands(t: &mut Tally) {
    for n in (0..=5000).chain([8191, 8192, 65536, 1 << 31, u32::MAX]) {
        match n {
            1..=4095 => {
                t.same("raw words", n, Ok(hstx_cmd_raw(n)), chaffrail::hstx_cmd_raw(n));
                t.same("repeated word", n, Ok(hstx_cmd_raw_repeat(n)), chaffrail::hstx_cmd_raw_repeat(n));
            }
            _ => {
                t.same("raw words", n, Some((Kind::Unlisted, 0)), refused(chaffrail::hstx_cmd_raw(n)));
                t.same("repeated word", n, Some((Kind::Unlisted, 0)), refused(chaffrail::hstx_cmd_raw_repeat(n)));
            }
        }
    }
}

pub fn sync_lines(t: &mut Tally, random: &mut Random) {
    for n in 0..50_000 {
        let ours = timing(random);
        let theirs = original_timing(ours);
        let v_sync = n % 2 == 0;
        let (mut pulse, mut only) = ([0xee; 60], [0xee; 44]);
        t.same("sync pulse", ours, Ok(()), chaffrail::make_sync_pulse(ours, v_sync, &mut pulse));
        t.all("sync pulse's words", ours, &theirs.make_sync_pulse(v_sync), &words(&pulse));
        t.same("sync-only line", ours, Ok(()), chaffrail::make_sync_line_only(ours, v_sync, &mut only));
        t.all("sync-only line's words", ours, &theirs.make_sync_line_only(v_sync), &words(&only));
    }
    for (kind, bad) in bad_timings() {
        unchanged(t, "pulse of a bad timing", bad, kind, 60, |l| chaffrail::make_sync_pulse(bad, true, l));
        unchanged(t, "line of a bad timing", bad, kind, 44, |l| chaffrail::make_sync_line_only(bad, true, l));
        unchanged(t, "pulse's length first", bad, Kind::Length, 61, |l| chaffrail::make_sync_pulse(bad, true, l));
        unchanged(t, "line's length first", bad, Kind::Length, 40, |l| chaffrail::make_sync_line_only(bad, true, l));
    }
}

pub fn island_lines(t: &mut Tally, random: &mut Random) {
    for n in 0..40_000u32 {
        let ours = timing(random);
        let theirs = original_timing(ours);
        let mut packet = [0; 36];
        if n > 3 {
            random.fill(&mut packet);
        }
        let mut bytes = [0u8; 224];
        random.fill(&mut bytes);
        let mut line: [u32; 56] = words(&bytes).try_into().unwrap();
        theirs.init_data_island(&mut line);
        t.same("island line begun", ours, Ok(()), chaffrail::init_data_island(ours, &mut bytes));
        t.all("island line's commands", ours, &line, &words(&bytes));
        let state = n as u8 % 4;
        let mut empty = (line, bytes);
        theirs.encode_data_island_empty(&mut empty.0, original_state(state));
        t.same("empty island line", (ours, state), Ok(()), chaffrail::encode_data_island_empty(ours, &mut empty.1, state));
        t.all("empty island line's words", (ours, state), &empty.0, &words(&empty.1));
        theirs.encode_data_island(&mut line, original_state(state), &packet_of(&packet));
        t.same("island line", (ours, state), Ok(()), chaffrail::encode_data_island(ours, &mut bytes, state, &packet));
        t.all("island line's words", (ours, state), &line, &words(&bytes));
    }
    let bad = Timing { h_sync_width: 36, ..VGA_TIMING };
    unchanged(t, "line of a bad timing", bad, Kind::TimingRange, 224, |l| chaffrail::init_data_island(bad, l));
    unchanged(t, "line of a bad timing", bad, Kind::TimingRange, 224, |l| chaffrail::encode_data_island(bad, l, 3, &[0; 36]));
    for state in 4..=255 {
        unchanged(t, "line state", state, Kind::Unlisted, 224, |l| chaffrail::encode_data_island(bad, l, state, &[0; 36]));
        unchanged(t, "line state", state, Kind::Unlisted, 224, |l| chaffrail::encode_data_island_empty(bad, l, state));
    }
    for len in [0, 56, 220, 223, 225, 228] {
        unchanged(t, "island line's length", len, Kind::Length, len, |l| chaffrail::init_data_island(bad, l));
        unchanged(t, "island line's length", len, Kind::Length, len, |l| chaffrail::encode_data_island(bad, l, 9, &[0; 36]));
    }
    for len in [0, 35, 37] {
        unchanged(t, "island line's packet", len, Kind::Length, 224, |l| chaffrail::encode_data_island(bad, l, 9, &vec![0; len]));
    }
}
