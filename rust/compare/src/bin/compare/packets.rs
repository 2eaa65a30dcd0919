//! Parity, the clock packet and the info frames.
use crate::tally::{unchanged, Tally};
use chaffrail::{Avi, Kind};
use compare::dvi::data_island::parity;
use compare::sides::{built, flat, original_avi};
use compare::Random;

pub fn parities(t: &mut Tally, random: &mut Random) {
    for x in 0..=255 {
        t.same("parity of one byte", x, parity(&[x]), chaffrail::parity(&[x]));
    }
    for n in 0..200_000 {
        let mut block = vec![0; if n < 40 { n } else { random.below(40) as usize }];
        random.fill(&mut block);
        t.same("parity", &block, parity(&block), chaffrail::parity(&block));
    }
}

pub fn clocks(t: &mut Tally, random: &mut Random) {
    let edges = [0, 1, 255, 256, 65535, 65536, 1_048_574, 1_048_575];
    let mut inputs: Vec<(u32, u32)> = edges.iter().flat_map(|&a| edges.map(|b| (a, b))).collect();
    inputs.extend((0..100_000).map(|_| (random.below(1 << 20) as u32, random.below(1 << 20) as u32)));
    for (cts, n) in inputs {
        let mut ours = [0xee; 36];
        t.same("clock", (cts, n), Ok(()), chaffrail::set_audio_clock_regeneration(&mut ours, cts, n));
        t.all("clock packet", (cts, n), &built(|p| p.set_audio_clock_regeneration(cts, n)), &ours);
    }
    for (cts, n) in [(1 << 20, 0), (0, 1 << 20), (u32::MAX, u32::MAX)] {
        unchanged(t, "clock value", (cts, n), Kind::ClockValue, 36, |p| chaffrail::set_audio_clock_regeneration(p, cts, n));
    }
    for len in [0, 35, 37, 72] {
        unchanged(t, "clock packet's length", len, Kind::Length, len, |p| chaffrail::set_audio_clock_regeneration(p, 1 << 20, 0));
        unchanged(t, "audio info's length", len, Kind::Length, len, |p| chaffrail::set_audio_info_frame(p, 48000));
        unchanged(t, "AVI info's length", len, Kind::Length, len, |p| chaffrail::set_avi_info_frame(p, Avi { scan: 9, ..Default::default() }));
    }
}

pub fn audio_info(t: &mut Tally, random: &mut Random) {
    let mut rates = vec![0, 1, 32000, 44099, 44100, 44101, 47999, 48000, 48001, u32::MAX];
    rates.extend((0..10_000).map(|_| random.next() as u32));
    for rate in rates {
        let mut ours = [0xee; 36];
        t.same("audio info", rate, Ok(()), chaffrail::set_audio_info_frame(&mut ours, rate));
        t.all("audio info packet", rate, &built(|p| p.set_audio_info_frame(rate)), &ours);
    }
}

pub fn avi(t: &mut Tally) {
    let within = |r: std::ops::Range<u32>| r.collect::<Vec<u32>>();
    let mut frames = 0;
    for s in within(0..3) {
        for y in within(0..3) {
            for c in within(0..4) {
                for m in within(0..3) {
                    for r in [0, 8, 9, 10, 11] {
                        for q in within(0..3) {
                            for v in [1, 2] {
                                frames += 1;
                                let f = Avi { scan: s, pixel_format: y, colorimetry: c, picture_aspect: m, active_aspect: r, quantization: q, video_code: v };
                                one_avi(t, f);
                            }
                        }
                    }
                }
            }
        }
    }
    t.same("AVI frames", (), 3240, frames);
    let good = Avi { video_code: 1, ..Default::default() };
    for bad in [
        Avi { scan: 3, ..good },
        Avi { pixel_format: 3, ..good },
        Avi { colorimetry: 4, ..good },
        Avi { picture_aspect: 3, ..good },
        Avi { active_aspect: 7, ..good },
        Avi { active_aspect: 12, ..good },
        Avi { active_aspect: 255, ..good },
        Avi { quantization: 3, ..good },
        Avi { video_code: 0, ..good },
        Avi { video_code: 3, ..good },
        Avi { scan: 256, ..good },
    ] {
        unchanged(t, "AVI field", bad, Kind::Unlisted, 36, |p| chaffrail::set_avi_info_frame(p, bad));
    }
}

/// With no active format (R = 0) the original's byte 2 is swamped: there its byte, the checksum and the parity are put right first.
fn one_avi(t: &mut Tally, f: Avi) {
    let (mut theirs, mut ours) = (original_avi(f), [0xee; 36]);
    if f.active_aspect == 0 {
        let right = (16 * f.picture_aspect + 64 * f.colorimetry) as u8;
        t.same("AVI byte 2 of the original", f, 255, theirs.subpacket[0][2]);
        theirs.subpacket[0][0] = theirs.subpacket[0][0].wrapping_add(255).wrapping_sub(right);
        theirs.subpacket[0][2] = right;
        theirs.subpacket[0][7] = parity(&theirs.subpacket[0][..7]);
    }
    t.same("AVI info", f, Ok(()), chaffrail::set_avi_info_frame(&mut ours, f));
    t.all("AVI packet", f, &flat(&theirs), &ours);
}
