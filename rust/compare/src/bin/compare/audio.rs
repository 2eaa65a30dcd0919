//! The audio packet.
use crate::tally::{handed_back, refused, unchanged, Tally};
use chaffrail::raw::chaffrail_set_audio;
use chaffrail::Kind;
use compare::sides::built;
use compare::Random;

const EXTREMES: [i16; 8] = [0, 1, -1, i16::MAX, i16::MIN, 255, -256, 0x5555];

/// Samples as they cross: low byte first.
fn crossed(frames: &[[i16; 2]]) -> Vec<u8> {
    frames.iter().flatten().flat_map(|s| s.to_le_bytes()).collect()
}

/// The original's packet is cleared first; ours is lent full of other bytes.
fn one(t: &mut Tally, frames: &[[i16; 2]], count: i32) {
    let (mut after, mut ours) = (count, [0xee; 36]);
    let theirs = built(|p| p.set_audio(frames, &mut after));
    t.same("audio count", (frames, count), Ok(after), chaffrail::set_audio(&mut ours, &crossed(frames), count));
    t.all("audio packet", (frames, count), &theirs, &ours);
}

/// Every count with every number of frames, extreme and random samples; and every sample on either side.
pub fn audio(t: &mut Tally, random: &mut Random) {
    for count in 0..192 {
        for n in 0..=4 {
            for i in 0..60 {
                let mut sample = || if i < 20 { EXTREMES[random.below(8) as usize] } else { random.next() as i16 };
                let frames: Vec<[i16; 2]> = (0..n).map(|_| [sample(), sample()]).collect();
                one(t, &frames, count);
            }
        }
    }
    for sample in i16::MIN..=i16::MAX {
        let other = random.next() as i16;
        one(t, &[[sample, other], [other, sample]], random.below(192) as i32);
    }
}

/// A refused call changes nothing and hands the count back.
pub fn refusals(t: &mut Tally) {
    let samples = [0x11; 24];
    for len in (0..=24).filter(|n| !matches!(n, 0 | 4 | 8 | 12 | 16)) {
        unchanged(t, "audio's samples", len, Kind::Length, 36, |p| chaffrail::set_audio(p, &samples[..len], 192).map(|_| ()));
    }
    for len in [0, 35, 37, 72] {
        unchanged(t, "audio packet's length", len, Kind::Length, len, |p| chaffrail::set_audio(p, &samples[..8], -1).map(|_| ()));
    }
    for count in [-1, -2, -192, 192, 193, 255, 256, i32::MIN, i32::MAX] {
        for n in [0, 4, 8, 12, 16] {
            unchanged(t, "audio's count", (count, n), Kind::FrameCount, 36, |p| chaffrail::set_audio(p, &samples[..n], count).map(|_| ()));
        }
        let mut lent = [0x5a; 36];
        let ask = |lent: &mut [u8], n: usize| unsafe { chaffrail_set_audio(lent.as_mut_ptr(), lent.len(), samples.as_ptr(), n, count) };
        t.same("count handed back", count, handed_back(Kind::FrameCount, count), ask(&mut lent, 8));
        t.same("count handed back with a length", count, handed_back(Kind::Length, count), ask(&mut lent, 6));
    }
    t.same("the lowest count that is taken", 0, None, refused(chaffrail::set_audio(&mut [0; 36], &samples[..4], 0)));
    t.same("the highest count that is taken", 191, None, refused(chaffrail::set_audio(&mut [0; 36], &samples[..4], 191)));
}
