//! The line counter.
use crate::tally::{handed_back, Tally};
use chaffrail::raw::{chaffrail_counter_advance, chaffrail_counter_row, chaffrail_counter_state, NO_ROW};
use chaffrail::{Answer, Kind, Timing, VGA_TIMING};
use compare::dvi::timing::DviTimingState;
use compare::sides::{original_timing, timing, timing_below};
use compare::Random;

/// The three answers at a counter.
fn answers(timing: Timing, counter: u32, offset: u32) -> [Answer; 3] {
    unsafe { [chaffrail_counter_advance(counter, timing), chaffrail_counter_state(counter, timing), chaffrail_counter_row(counter, timing, offset)] }
}

fn given(value: u32, carry: u32) -> Answer {
    Answer { refusal: 0, place: 0, value, carry: carry as i32 }
}

fn refused(kind: Kind, counter: u32) -> Answer {
    handed_back(kind, counter as i32)
}

fn total(t: Timing) -> u32 {
    t.v_front_porch + t.v_sync_width + t.v_back_porch + t.v_active_lines
}

/// One line of a frame, at every offset where something changes.
fn line(t: &mut Tally, timing: Timing, counter: u32) {
    let theirs = original_timing(timing);
    let mut next = DviTimingState::new(counter);
    let state = next.v_state(&theirs) as u32;
    let shown = |offset: u32| DviTimingState::new(counter).v_scanline_index(&theirs, offset).unwrap_or(NO_ROW);
    next.advance(&theirs);
    let (lines, inactive) = (total(timing), total(timing) - timing.v_active_lines);
    let near = [inactive.saturating_sub(counter), lines - counter].into_iter().flat_map(|n| [n.saturating_sub(1), n, n + 1]);
    for offset in near.chain([0, 1, lines, 1 << 31, u32::MAX - counter]) {
        let known = [given(0, next.v_ctr()), given(state, counter), given(shown(offset), counter)];
        t.all("counter", (timing, counter, offset), &known, &answers(timing, counter, offset));
    }
    if counter > 0 {
        let beyond = answers(timing, counter, u32::MAX - counter + 1)[2];
        t.same("offset too large", (timing, counter), refused(Kind::LineOffset, counter), beyond);
    }
}

/// Whole frames of small timings and of VGA, some lines of large ones.
pub fn frames(t: &mut Tally, random: &mut Random) {
    for n in 0..400u64 {
        let timing = timing_below(random, 3 + n / 8);
        for counter in 0..total(timing) {
            line(t, timing, counter);
        }
        beyond(t, timing);
    }
    for counter in 0..total(VGA_TIMING) {
        line(t, VGA_TIMING, counter);
    }
    for _ in 0..20_000 {
        let timing = timing(random);
        line(t, timing, random.below(total(timing) as u64) as u32);
        line(t, timing, total(timing) - 1);
        beyond(t, timing);
    }
}

/// A counter that is no line, whatever the offset.
fn beyond(t: &mut Tally, timing: Timing) {
    for counter in [total(timing), total(timing) + 1, 1 << 31, u32::MAX] {
        for offset in [0, 1, u32::MAX] {
            t.all("counter past the frame", (timing, counter), &[refused(Kind::LineCounter, counter); 3], &answers(timing, counter, offset));
        }
    }
}

/// A timing that isn't fine goes before the counter: polarity, then ranges.
pub fn refusals(t: &mut Tally) {
    for (kind, bad) in crate::lines::bad_timings() {
        for counter in [0, 1, 524, 525, u32::MAX] {
            t.all("counter of a bad timing", (bad, counter), &[refused(kind, counter); 3], &answers(bad, counter, u32::MAX));
        }
    }
}
