//! Timing, lines and the counter, one call for each input. Both sides write words into the same room.
use crate::turns::{calls, fills};
use chaffrail::Timing;
use compare::dvi::data_island::DataPacket;
use compare::dvi::timing::{DviTiming, DviTimingState};
use compare::sides::{as_bytes, original_state, original_timing, packet_of, timing};
use compare::Random;

/// An input: both sides' timing, a line state, a packet, a counter.
#[derive(Clone, Copy)]
struct Line<'a> {
    theirs: &'a (DviTiming, DataPacket),
    timing: Timing,
    packet: [u8; 36],
    state: u8,
    counter: u32,
}

impl Line<'_> {
    fn v_sync(&self) -> bool {
        self.state == 1
    }
}

fn line_words(lines: &[Line]) {
    fills(
        "sync pulse",
        "line",
        lines,
        [0; 15],
        |l, w| *w = l.theirs.0.make_sync_pulse(l.v_sync()),
        |l, w| chaffrail::make_sync_pulse(l.timing, l.v_sync(), as_bytes(w)).unwrap(),
    );
    fills(
        "sync-only line",
        "line",
        lines,
        [0; 11],
        |l, w| *w = l.theirs.0.make_sync_line_only(l.v_sync()),
        |l, w| chaffrail::make_sync_line_only(l.timing, l.v_sync(), as_bytes(w)).unwrap(),
    );
    fills(
        "island line begun",
        "line",
        lines,
        [0; 56],
        |l, w| l.theirs.0.init_data_island(w),
        |l, w| chaffrail::init_data_island(l.timing, as_bytes(w)).unwrap(),
    );
    fills(
        "island line with a packet",
        "line",
        lines,
        [0; 56],
        |l, w| l.theirs.0.encode_data_island(w, original_state(l.state), &l.theirs.1),
        |l, w| chaffrail::encode_data_island(l.timing, as_bytes(w), l.state, &l.packet).unwrap(),
    );
    fills(
        "island line without one",
        "line",
        lines,
        [0; 56],
        |l, w| l.theirs.0.encode_data_island_empty(w, original_state(l.state)),
        |l, w| chaffrail::encode_data_island_empty(l.timing, as_bytes(w), l.state).unwrap(),
    );
}

fn counters(lines: &[Line]) {
    let theirs = |l: &Line| {
        let mut state = DviTimingState::new(l.counter);
        state.advance(&l.theirs.0);
        state.v_ctr()
    };
    calls("counter advanced", "line", lines, 0, theirs, |l| chaffrail::counter_advance(l.counter, l.timing).unwrap());
    calls(
        "line state",
        "line",
        lines,
        0,
        |l| DviTimingState::new(l.counter).v_state(&l.theirs.0) as u8,
        |l| chaffrail::counter_state(l.counter, l.timing).unwrap(),
    );
    calls(
        "row of a line",
        "line",
        lines,
        None,
        |l| DviTimingState::new(l.counter).v_scanline_index(&l.theirs.0, 2),
        |l| chaffrail::counter_row(l.counter, l.timing, 2).unwrap(),
    );
}

pub fn lines(random: &mut Random) {
    let inputs: Vec<(Timing, [u8; 36])> = (0..1 << 14).map(|_| (timing(random), std::array::from_fn(|_| random.below(256) as u8))).collect();
    let theirs: Vec<(DviTiming, DataPacket)> = inputs.iter().map(|(t, p)| (original_timing(*t), packet_of(p))).collect();
    let mut lines = Vec::new();
    for ((timing, packet), theirs) in inputs.iter().zip(&theirs) {
        let total = timing.v_front_porch + timing.v_sync_width + timing.v_back_porch + timing.v_active_lines;
        lines.push(Line { theirs, timing: *timing, packet: *packet, state: random.below(4) as u8, counter: random.below(total as u64) as u32 });
    }
    calls(
        "sync word",
        "word",
        &lines,
        0,
        |l| l.theirs.0.tmds3_for_sync(l.state & 1 == 1, l.v_sync()),
        |l| chaffrail::tmds3_for_sync(l.timing, l.state & 1 == 1, l.v_sync()).unwrap(),
    );
    line_words(&lines);
    counters(&lines);
}
