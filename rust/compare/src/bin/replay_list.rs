//! Writes the list that the program `replay` runs: answers of the original, a case a line. With `--damaged`, one digit of each case's answers is another,
//! so that every case must differ.
use chaffrail::{Avi, Timing, VGA_TIMING};
use compare::dvi::data_island::{parity, TERC4_SYMBOLS};
use compare::dvi::timing::{self, DviTimingState};
use compare::dvi::tmds::{TmdsPair, TmdsSymbol};
use compare::sides::*;
use compare::{original_encode, Random};

const SEED: u64 = 0x5eed_0f1d_1e57_a1b3;

const HEAD: &str = "\
# The replay list: answers of pico-dvi-rs, a case a line. The program `replay` computes each anew and compares.
# Made in rust/ by `cargo run --release -p compare --bin replay_list > ../crates/replay/stdin`, from src/dvi of
# DusterTheFirst/pico-dvi-rs at 94f1311fa9, its three files unchanged, built for a host (rust/compare/src/original.rs).
# A line has its kind, its inputs and, after two spaces, the original's answers: bytes in hexadecimal, a number's highest
# byte first, below zero in two's complement. A timing is its ten numbers in the order of the struct, with no bit clock.
# Every input is one that ours doesn't refuse. Where the two differ (docs/DIFFERENCES.md) the original isn't asked: there
# are no AVI frames with the active format `NoData`, and each packet is cleared before the original fills it.
";

/// One line.
struct Case {
    line: String,
    answers: usize,
}

impl Case {
    fn bytes(mut self, bytes: &[u8]) -> Self {
        if !bytes.is_empty() {
            self.line.push(' ');
        }
        for b in bytes {
            self.line += &format!("{b:02x}");
        }
        self
    }

    fn byte(self, b: u8) -> Self {
        self.bytes(&[b])
    }

    /// A discrepancy.
    fn signed(self, d: i32) -> Self {
        self.byte(d as i8 as u8)
    }

    fn two(self, n: u16) -> Self {
        self.bytes(&n.to_be_bytes())
    }

    fn four(self, n: u32) -> Self {
        self.bytes(&n.to_be_bytes())
    }

    fn words(self, words: &[u32]) -> Self {
        words.iter().fold(self, |c, w| c.four(*w))
    }

    fn packet(self, p: &[u8; 36]) -> Self {
        p[4..].chunks(8).fold(self.bytes(&p[..4]), |c, s| c.bytes(s))
    }

    fn timing(self, t: Timing) -> Self {
        let across = [t.h_front_porch, t.h_sync_width, t.h_back_porch, t.h_active_pixels];
        let down = [t.v_front_porch, t.v_sync_width, t.v_back_porch, t.v_active_lines];
        let half = |c: Case, polarity: u8, numbers: [u32; 4]| numbers.iter().fold(c.byte(polarity), |c, n| c.two(*n as u16));
        half(half(self, t.h_sync_polarity, across), t.v_sync_polarity, down)
    }

    /// What follows is answered.
    fn answers(mut self) -> Self {
        self.line.push(' ');
        self.answers = self.line.len();
        self
    }
}

struct List {
    text: String,
    random: Random,
    damage: Option<Random>,
}

impl List {
    fn about(&mut self, kind: &str, fields: &str) {
        self.text += &format!("# {kind}: {fields}\n");
    }

    fn add(&mut self, kind: &str, fill: impl FnOnce(Case) -> Case) {
        let case = fill(Case { line: kind.to_string(), answers: 0 });
        let mut line = case.line.into_bytes();
        if let Some(random) = &mut self.damage {
            let digits: Vec<usize> = (case.answers..line.len()).filter(|&i| line[i] != b' ').collect();
            let at = digits[random.below(digits.len() as u64) as usize];
            line[at] = if line[at] == b'0' { b'1' } else { b'0' };
        }
        self.text += std::str::from_utf8(&line).unwrap();
        self.text.push('\n');
    }

    fn byte(&mut self) -> u8 {
        self.random.below(256) as u8
    }

    fn some<const N: usize>(&mut self) -> [u8; N] {
        std::array::from_fn(|_| self.byte())
    }
}

fn number(s: TmdsSymbol) -> u16 {
    (TmdsPair::new(s, TmdsSymbol::C0).raw() & 0x3ff) as u16
}

fn symbols(list: &mut List) {
    list.about("symbol", "discrepancy, byte; symbol, discrepancy after it");
    for d in -4..=4 {
        let mut bytes = vec![0x00, 0x01, 0x0f, 0x10, 0x55, 0x7f, 0x80, 0xaa, 0xef, 0xf0, 0xfe, 0xff];
        bytes.extend((0..44).map(|_| list.byte()));
        for b in bytes {
            let (symbol, end) = original_encode(d, b);
            list.add("symbol", |c| c.signed(d).byte(b).answers().two(symbol).signed(end));
        }
    }
    list.about("control", "C0, C1; symbol");
    let control = [TmdsSymbol::C0, TmdsSymbol::C1, TmdsSymbol::C2, TmdsSymbol::C3];
    for (i, &s) in control.iter().enumerate() {
        list.add("control", |c| c.byte(i as u8 % 2).byte(i as u8 / 2).answers().two(number(s)));
    }
    list.about("joined", "two symbols; pair");
    for i in 0..60 {
        let first = TmdsSymbol::encode(list.random.below(9) as i32 - 4, list.byte()).1;
        let second = control.get(i).copied().unwrap_or_else(|| TmdsSymbol::encode(list.random.below(9) as i32 - 4, list.byte()).1);
        list.add("joined", |c| c.two(number(first)).two(number(second)).answers().four(TmdsPair::new(first, second).raw()));
    }
}

fn pairs(list: &mut List) {
    let mut inputs = vec![(0x00, 0x00), (0x00, 0x01), (0xff, 0xff), (0x10, 0xef), (0x80, 0x7f)];
    inputs.extend((0..200).map(|_| (list.byte(), list.byte())));
    list.about("pair", "two bytes; pair, discrepancy after it");
    for &(a, b) in &inputs {
        let (pair, end) = TmdsPair::encode_pair_discrepancy(a, b);
        list.add("pair", |c| c.byte(a).byte(b).answers().four(pair.raw()).signed(end));
    }
    list.about("balanced", "two bytes that leave the lane where it stood; pair");
    inputs.extend((0..300).map(|_| (list.byte(), list.byte())));
    for (a, b) in inputs.into_iter().filter(|&(a, b)| TmdsPair::encode_pair_discrepancy(a, b).1 == 0) {
        list.add("balanced", |c| c.byte(a).byte(b).answers().four(TmdsPair::encode_pair(a, b).raw()));
    }
    list.about("approx", "a byte; the pair with its neighbour");
    for b in (0..=255).step_by(5) {
        list.add("approx", |c| c.byte(b).answers().four(TmdsPair::encode_balanced_approx(b).raw()));
    }
}

fn rows(list: &mut List) {
    list.about("row", "discrepancy, bytes; their symbols, one call after the other, and the discrepancy after them");
    for len in (0..=32).chain([63, 64, 65, 100, 255, 640]) {
        let d = list.random.below(9) as i32 - 4;
        let bytes: Vec<u8> = (0..len).map(|_| list.byte()).collect();
        let mut symbols = vec![0; 2 * len];
        let end = original_row(d, &bytes, &mut symbols);
        list.add("row", |c| {
            let c = c.signed(d).bytes(&bytes).answers();
            symbols.chunks(2).fold(c, |c, s| c.two(u16::from_le_bytes([s[0], s[1]]))).signed(end)
        });
    }
}

fn blocks(list: &mut List) {
    list.about("parity", "a block; its parity byte");
    for len in (0..=40).chain([3; 40]).chain([7; 40]).chain([255, 1000]) {
        let block: Vec<u8> = (0..len).map(|_| list.byte()).collect();
        list.add("parity", |c| c.bytes(&block).answers().byte(parity(&block)));
    }
    list.about("terc4", "a number; its symbol");
    for (n, s) in TERC4_SYMBOLS.iter().enumerate() {
        list.add("terc4", |c| c.byte(n as u8).answers().two(*s));
    }
}

fn audio(list: &mut List) {
    list.about("audio", "frame count, samples, left then right; packet, frame count after it");
    let extremes = [0, 1, -1, i16::MAX, i16::MIN, 255, -256, 0x5555];
    for count in [0, 1, 2, 3, 4, 5, 63, 96, 187, 188, 189, 190, 191] {
        for n in 0..=4 {
            // With no frames there is nothing to choose.
            for extreme in [true, false].into_iter().skip((n == 0) as usize) {
                let mut sample = || if extreme { extremes[list.random.below(8) as usize] } else { list.random.next() as i16 };
                let frames: Vec<[i16; 2]> = (0..n).map(|_| [sample(), sample()]).collect();
                let mut after = count;
                let packet = built(|p| p.set_audio(&frames, &mut after));
                list.add("audio", |c| {
                    let c = frames.iter().flatten().fold(c.byte(count as u8), |c, s| c.two(*s as u16));
                    c.answers().packet(&packet).byte(after as u8)
                });
            }
        }
    }
}

fn packets(list: &mut List) {
    list.about("clock", "CTS, N; packet");
    let mut clocks = vec![(0, 0), (25200, 6144), (28000, 6272), (1_048_575, 1_048_575), (65535, 65536), (255, 256)];
    clocks.extend((0..40).map(|_| (list.random.below(1 << 20) as u32, list.random.below(1 << 20) as u32)));
    for (cts, n) in clocks {
        list.add("clock", |c| c.four(cts).four(n).answers().packet(&built(|p| p.set_audio_clock_regeneration(cts, n))));
    }
    list.about("audio_info", "rate; packet");
    for rate in [0, 1, 32000, 44099, 44100, 44101, 47999, 48000, 48001, 88200, 96000, u32::MAX] {
        list.add("audio_info", |c| c.four(rate).answers().packet(&built(|p| p.set_audio_info_frame(rate))));
    }
    list.about("avi", "S, Y, C, M, R, Q, video code; packet");
    for i in 0..72 {
        let mut below = |n: u64| list.random.below(n) as u32;
        let f = Avi {
            scan: below(3),
            pixel_format: below(3),
            colorimetry: below(4),
            picture_aspect: below(3),
            active_aspect: 8 + i % 4,
            quantization: below(3),
            video_code: 1 + i / 4 % 2,
        };
        let fields = [f.scan, f.pixel_format, f.colorimetry, f.picture_aspect, f.active_aspect, f.quantization, f.video_code];
        list.add("avi", |c| fields.iter().fold(c, |c, n| c.byte(*n as u8)).answers().packet(&flat(&original_avi(f))));
    }
    list.about("island", "sync pair, packet; words");
    for i in 0..52 {
        let packet = if i < 4 { [0; 36] } else { list.some() };
        let hv = i % 4;
        let mut words = [0; 36];
        packet_of(&packet).encode(hv, &mut words);
        list.add("island", |c| c.byte(hv).packet(&packet).answers().words(&words));
    }
}

/// The ends of the ranges, then any in between.
fn timings(list: &mut List, n: usize) -> Vec<Timing> {
    let lowest = Timing {
        h_front_porch: 9,
        h_sync_width: 37,
        h_back_porch: 11,
        h_active_pixels: 9,
        v_front_porch: 1,
        v_sync_width: 1,
        v_back_porch: 1,
        v_active_lines: 1,
        ..VGA_TIMING
    };
    let highest = Timing {
        h_sync_polarity: 1,
        h_front_porch: 4095,
        h_sync_width: 4095,
        h_back_porch: 4095,
        h_active_pixels: 4095,
        v_sync_polarity: 1,
        v_front_porch: 4095,
        v_sync_width: 4095,
        v_back_porch: 4095,
        v_active_lines: 4095,
        ..VGA_TIMING
    };
    let between = (0..n).map(|_| timing(&mut list.random));
    [VGA_TIMING, lowest, highest].into_iter().chain(between).collect()
}

fn lines(list: &mut List) {
    list.about("vga", "nothing; the timing with its bit clock");
    let vga = timing_of(&timing::VGA_TIMING);
    list.add("vga", |c| c.answers().timing(vga).four(vga.bit_clk));
    list.about("sync", "timing, horizontal sync, vertical sync; three-lane word");
    for i in 0..16 {
        let t = Timing { h_sync_polarity: i & 1, v_sync_polarity: i >> 1 & 1, ..timing(&mut list.random) };
        let (h, v) = (i >> 2 & 1, i >> 3 & 1);
        list.add("sync", |c| c.timing(t).byte(h).byte(v).answers().four(original_timing(t).tmds3_for_sync(h == 1, v == 1)));
    }
    list.about("pulse", "timing, vertical sync; words of a blanking with a sync pulse");
    for (i, t) in timings(list, 17).into_iter().enumerate() {
        let v = i % 2;
        list.add("pulse", |c| c.timing(t).byte(v as u8).answers().words(&original_timing(t).make_sync_pulse(v == 1)));
    }
    list.about("only", "timing, vertical sync; words of a line without pixels");
    for (i, t) in timings(list, 17).into_iter().enumerate() {
        let v = i % 2;
        list.add("only", |c| c.timing(t).byte(v as u8).answers().words(&original_timing(t).make_sync_line_only(v == 1)));
    }
}

fn island_lines(list: &mut List) {
    list.about("init", "timing, the word that the line holds before; words of an island line, six of them commands");
    for t in timings(list, 9) {
        let before = list.random.next() as u32;
        let mut line = [before; 56];
        original_timing(t).init_data_island(&mut line);
        list.add("init", |c| c.timing(t).four(before).answers().words(&line));
    }
    list.about("island_line", "timing, line state, packet; words of an island line");
    for (i, t) in timings(list, 45).into_iter().enumerate() {
        let (state, packet) = (i as u8 % 4, list.some());
        let mut line = [0; 56];
        original_timing(t).init_data_island(&mut line);
        original_timing(t).encode_data_island(&mut line, original_state(state), &packet_of(&packet));
        list.add("island_line", |c| c.timing(t).byte(state).packet(&packet).answers().words(&line));
    }
    list.about("empty_line", "timing, line state; words of an island line with no packet");
    for (i, t) in timings(list, 21).into_iter().enumerate() {
        let state = i as u8 % 4;
        let mut line = [0; 56];
        original_timing(t).init_data_island(&mut line);
        original_timing(t).encode_data_island_empty(&mut line, original_state(state));
        list.add("empty_line", |c| c.timing(t).byte(state).answers().words(&line));
    }
}

/// Whole frames of small timings.
fn counters(list: &mut List) {
    let t = [Timing { v_front_porch: 2, v_sync_width: 1, v_back_porch: 3, v_active_lines: 5, ..VGA_TIMING }, timing_below(&mut list.random, 9)];
    let frames: Vec<(Timing, u32)> = t.iter().flat_map(|&t| (0..t.v_front_porch + t.v_sync_width + t.v_back_porch + t.v_active_lines).map(move |n| (t, n))).collect();
    list.about("advance", "timing, counter; the next counter");
    for &(t, n) in &frames {
        let mut counter = DviTimingState::new(n);
        counter.advance(&original_timing(t));
        list.add("advance", |c| c.timing(t).four(n).answers().four(counter.v_ctr()));
    }
    list.about("state", "timing, counter; line state");
    for &(t, n) in &frames {
        let state = DviTimingState::new(n).v_state(&original_timing(t));
        list.add("state", |c| c.timing(t).four(n).answers().byte(state as u8));
    }
    list.about("scanline", "timing, counter, offset; 1 and a row, or 0 and 0 where there is none");
    for &(t, n) in &frames {
        for offset in [0, 1, 2, 7, 100, u32::MAX - n] {
            let row = DviTimingState::new(n).v_scanline_index(&original_timing(t), offset);
            list.add("scanline", |c| c.timing(t).four(n).four(offset).answers().byte(row.is_some() as u8).four(row.unwrap_or(0)));
        }
    }
}

fn main() {
    let damage = std::env::args().nth(1).filter(|a| a == "--damaged").map(|_| Random::new(!SEED));
    let mut list = List { text: HEAD.to_string(), random: Random::new(SEED), damage };
    list.text += &format!("# The numbers are chosen by xorshift64* from {SEED:#x}, beside the ends of the ranges.\n");
    symbols(&mut list);
    pairs(&mut list);
    rows(&mut list);
    blocks(&mut list);
    audio(&mut list);
    packets(&mut list);
    lines(&mut list);
    island_lines(&mut list);
    counters(&mut list);
    print!("{}", list.text);
}
