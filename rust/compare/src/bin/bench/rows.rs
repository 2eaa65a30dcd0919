//! Rows, written and read.
use crate::turns::{best, read, row, PIECE};
use compare::sides::original_row;
use compare::Random;
use std::hint::black_box;

fn smooth(random: &mut Random, bytes: &mut [u8]) {
    let (start, slope) = (random.below(256) as f64, random.below(100) as f64 / 1000.0);
    for (i, b) in bytes.iter_mut().enumerate() {
        *b = (start + slope * i as f64 + random.below(3) as f64) as u64 as u8;
    }
}

/// Rows one after the other, each from 0. A row longer than a piece goes in pieces, the discrepancy carried.
fn rows(name: &str, data: &[u8], len: usize, unit: &str, print: impl Fn(&str, &str, (f64, f64))) {
    let piece = if len > PIECE { PIECE } else { PIECE / len * len };
    let pieces = data.len() / piece;
    let data = &data[..pieces * piece];
    let step = len.min(piece);
    let (mut theirs, mut ours) = (vec![0u8; 2 * data.len()], vec![0u8; 2 * data.len()]);
    let (mut ends, mut our_ends) = (vec![0; data.len() / step], vec![0; data.len() / step]);
    let start = |at: usize, ends: &[i32]| if at % len == 0 { 0 } else { ends[at / step - 1] };
    let times = best(
        data.len(),
        pieces,
        |k| read(&data[k * piece..][..piece]),
        |k| {
            for at in (k * piece..(k + 1) * piece).step_by(step) {
                ends[at / step] = original_row(start(at, &ends), &data[at..at + step], &mut theirs[2 * at..2 * (at + step)]);
            }
        },
        |k| {
            for at in (k * piece..(k + 1) * piece).step_by(step) {
                our_ends[at / step] = chaffrail::encode_row(start(at, &our_ends), &data[at..at + step], &mut ours[2 * at..2 * (at + step)]).unwrap();
            }
        },
    );
    assert!(theirs == ours && ends == our_ends, "{name}: the outputs differ");
    print(name, unit, times);
}

fn reading(name: &str, data: &[u8]) {
    let mut symbols = vec![0u8; 2 * data.len()];
    let mut scratch = vec![0u8; 2 * data.len()];
    let mut back = vec![0u8; data.len()];
    for (b, s) in data.chunks(4096).zip(symbols.chunks_mut(8192)) {
        chaffrail::encode_row(0, b, s).unwrap();
    }
    let times = best(
        data.len(),
        data.len() / 4096,
        |k| {
            read(&data[4096 * k..][..4096]);
            read(&symbols[8192 * k..][..8192]);
        },
        |k| {
            black_box(original_row(0, &data[4096 * k..][..4096], &mut scratch[8192 * k..][..8192]));
        },
        |k| chaffrail::read_row(&symbols[8192 * k..][..8192], &mut back[4096 * k..][..4096]).unwrap(),
    );
    assert!(back == data && scratch == symbols, "{name}: the outputs differ");
    row(name, "symbol", times);
}

pub fn tables(random: &mut Random) {
    let mut data = vec![0u8; 512 * 4096];
    random.fill(&mut data);
    rows("rows of 4,096 random bytes", &data, 4096, "byte", row);
    rows("rows of 640 random bytes", &data, 640, "byte", row);
    let mut gentle = vec![0u8; 512 * 4096];
    for line in gentle.chunks_mut(4096) {
        smooth(random, line);
    }
    rows("rows of 4,096 smooth bytes", &gentle, 4096, "byte", row);
    reading("reading rows of 4,096 (beside the original's encoder)", &data);
}

/// How the time of a row grows with its length.
pub fn lengths(random: &mut Random) {
    println!("| row's length | original | ours | ns a byte |\n|---|---|---|---|");
    let mut long = vec![0u8; 16 << 20];
    random.fill(&mut long);
    let mut len = 16;
    while len <= 16 << 20 {
        rows(&len.to_string(), &long[..len.max(1 << 20)], len, "", |name, _, (theirs, ours)| println!("| {name} | {theirs:.2} | {ours:.2} | |"));
        len *= 4;
    }
}
