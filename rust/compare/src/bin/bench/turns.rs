//! The two sides in turn, and the table's rows.
use std::hint::black_box;
use std::time::Instant;

const ROUNDS: usize = 9;

/// Elements of a piece, and the bytes of a piece's answers, which stay in the nearest cache.
pub const PIECE: usize = 4096;
const NEAR: usize = 1 << 14;

/// Nanoseconds for each unit. The work is cut into short pieces, the two sides take turns at each, and of every piece the best of several rounds
/// counts: so a machine with other work to do, which interrupts the longer side more often, does not flatter the shorter one.
/// Before each turn the piece's inputs are read once, so that neither side pays for fetching them.
pub fn best(units: usize, pieces: usize, touch: impl Fn(usize), mut one: impl FnMut(usize), mut other: impl FnMut(usize)) -> (f64, f64) {
    let mut times = vec![(u128::MAX, u128::MAX); pieces];
    for _ in 0..ROUNDS {
        for (k, best) in times.iter_mut().enumerate() {
            touch(k);
            let t = Instant::now();
            one(k);
            best.0 = best.0.min(t.elapsed().as_nanos());
            touch(k);
            let t = Instant::now();
            other(k);
            best.1 = best.1.min(t.elapsed().as_nanos());
        }
    }
    let each = |sum: u128| sum as f64 / units as f64;
    (each(times.iter().map(|t| t.0).sum()), each(times.iter().map(|t| t.1).sum()))
}

pub fn read(bytes: &[u8]) {
    black_box(bytes.iter().fold(0u8, |sum, b| sum.wrapping_add(*b)));
}

pub fn row(name: &str, unit: &str, (theirs, ours): (f64, f64)) {
    let article = if unit.starts_with('i') { "an" } else { "a" };
    println!("| {:.1} | {name} | {theirs:.2} | {ours:.2} | ns {article} {unit} |", theirs / ours);
}

/// One call for each input, its answer stored.
pub fn calls<I: Copy, O: PartialEq + Clone>(name: &str, unit: &str, inputs: &[I], empty: O, one: impl Fn(&I) -> O, other: impl Fn(&I) -> O) {
    fills(name, unit, inputs, empty, |i, o| *o = one(i), |i, o| *o = other(i));
}

/// One call for each input, into room that is lent to it: the answer is written where it stays, as firmware has it.
pub fn fills<I: Copy, O: PartialEq + Clone>(name: &str, unit: &str, inputs: &[I], empty: O, one: impl Fn(&I, &mut O), other: impl Fn(&I, &mut O)) {
    let (mut theirs, mut ours) = (vec![empty.clone(); inputs.len()], vec![empty; inputs.len()]);
    let piece = (NEAR / size_of::<O>()).min(PIECE);
    let at = |k: usize| piece * k..(piece * (k + 1)).min(inputs.len());
    let times = best(
        inputs.len(),
        inputs.len().div_ceil(piece),
        |k| {
            inputs[at(k)].iter().for_each(|&i| {
                black_box(i);
            })
        },
        |k| inputs[at(k)].iter().zip(&mut theirs[at(k)]).for_each(|(i, o)| one(i, o)),
        |k| inputs[at(k)].iter().zip(&mut ours[at(k)]).for_each(|(i, o)| other(i, o)),
    );
    assert!(theirs == ours, "{name}: the outputs differ");
    row(name, unit, times);
}
