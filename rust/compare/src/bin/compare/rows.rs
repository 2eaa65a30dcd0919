//! Rows, written and read.
use crate::tally::{handed_back, refused, Tally};
use chaffrail::raw::chaffrail_encode_row;
use chaffrail::{Answer, Kind};
use compare::sides::original_row;
use compare::Random;

pub fn rows(t: &mut Tally, random: &mut Random) {
    for n in 0..3000 {
        let len = if n < 600 { n } else { random.below(4097) as usize };
        let mut bytes = vec![0; len];
        random.fill(&mut bytes);
        let d = random.below(9) as i32 - 4;
        let (mut theirs, mut ours) = (vec![0; 2 * len], vec![0xaa; 2 * len]);
        let end = original_row(d, &bytes, &mut theirs);
        t.same("row's end", (d, &bytes), Ok(end), chaffrail::encode_row(d, &bytes, &mut ours));
        t.all("row", (d, &bytes), &theirs, &ours);
        let mut back = vec![0x55; len];
        t.same("row read", &theirs, Ok(()), chaffrail::read_row(&theirs, &mut back));
        t.all("row read back", &theirs, &bytes, &back);
        damaged_row(t, random, d, &bytes, &theirs);
    }
}

/// The whole answer.
fn encoded(d: i32, bytes: &[u8], symbols: &mut [u8]) -> Answer {
    unsafe { chaffrail_encode_row(d, bytes.as_ptr(), bytes.len(), symbols.as_mut_ptr(), symbols.len()) }
}

/// Wrong lengths, a discrepancy out of range and a symbol that is none: refused, with the buffer as it was.
fn damaged_row(t: &mut Tally, random: &mut Random, d: i32, bytes: &[u8], symbols: &[u8]) {
    for room in [symbols.len() + 1, symbols.len() + 2, symbols.len().wrapping_sub(1), 0] {
        if room == symbols.len() || room > 9000 {
            continue;
        }
        let mut out = vec![0x33; room];
        t.same("row's room", (bytes.len(), room), handed_back(Kind::Length, d), encoded(d, bytes, &mut out));
        t.all("row's room untouched", room, &vec![0x33; room], &out);
    }
    let mut out = vec![0x33; symbols.len()];
    let off = if random.below(2) == 0 { 5 + random.below(1000) as i32 } else { -5 - random.below(1000) as i32 };
    t.same("row's discrepancy", off, handed_back(Kind::Discrepancy, off), encoded(off, bytes, &mut out));
    t.all("row refused, untouched", off, &vec![0x33; symbols.len()], &out);
    if bytes.is_empty() {
        return;
    }
    let at = random.below(bytes.len() as u64) as usize;
    let mut broken = symbols.to_vec();
    broken[2 * at..2 * at + 2].copy_from_slice(&0x354u16.to_le_bytes());
    let mut back = vec![0x33; bytes.len()];
    t.same("row with a control symbol", at, Some((Kind::NotData, at as u32)), refused(chaffrail::read_row(&broken, &mut back)));
    t.all("row with a control symbol, untouched", at, &vec![0x33; bytes.len()], &back);
    let mut short = vec![0x33; bytes.len() - 1];
    t.same("read row's room", at, Some((Kind::Length, 0)), refused(chaffrail::read_row(symbols, &mut short)));
    t.same("odd bytes", at, Some((Kind::Length, 0)), refused(chaffrail::read_row(&symbols[1..], &mut back)));
}

pub fn long_rows(t: &mut Tally) {
    let bytes = vec![0; 4097];
    let mut out = vec![0x33; 8194];
    t.same("row of 4,097", 4097, Some((Kind::Length, 0)), refused(chaffrail::encode_row(0, &bytes, &mut out)));
    t.all("row of 4,097, untouched", 4097, &vec![0x33; 8194], &out);
    let mut back = vec![0x33; 4097];
    t.same("reading 4,097", 4097, Some((Kind::Length, 0)), refused(chaffrail::read_row(&out, &mut back)));
}
