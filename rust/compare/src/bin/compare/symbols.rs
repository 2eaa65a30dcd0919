//! Symbols and pairs.
use crate::tally::{handed_back, refused, Tally};
use chaffrail::raw::chaffrail_encode_symbol;
use chaffrail::Kind;
use compare::dvi::tmds::{TmdsPair, TmdsSymbol};
use compare::original_encode;

pub fn symbols(t: &mut Tally) {
    let mut byte_of = [None; 65536];
    for d in -4..=4 {
        for byte in 0..=255 {
            let theirs = original_encode(d, byte);
            byte_of[theirs.0 as usize] = Some(byte);
            t.same("symbol", (d, byte), Ok(theirs), chaffrail::encode_symbol(d, byte));
        }
    }
    for d in [-5, 5, i32::MIN, i32::MAX] {
        t.same("discrepancy out of range", d, handed_back(Kind::Discrepancy, d), unsafe { chaffrail_encode_symbol(d, 0) });
    }
    for symbol in 0..=65535u16 {
        match byte_of[symbol as usize] {
            Some(byte) => t.same("read symbol", symbol, Ok(byte), chaffrail::read_symbol(symbol)),
            None => t.same("read symbol", symbol, Some((Kind::NotData, 0)), refused(chaffrail::read_symbol(symbol))),
        }
    }
}

pub fn pairs(t: &mut Tally) {
    for b0 in 0..=255 {
        for b1 in 0..=255 {
            let (pair, end) = TmdsPair::encode_pair_discrepancy(b0, b1);
            t.same("pair and its end", (b0, b1), (pair.raw(), end), chaffrail::encode_pair_discrepancy(b0, b1));
            match end {
                0 => t.same("pair", (b0, b1), Ok(pair.raw()), chaffrail::encode_pair(b0, b1)),
                _ => t.same("pair off balance", (b0, b1), Some((Kind::Unbalanced, 0)), refused(chaffrail::encode_pair(b0, b1))),
            }
        }
        t.same("balanced pair", b0, Ok(TmdsPair::encode_balanced_approx(b0).raw()), chaffrail::encode_balanced_approx(b0));
    }
    for (i, symbol) in [TmdsSymbol::C0, TmdsSymbol::C1, TmdsSymbol::C2, TmdsSymbol::C3].into_iter().enumerate() {
        let theirs = TmdsPair::double(symbol).raw();
        let ours = chaffrail::control_symbol(i % 2 == 1, i / 2 == 1);
        t.same("control symbol", i, (theirs & 0x3ff) as u16, ours);
        t.same("control symbol doubled", i, Ok(theirs), chaffrail::join_symbols(ours, ours));
    }
    for (a, b) in [(0, 0), (1023, 1023), (1, 1023), (1023, 0)] {
        t.same("joined", (a, b), Ok(a as u32 | (b as u32) << 10), chaffrail::join_symbols(a, b));
    }
    for (a, b) in [(1024, 0), (0, 1024), (65535, 65535)] {
        t.same("not joined", (a, b), Some((Kind::Unlisted, 0)), refused(chaffrail::join_symbols(a, b)));
    }
}
