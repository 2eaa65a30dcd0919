//! TERC4, and islands written.
use crate::tally::{refused, unchanged, Tally};
use chaffrail::Kind;
use compare::dvi::data_island::TERC4_SYMBOLS;
use compare::sides::{packet_of, words};
use compare::Random;

pub fn terc4(t: &mut Tally) {
    for n in 0..=255u8 {
        match TERC4_SYMBOLS.get(n as usize) {
            Some(&s) => t.same("TERC4", n, Ok(s), chaffrail::terc4_symbol(n)),
            None => t.same("TERC4", n, Some((Kind::Unlisted, 0)), refused(chaffrail::terc4_symbol(n))),
        }
    }
    for symbol in 0..=65535u16 {
        match TERC4_SYMBOLS.iter().position(|&s| s == symbol) {
            Some(n) => t.same("TERC4 read", symbol, Ok(n as u8), chaffrail::read_terc4(symbol)),
            None => t.same("TERC4 read", symbol, Some((Kind::NotTerc4, 0)), refused(chaffrail::read_terc4(symbol))),
        }
    }
}

pub fn islands(t: &mut Tally, random: &mut Random) {
    for n in 0..40_000 {
        let mut packet = [0; 36];
        if n > 0 {
            random.fill(&mut packet);
        }
        let hv = n as u8 % 4;
        let (mut theirs, mut ours) = ([0u32; 36], [0xeeu8; 144]);
        packet_of(&packet).encode(hv, &mut theirs);
        t.same("island", (hv, packet), Ok(()), chaffrail::encode_island(hv, &packet, &mut ours));
        t.all("island's words", (hv, packet), &theirs, &words(&ours));
    }
    for hv in 4..=255 {
        unchanged(t, "sync pair", hv, Kind::SyncPair, 144, |w| chaffrail::encode_island(hv, &[0; 36], w));
    }
    for len in [0, 36, 143, 145, 148, 288] {
        unchanged(t, "island's length", len, Kind::Length, len, |w| chaffrail::encode_island(9, &[0; 36], w));
    }
    for len in [0, 35, 37] {
        unchanged(t, "island's packet", len, Kind::Length, 144, |w| chaffrail::encode_island(9, &vec![0; len], w));
    }
}
