//! The island reader, beside the original's encoder and beside a judge that goes by the rules one after the other.
use crate::tally::{refused, unchanged, Tally};
use chaffrail::Kind;
use compare::dvi::data_island::TERC4_SYMBOLS;
use compare::sides::packet_of;
use compare::Random;
use std::collections::BTreeSet;

type Island = [u32; 36];

/// HDMI's register, a bit a step: an independent way to the parity byte.
fn parity(block: &[u8]) -> u8 {
    let bits = block.iter().flat_map(|b| (0..8).map(move |i| b >> i & 1));
    bits.fold(0, |r, bit| if (r ^ bit) & 1 == 1 { r >> 1 ^ 0x83 } else { r >> 1 })
}

/// The parity bytes put right.
fn seal(packet: &mut [u8; 36]) {
    packet[3] = parity(&packet[..3]);
    for s in packet[4..].chunks_mut(8) {
        s[7] = parity(&s[..7]);
    }
}

fn guard(hv: usize) -> u32 {
    TERC4_SYMBOLS[12 + hv] as u32 | 0x133 << 10 | 0x133 << 20
}

fn lane(word: u32, lane: usize) -> Option<usize> {
    TERC4_SYMBOLS.iter().position(|&s| s as u32 == word >> (10 * lane) & 0x3ff)
}

/// Refuses at the first word that is wrong.
fn asked(kind: Kind, wrong: impl Fn(usize) -> bool) -> Result<(), (Kind, u32)> {
    match (0..36).find(|&i| wrong(i)) {
        Some(i) => Err((kind, i as u32)),
        None => Ok(()),
    }
}

/// What the rules say of 36 words: each is asked of every word in turn, the lowest number first.
fn judge(words: &Island) -> Result<(u8, [u8; 36]), (Kind, u32)> {
    asked(Kind::HighBits, |i| words[i] >> 30 != 0)?;
    let pair = (0..4).find(|&hv| words[0] == guard(hv));
    asked(Kind::GuardWord, |i| [0, 1, 34, 35].contains(&i) && pair.is_none_or(|hv| words[i] != guard(hv)))?;
    let hv = pair.unwrap();
    let inner = 2..34;
    asked(Kind::NotTerc4, |i| inner.contains(&i) && (0..3).any(|l| lane(words[i], l).is_none()))?;
    let number = |i: usize, l: usize| lane(words[i], l).unwrap();
    asked(Kind::SyncBits, |i| inner.contains(&i) && (number(i, 0) & 3 != hv || (number(i, 0) & 8 != 0) != (i > 2)))?;
    let mut packet = [0u8; 36];
    for k in 0..32 {
        let mut put = |block: usize, bit: usize, n: usize| packet[block + bit / 8] |= ((n & 1) as u8) << (bit % 8);
        put(0, k, number(k + 2, 0) >> 2);
        for s in 0..4 {
            put(4 + 8 * s, 2 * k, number(k + 2, 1) >> s);
            put(4 + 8 * s, 2 * k + 1, number(k + 2, 2) >> s);
        }
    }
    if parity(&packet[..3]) != packet[3] {
        return Err((Kind::HeaderParity, 0));
    }
    match packet[4..].chunks(8).position(|s| parity(&s[..7]) != s[7]) {
        Some(s) => Err((Kind::SubpacketParity, s as u32)),
        None => Ok((hv as u8, packet)),
    }
}

fn bytes(words: &Island) -> Vec<u8> {
    words.iter().flat_map(|w| w.to_le_bytes()).collect()
}

/// Ours and the judge's, with what is left in the packet that was lent; and which refusals were met.
struct Reading<'a> {
    t: &'a mut Tally,
    met: BTreeSet<(u32, u32)>,
}

impl Reading<'_> {
    fn one(&mut self, what: &'static str, words: &Island) {
        let mut lent = [0x5a; 36];
        let answer = chaffrail::read_island(&bytes(words), &mut lent);
        match judge(words) {
            Ok((hv, packet)) => {
                self.t.same(what, words, Ok(hv), answer);
                self.t.all(what, words, &packet, &lent);
            }
            Err((kind, place)) => {
                self.met.insert((kind as u32, place));
                self.t.same(what, words, Some((kind, place)), refused(answer));
                self.t.all(what, words, &[0x5a; 36], &lent);
            }
        }
    }
}

/// Every refusal of an island, at every place where it can be.
fn all_refusals() -> BTreeSet<(u32, u32)> {
    let at = |kind: Kind, places: Vec<u32>| places.into_iter().map(move |p| (kind as u32, p));
    at(Kind::HighBits, (0..36).collect())
        .chain(at(Kind::GuardWord, vec![0, 1, 34, 35]))
        .chain(at(Kind::NotTerc4, (2..34).collect()))
        .chain(at(Kind::SyncBits, (2..34).collect()))
        .chain(at(Kind::HeaderParity, vec![0]))
        .chain(at(Kind::SubpacketParity, (0..4).collect()))
        .collect()
}

/// A word with another symbol on one lane.
fn with(word: u32, lane: usize, symbol: u32) -> u32 {
    word & !(0x3ff << (10 * lane)) | symbol << (10 * lane)
}

/// Every single damage: each bit of each word, each other TERC4 symbol on each lane, each guard word in another's place.
fn damaged(r: &mut Reading, island: &Island) {
    for i in 0..36 {
        for bit in 0..32 {
            let mut words = *island;
            words[i] ^= 1 << bit;
            r.one("island with a bit flipped", &words);
        }
        for lane in 0..3 {
            for symbol in TERC4_SYMBOLS {
                let mut words = *island;
                words[i] = with(words[i], lane, symbol as u32);
                r.one("island with another symbol", &words);
            }
        }
        for hv in 0..4 {
            let mut words = *island;
            words[i] = guard(hv);
            r.one("island with another guard", &words);
        }
    }
    for places in [vec![0, 1], vec![0, 1, 34], vec![0, 1, 34, 35], vec![1, 34, 35], vec![34, 35]] {
        for hv in 0..4 {
            let mut words = *island;
            places.iter().for_each(|&i| words[i] = guard(hv));
            r.one("island with other guards", &words);
        }
    }
}

/// Several damages at once, so that the lowest number and place must be told from others.
fn damaged_often(r: &mut Reading, random: &mut Random, island: &Island) {
    let mut words = *island;
    for _ in 0..1 + random.below(4) {
        let (i, lane) = (random.below(36) as usize, random.below(3) as usize);
        words[i] = match random.below(4) {
            0 => words[i] ^ 1 << random.below(32),
            1 => with(words[i], lane, TERC4_SYMBOLS[random.below(16) as usize] as u32),
            2 => with(words[i], lane, random.below(1024) as u32),
            _ => guard(random.below(4) as usize),
        };
    }
    r.one("island with several damages", &words);
}

pub fn islands_read(t: &mut Tally, random: &mut Random) {
    let r = &mut Reading { t, met: BTreeSet::new() };
    for n in 0..20_000usize {
        let hv = n as u8 % 4;
        let mut packet = [0; 36];
        if n > 3 {
            random.fill(&mut packet);
        }
        let mut island = [0; 36];
        packet_of(&packet).encode(hv, &mut island);
        r.one("island of any packet", &island);
        seal(&mut packet);
        packet_of(&packet).encode(hv, &mut island);
        let mut found = [0x5a; 36];
        r.t.same("island read", (hv, packet), Ok(hv), chaffrail::read_island(&bytes(&island), &mut found));
        r.t.all("island's packet", (hv, packet), &packet, &found);
        if n < 60 {
            damaged(r, &island);
        }
        for _ in 0..10 {
            damaged_often(r, random, &island);
        }
    }
    for _ in 0..20_000 {
        r.one("any words", &std::array::from_fn(|_| random.next() as u32 >> 2));
    }
    let met = std::mem::take(&mut r.met);
    t.same("refusals met", (), all_refusals(), met);
}

/// A wrong length goes before every other refusal.
pub fn lengths(t: &mut Tally) {
    for len in [0, 1, 36, 140, 143, 145, 148, 288] {
        unchanged(t, "read island's length", len, Kind::Length, 36, |p| chaffrail::read_island(&vec![0xff; len], p).map(|_| ()));
    }
    for len in [0, 4, 35, 37, 72] {
        unchanged(t, "read packet's length", len, Kind::Length, len, |p| chaffrail::read_island(&[0xff; 144], p).map(|_| ()));
    }
}
