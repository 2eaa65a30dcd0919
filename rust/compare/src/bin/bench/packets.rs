//! Symbols, parity, packets and islands, one call for each input.
use crate::turns::{best, calls, fills, read, row, PIECE};
use chaffrail::Avi;
use compare::dvi::data_island::{parity, DataPacket};
use compare::dvi::tmds::TmdsPair;
use compare::sides::{as_bytes, built, flat, original_avi, packet_of};
use compare::{original_encode, Random};

fn some<T>(n: usize, mut one: impl FnMut() -> T) -> Vec<T> {
    (0..n).map(|_| one()).collect()
}

/// What ours makes of a packet.
fn ours(fill: impl FnOnce(&mut [u8; 36])) -> [u8; 36] {
    let mut packet = [0; 36];
    fill(&mut packet);
    packet
}

pub fn symbols(random: &mut Random) {
    let symbols = some(1 << 18, || (random.below(9) as i32 - 4, random.below(256) as u8));
    calls("one symbol a call", "symbol", &symbols, (0, 0), |&(d, b)| original_encode(d, b), |&(d, b)| chaffrail::encode_symbol(d, b).unwrap());
    let pairs = some(1 << 17, || (random.below(256) as u8, random.below(256) as u8));
    let theirs = |&(a, b): &(u8, u8)| {
        let (pair, end) = TmdsPair::encode_pair_discrepancy(a, b);
        (pair.raw(), end)
    };
    calls("one pair a call", "pair", &pairs, (0, 0), theirs, |&(a, b)| chaffrail::encode_pair_discrepancy(a, b));
    let blocks: Vec<[u8; 7]> = some(1 << 17, || std::array::from_fn(|_| random.below(256) as u8));
    calls("parity of 7 bytes", "block", &blocks, 0, |b| parity(b), |b| chaffrail::parity(b));
}

/// Samples in the form that each side takes, and a count.
type Frames<const FRAMES: usize> = ([[i16; 2]; FRAMES], [[[u8; 2]; 2]; FRAMES], i32);

fn audio<const FRAMES: usize>(random: &mut Random, name: &str) {
    let frames = some(1 << 16, || {
        let frames: [[i16; 2]; FRAMES] = std::array::from_fn(|_| [random.next() as i16, random.next() as i16]);
        (frames, frames.map(|f| f.map(i16::to_le_bytes)), random.below(192) as i32)
    });
    let theirs = |(frames, _, count): &Frames<FRAMES>| {
        let mut count = *count;
        (built(|p| p.set_audio(frames, &mut count)), count)
    };
    let other = |(_, samples, count): &Frames<FRAMES>| {
        let mut after = 0;
        let packet = ours(|p| after = chaffrail::set_audio(p, samples.as_flattened().as_flattened(), *count).unwrap());
        (packet, after)
    };
    calls(name, "packet", &frames, ([0; 36], 0), theirs, other);
}

pub fn packets(random: &mut Random) {
    audio::<1>(random, "audio packet, 1 frame");
    audio::<2>(random, "audio packet, 2 frames");
    audio::<4>(random, "audio packet, 4 frames");
    let clocks = some(1 << 16, || (random.below(1 << 20) as u32, random.below(1 << 20) as u32));
    calls(
        "clock packet",
        "packet",
        &clocks,
        [0; 36],
        |&(cts, n)| built(|p| p.set_audio_clock_regeneration(cts, n)),
        |&(cts, n)| ours(|p| chaffrail::set_audio_clock_regeneration(p, cts, n).unwrap()),
    );
    let rates = some(1 << 16, || [32000, 44100, 48000, random.next() as u32][random.below(4) as usize]);
    calls(
        "audio info",
        "packet",
        &rates,
        [0; 36],
        |&rate| built(|p| p.set_audio_info_frame(rate)),
        |&rate| ours(|p| chaffrail::set_audio_info_frame(p, rate).unwrap()),
    );
    // With an active format: without one the two differ.
    let mut below = |n: u64| random.below(n) as u32;
    let fields = some(1 << 16, || Avi {
        scan: below(3),
        pixel_format: below(3),
        colorimetry: below(4),
        picture_aspect: below(3),
        active_aspect: 8 + below(4),
        quantization: below(3),
        video_code: 1 + below(2),
    });
    calls("AVI info from numbers", "packet", &fields, [0; 36], |&f| flat(&original_avi(f)), |&f| ours(|p| chaffrail::set_avi_info_frame(p, f).unwrap()));
}

pub fn islands(random: &mut Random) {
    let packets: Vec<[u8; 36]> = some(1 << 15, || std::array::from_fn(|_| random.below(256) as u8));
    let theirs: Vec<DataPacket> = packets.iter().map(packet_of).collect();
    let islands: Vec<(u8, &[u8; 36], &DataPacket)> = packets.iter().zip(&theirs).map(|(p, q)| (random.below(4) as u8, p, q)).collect();
    fills(
        "island",
        "island",
        &islands,
        [0u32; 36],
        |(hv, _, packet), words| packet.encode(*hv, words),
        |(hv, packet, _), words| chaffrail::encode_island(*hv, *packet, as_bytes(words)).unwrap(),
    );
    reading(random);
}

/// There is no reader in the original, so ours stands beside our own encoder.
fn reading(random: &mut Random) {
    let packets = some(1 << 15, || built(|p| p.set_audio_clock_regeneration(random.below(1 << 20) as u32, random.below(1 << 20) as u32)));
    let (mut islands, mut back) = (vec![[0u8; 144]; packets.len()], vec![[0u8; 36]; packets.len()]);
    for (i, (p, w)) in packets.iter().zip(&mut islands).enumerate() {
        chaffrail::encode_island(i as u8 % 4, p, w).unwrap();
    }
    let (known, at) = (islands.clone(), |k: usize| PIECE * k..PIECE * (k + 1));
    let times = best(
        packets.len(),
        packets.len() / PIECE,
        |k| {
            read(packets[at(k)].as_flattened());
            read(known[at(k)].as_flattened());
        },
        |k| {
            for i in at(k) {
                chaffrail::encode_island(i as u8 % 4, &packets[i], &mut islands[i]).unwrap();
            }
        },
        |k| {
            for i in at(k) {
                assert_eq!(chaffrail::read_island(&known[i], &mut back[i]), Ok(i as u8 % 4));
            }
        },
    );
    assert!(back == packets && islands == known, "the island reader's outputs differ");
    row("reading an island (beside our encoder, in the place of the original)", "island", times);
}
