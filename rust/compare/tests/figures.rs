//! The original gives the figures that are known of it.
use compare::dvi::data_island::*;
use compare::dvi::timing::*;
use compare::dvi::tmds::{TmdsPair, TmdsSymbol};

fn encoded(d: i32, byte: u8) -> (u32, i32) {
    let (end, symbol) = TmdsSymbol::encode(d, byte);
    (TmdsPair::new(symbol, TmdsSymbol::C0).raw() & 0x3ff, end)
}

#[test]
fn symbols() {
    for (d, byte, symbol, end) in [
        (0, 0x00, 0x100, -4),
        (-4, 0x00, 0x3ff, 1),
        (1, 0x00, 0x100, -3),
        (0, 0x01, 0x1ff, 4),
        (0, 0xff, 0x200, -4),
        (4, 0xff, 0x200, 0),
        (-4, 0xff, 0x0ff, -1),
        (1, 0xfe, 0x000, -4),
        (0, 0x10, 0x1f0, 0),
        (1, 0xef, 0x2f0, 1),
    ] {
        assert_eq!(encoded(d, byte), (symbol, end), "discrepancy {d}, byte {byte:#x}");
    }
    assert_eq!(TmdsPair::encode_balanced_approx(0).raw(), 0x7fd00);
}

#[test]
fn packets() {
    assert_eq!(parity(&[1, 0, 0]), 0x4a);
    let mut audio = DataPacket::default();
    let mut count = 0;
    audio.set_audio(&[[1, -1]], &mut count);
    assert_eq!((&audio.header[..3], audio.subpacket[0][6], count), (&[2, 1, 0x10][..], 0x91, 191));
    let mut info = DataPacket::default();
    info.set_audio_info_frame(48000);
    assert_eq!(info.subpacket[0][0], 0x53);
    let mut avi = DataPacket::default();
    avi.set_avi_info_frame(
        ScanInfo::NoData,
        PixelFormat::Rgb,
        Colorimetry::NoData,
        PictureAspectRatio::Ratio4_3,
        ActiveFormatAspectRatio::SameAsPar,
        QuantizationRange::Default,
        VideoCode::Code640x480P60,
    );
    assert_eq!(avi.subpacket[0][0], 0x46);
}

#[test]
fn lines() {
    let mut line = [0; SYNC_DATA_ISLAND_LEN];
    VGA_TIMING.init_data_island(&mut line);
    VGA_TIMING.encode_data_island(&mut line, DviTimingLineState::FrontPorch, &DataPacket::default());
    let mut known = vec![0x1008, 0x354d52ab, 0x1008, 0x0ab2aeab, 0x24, 0x1334cd63, 0x1334cd63, 0x29ca72e4];
    known.extend([0x29ca719c; 31]);
    known.extend([0x1334cd63, 0x1334cd63, 0x103c, 0x354d5154, 0x1026, 0x354d52ab, 0xa]);
    known.extend([0x354d52ab; 10]);
    assert_eq!(line[..], known[..]);
    VGA_TIMING.encode_data_island_empty(&mut line, DviTimingLineState::Active);
    assert_eq!(line[46..], [[0x3542aeab; 8].as_slice(), &[0x2cc4cecc; 2]].concat());
}
