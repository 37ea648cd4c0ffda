//! The fast forms that the proved functions are timed against do what the model's plain ones do.

use independent::bench::fast::{checksum, ecc, line, pack, reader, unpack};
use independent::generate::rng::Rng;
use independent::model::checksum::bit_by_bit;
use independent::model::format::Format;
use independent::model::header::{check_byte_counted, header, repair};
use independent::model::packet::{read, write_line};
use independent::model::pixels::{self, payload_length};
use independent::model::refusal::Refusal;

#[test]
fn checksums() {
    let mut rng = Rng::new(20);
    for length in (0..300).chain(1000..1600).chain([4999, 5120, 6144, 40_001]) {
        let bytes = rng.bytes(length);
        let expected = bit_by_bit(&bytes);
        assert_eq!(checksum::by_byte_table(&bytes), expected);
        assert_eq!(checksum::by_folding(&bytes), expected);
    }
}

#[test]
fn check_bytes_and_repair() {
    let mut rng = Rng::new(21);
    for turn in 0..100_000 {
        let bytes = match turn % 3 {
            0 => header(rng.byte(), rng.word()),
            1 => (u32::from_le_bytes(header(rng.byte(), rng.word())) ^ 1 << rng.below(32))
                .to_le_bytes(),
            _ => (rng.draw() as u32).to_le_bytes(),
        };
        let word = u32::from_le_bytes(bytes);
        let check = check_byte_counted(bytes[0], bytes[1], bytes[2]);
        assert_eq!(ecc::check_byte(word & 0xFF_FFFF), check);
        assert_eq!(ecc::check_byte_by_columns(word), check);
        assert_eq!(ecc::check_byte_by_table(word), check);
        let expected = repair(bytes).ok_or(Refusal::HeaderBeyondRepair);
        let expected = expected.map(|mended| (u32::from_le_bytes(mended.header), mended.bit));
        assert_eq!(ecc::correct_by_search(word), expected);
        assert_eq!(ecc::correct_by_table(word), expected);
    }
}

type Pack = fn(&[u16], &mut [u8], usize) -> Result<usize, Refusal>;

#[test]
fn packing() {
    let mut rng = Rng::new(22);
    for width in (0..300).chain([640, 4095, 4096, 4097]) {
        compare_packing(&mut rng, Format::Raw10, pack::raw10, width);
        compare_packing(&mut rng, Format::Raw10, pack::raw10_by_pixels, width);
        compare_packing(&mut rng, Format::Raw12, pack::raw12, width);
        compare_packing(&mut rng, Format::Raw12, pack::raw12_by_pixels, width);
    }
}

fn compare_packing(rng: &mut Rng, format: Format, fast: Pack, width: usize) {
    let largest = format.largest_pixel();
    let mut pixels: Vec<u16> = (0..width).map(|_| rng.word() & largest).collect();
    let mut packed = vec![0xEE; 6200];
    if !format.allows_width(width) {
        assert_eq!(fast(&pixels, &mut packed, 0), Err(Refusal::WidthNotAllowed));
        return;
    }
    let length = payload_length(format, width);
    let mut expected = packed.clone();
    pixels::pack(format, &pixels, &mut expected[7..7 + length]);
    assert_eq!(fast(&pixels, &mut packed, 7), Ok(length));
    assert_eq!(packed, expected);
    let short = &mut packed[..length];
    assert_eq!(fast(&pixels, short, 1), Err(Refusal::BufferTooSmall));
    pixels[rng.index(width)] = largest + 1;
    assert_eq!(fast(&pixels, &mut packed, 0), Err(Refusal::PixelTooLarge));
}

type Unpack = fn(&[u8], &mut [u16]) -> Result<usize, Refusal>;

#[test]
fn unpacking() {
    let mut rng = Rng::new(26);
    for length in (0..700).chain([5115, 5120, 5125, 6141, 6144, 6147, 81_925, 98_307]) {
        let payload = rng.bytes(length);
        compare_unpacking(10, unpack::raw10, &payload);
        compare_unpacking(10, unpack::raw10_by_pixels, &payload);
        compare_unpacking(12, unpack::raw12, &payload);
        compare_unpacking(12, unpack::raw12_by_pixels, &payload);
    }
}

/// Into slices from none to more than enough.
fn compare_unpacking(bits: u8, fast: Unpack, payload: &[u8]) {
    let width = match bits {
        10 => payload.len() / 5 * 4,
        _ => payload.len() / 3 * 2,
    };
    for size in [0, width.saturating_sub(1), width, width + 1, width + 50] {
        let (mut pixels, mut expected) = (vec![0xEEEE; size], vec![0xEEEE; size]);
        let answer = pixels::unpack(bits, payload, &mut expected);
        assert_eq!(fast(payload, &mut pixels), answer);
        assert_eq!(pixels, expected);
    }
}

#[test]
fn lines_and_the_reader() {
    let mut rng = Rng::new(23);
    for turn in 0..2000 {
        let width = 2 * rng.between(1, if turn % 10 == 0 { 2048 } else { 40 }) as usize;
        let pixels: Vec<u16> = (0..width).map(|_| rng.word() & 0xFFF).collect();
        let identifier = rng.byte() | 0x10;
        let (mut bytes, mut expected) = (vec![0; 6200], vec![0; 6200]);
        let place = rng.index(9);
        let written = write_line(&mut expected, place, identifier, Format::Raw12, &pixels);
        let fast = line::write_raw12_line(&pixels, identifier, &mut bytes, place);
        assert_eq!(fast, written.map(|written| written.length));
        assert_eq!(bytes, expected);
        let end = place + fast.unwrap();
        let short_type = line::write_raw12_line(&pixels, identifier & 0xCF, &mut bytes, place);
        assert_eq!(short_type, Err(Refusal::TypeIsShort));
        let no_room = line::write_raw12_line(&pixels, identifier, &mut bytes[..end - 1], place);
        assert_eq!(no_room, Err(Refusal::BufferTooSmall));
        assert_eq!(bytes, expected);
        bytes[place + rng.index(end - place)] ^= rng.pick(&[0, 1, 0x40, 0x41]);
        for length in [0, 3, 4, end - place - 1, end - place, end - place + 5] {
            let part = &bytes[place..place + length];
            let expected = read(part).map(|packet| reader::Accepted {
                data_identifier: packet.identifier,
                word_count: packet.count,
                corrected: packet.mended,
            });
            assert_eq!(reader::read_packet(part), expected);
        }
    }
}
