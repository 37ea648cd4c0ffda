//! Unpacking: the cases, the borders, the order of the refusals, what stays, and both round trips.

use independent::generate::rng::Rng;
use independent::model::format::Format;
use independent::model::pixels::{pack, payload_length, unpack};
use independent::model::refusal::Refusal;

/// Bits of a pixel, pixels of a group, bytes of a group.
const FORMATS: [(u8, usize, usize); 2] = [(10, 4, 5), (12, 2, 3)];

/// The answer for zeros in a slice of this size, which a refusal leaves as it was.
fn answer(bits: u8, length: usize, size: usize) -> Result<usize, Refusal> {
    let mut pixels = vec![0xEEEE; size];
    let answer = unpack(bits, &vec![0; length], &mut pixels);
    let count = answer.unwrap_or(0);
    assert!(pixels[..count].iter().all(|&pixel| pixel == 0));
    assert!(pixels[count..].iter().all(|&pixel| pixel == 0xEEEE));
    answer
}

#[test]
fn unpacking_of_the_cases() {
    let mut pixels = [0xFFFF; 6];
    let count = unpack(10, &[0xFF, 0x00, 0x00, 0x00, 0x43], &mut pixels);
    assert_eq!(count, Ok(4));
    assert_eq!(pixels, [0x3FF, 0, 0, 1, 0xFFFF, 0xFFFF]);
    let mut pixels = [0xFFFF; 6];
    let count = unpack(12, &[0xAB, 0x12, 0x3C], &mut pixels);
    assert_eq!(count, Ok(2));
    assert_eq!(pixels, [0xABC, 0x123, 0xFFFF, 0xFFFF, 0xFFFF, 0xFFFF]);
}

/// Each bit of a group alone gives one bit of one pixel.
#[test]
fn every_bit_of_a_group() {
    for (bits, pixels, bytes) in FORMATS {
        let low = usize::from(bits) - 8;
        for bit in 0..8 * bytes {
            let mut payload = vec![0; bytes];
            payload[bit / 8] = 1 << (bit % 8);
            let mut expected = vec![0; pixels];
            if bit < 8 * pixels {
                expected[bit / 8] = 1 << (low + bit % 8);
            } else {
                let bit = bit - 8 * pixels;
                expected[bit / low] = 1 << (bit % low);
            }
            let mut unpacked = vec![0xEEEE; pixels];
            assert_eq!(unpack(bits, &payload, &mut unpacked), Ok(pixels));
            assert_eq!(unpacked, expected, "{bits} bits, bit {bit}");
        }
    }
}

#[test]
fn every_format() {
    for bits in 0..=255 {
        let expected = match bits {
            10 => (Ok(4), Err(Refusal::PayloadNotAllowed)),
            12 => (Err(Refusal::PayloadNotAllowed), Ok(2)),
            _ => (Err(Refusal::FormatUnknown), Err(Refusal::FormatUnknown)),
        };
        assert_eq!((answer(bits, 5, 9), answer(bits, 3, 9)), expected);
    }
}

#[test]
fn every_length_up_to_beyond_the_limit() {
    for (bits, pixels, bytes) in FORMATS {
        for length in 0..6200 {
            let groups = length / bytes;
            let allowed = length == groups * bytes && groups > 0 && groups * pixels <= 4096;
            let expected = match allowed {
                true => Ok(groups * pixels),
                false => Err(Refusal::PayloadNotAllowed),
            };
            assert_eq!(answer(bits, length, 4096), expected, "{length} bytes");
        }
    }
}

#[test]
fn the_limit() {
    assert_eq!(answer(10, 5120, 4096), Ok(4096));
    assert_eq!(answer(10, 5125, 5000), Err(Refusal::PayloadNotAllowed));
    assert_eq!(answer(12, 6144, 4096), Ok(4096));
    assert_eq!(answer(12, 6147, 5000), Err(Refusal::PayloadNotAllowed));
    for length in [65_535, 65_540, 81_925, 98_307, 327_680] {
        for (bits, ..) in FORMATS {
            let expected = Err(Refusal::PayloadNotAllowed);
            assert_eq!(answer(bits, length, 5000), expected);
        }
    }
}

#[test]
fn the_slice_may_be_longer_but_not_shorter() {
    for (bits, pixels, bytes) in FORMATS {
        for groups in [1, 2, 3, 100, 4096 / pixels] {
            let (length, width) = (groups * bytes, groups * pixels);
            for size in [0, 1, width - 1] {
                let expected = Err(Refusal::BufferTooSmall);
                assert_eq!(answer(bits, length, size), expected);
            }
            for size in [width, width + 1, width + 100] {
                assert_eq!(answer(bits, length, size), Ok(width));
            }
        }
    }
}

#[test]
fn refusals_in_their_order() {
    for bits in [0, 8, 9, 11, 13, 14, 16, 255] {
        for length in [0, 1, 3, 5, 15, 6147] {
            for size in [0, 1, 9000] {
                assert_eq!(answer(bits, length, size), Err(Refusal::FormatUnknown));
            }
        }
    }
    for (bits, length) in [(10, 0), (10, 4), (10, 6), (10, 5125)] {
        assert_eq!(answer(bits, length, 0), Err(Refusal::PayloadNotAllowed));
    }
    for (bits, length) in [(12, 0), (12, 2), (12, 4), (12, 6147)] {
        assert_eq!(answer(bits, length, 0), Err(Refusal::PayloadNotAllowed));
    }
    assert_eq!(answer(10, 5, 3), Err(Refusal::BufferTooSmall));
    assert_eq!(answer(12, 3, 1), Err(Refusal::BufferTooSmall));
}

#[test]
fn refusals_have_the_numbers_of_the_paper() {
    let numbers = [
        (Refusal::FormatUnknown, 3),
        (Refusal::PayloadNotAllowed, 17),
        (Refusal::BufferTooSmall, 8),
    ];
    for (refusal, number) in numbers {
        assert_eq!(refusal.number(), number);
    }
}

#[test]
fn packing_what_was_unpacked_gives_the_payload() {
    let mut rng = Rng::new(24);
    for (bits, pixels, bytes) in FORMATS {
        let format = Format::of_bits(bits).unwrap();
        for groups in (1..300).chain([4096 / pixels]) {
            let payload = rng.bytes(groups * bytes);
            let mut unpacked = vec![0xEEEE; groups * pixels];
            assert_eq!(unpack(bits, &payload, &mut unpacked), Ok(unpacked.len()));
            let largest = format.largest_pixel();
            assert!(unpacked.iter().all(|&pixel| pixel <= largest));
            let mut packed = vec![0xEE; payload.len()];
            pack(format, &unpacked, &mut packed);
            assert_eq!(packed, payload);
        }
    }
}

#[test]
fn unpacking_what_was_packed_gives_the_pixels() {
    let mut rng = Rng::new(25);
    for (bits, pixels, _) in FORMATS {
        let format = Format::of_bits(bits).unwrap();
        for groups in (1..300).chain([4096 / pixels]) {
            let line: Vec<u16> = (0..groups * pixels)
                .map(|_| rng.word() & format.largest_pixel())
                .collect();
            let mut payload = vec![0xEE; payload_length(format, line.len())];
            pack(format, &line, &mut payload);
            let mut unpacked = vec![0xEEEE; line.len()];
            assert_eq!(unpack(bits, &payload, &mut unpacked), Ok(line.len()));
            assert_eq!(unpacked, line);
        }
    }
}
