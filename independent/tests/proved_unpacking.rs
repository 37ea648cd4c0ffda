//! The proved unpacking against the model's: the answer, and every pixel in and around the
//! slice; and against the proved packing, both ways.
#![cfg(feature = "proved")]

mod lines;

use independent::compare::expected;
use independent::compare::proved;
use independent::generate::rng::Rng;
use independent::model::format::Format;
use independent::model::refusal::Refusal;
use lines::{assert_seen, good_pixels, proved_pack, Seen};
use std::ops::Range;

const BITS: [u8; 2] = [10, 12];
/// Around the limit of either format, and lengths and widths that 16 bits do not hold.
const LONG: [usize; 16] = [
    5115, 5119, 5120, 5121, 5124, 5125, 6140, 6141, 6143, 6144, 6145, 6147, 65_535, 65_540, 81_925,
    98_307,
];
const ALIGNMENTS: usize = 16;
const RANDOM_CASES: usize = 30_000;

/// A payload, and the slice that its pixels are to go to: a part of a buffer with other values.
struct Case<'a> {
    bits: u8,
    payload: &'a [u8],
    buffer: Vec<u16>,
    slice: Range<usize>,
}

impl<'a> Case<'a> {
    fn new(rng: &mut Rng, bits: u8, payload: &'a [u8], size: usize) -> Case<'a> {
        let first = rng.index(9);
        Case::at(rng, bits, payload, first..first + size)
    }

    fn at(rng: &mut Rng, bits: u8, payload: &'a [u8], slice: Range<usize>) -> Case<'a> {
        Case {
            bits,
            payload,
            buffer: (0..slice.end + 9).map(|_| rng.word()).collect(),
            slice,
        }
    }

    /// Unpacks both ways; what was not refused is packed again.
    fn compare(&self, seen: &mut Seen) {
        let (bits, payload, slice) = (self.bits, self.payload, self.slice.clone());
        let (mut buffer, mut expected_buffer) = (self.buffer.clone(), self.buffer.clone());
        let answer = proved::unpack(bits, payload, &mut buffer[slice.clone()]);
        let expected = expected::unpack(bits, payload, &mut expected_buffer[slice.clone()]);
        assert_eq!(answer, expected, "{}", self.describe());
        assert!(
            buffer == expected_buffer,
            "another buffer: {}",
            self.describe()
        );
        let number = (answer >> 56) as usize;
        assert!(number == 0 || buffer == self.buffer, "{}", self.describe());
        seen[number] += 1;
        if number == 0 {
            let (unpacked, rest) = buffer[slice.start..].split_at(answer as usize);
            let rest_before = &self.buffer[slice.start + unpacked.len()..];
            assert!(rest == rest_before, "another rest: {}", self.describe());
            self.pack_again(unpacked);
        }
    }

    fn pack_again(&self, unpacked: &[u16]) {
        let mut packed = vec![0; self.payload.len()];
        let answer = proved_pack(format_of(self.bits), unpacked, &mut packed, 0);
        assert_eq!(answer, packed.len() as u64, "{}", self.describe());
        assert!(
            packed == self.payload,
            "another payload: {}",
            self.describe()
        );
    }

    fn describe(&self) -> String {
        format!(
            "{} bytes as {} bits into {}",
            self.payload.len(),
            self.bits,
            self.slice.len()
        )
    }
}

fn format_of(bits: u8) -> Format {
    Format::of_bits(bits).unwrap()
}

/// Pixels in the whole groups of so many bytes; for a format that there is not, those of RAW12.
fn width(bits: u8, length: usize) -> usize {
    match bits {
        10 => length / 5 * 4,
        _ => length / 3 * 2,
    }
}

/// No slice, one that is too short by one, just right, and longer ones.
fn sizes(width: usize) -> [usize; 5] {
    [0, width.saturating_sub(1), width, width + 1, width + 40]
}

#[test]
fn every_length_at_the_border_of_the_slice() {
    let (mut rng, mut seen) = (Rng::new(70), Seen::default());
    for bits in BITS {
        for length in (0..=700).chain(LONG) {
            let payload = rng.bytes(length);
            for size in sizes(width(bits, length)) {
                Case::new(&mut rng, bits, &payload, size).compare(&mut seen);
            }
        }
    }
    let refusals = [Refusal::PayloadNotAllowed, Refusal::BufferTooSmall];
    assert_seen(&seen, &refusals, 700);
}

#[test]
fn every_format() {
    let (mut rng, mut seen) = (Rng::new(71), Seen::default());
    let lengths = [0, 1, 3, 5, 14, 15, 16, 600, 5120, 5125, 6144, 6147];
    for bits in 0..=255 {
        for length in lengths {
            let payload = rng.bytes(length);
            for size in sizes(width(bits, length)) {
                Case::new(&mut rng, bits, &payload, size).compare(&mut seen);
            }
        }
    }
    let known = [
        Refusal::FormatUnknown,
        Refusal::PayloadNotAllowed,
        Refusal::BufferTooSmall,
    ];
    assert_seen(&seen, &known, 10);
    let number = usize::from(Refusal::FormatUnknown.number());
    assert_eq!(seen[number], 254 * 5 * lengths.len() as u64);
}

#[test]
fn random_payloads() {
    let (mut rng, mut seen) = (Rng::new(72), Seen::default());
    for _ in 0..RANDOM_CASES {
        random_case(&mut rng, &mut seen);
    }
    let refusals = [
        Refusal::FormatUnknown,
        Refusal::PayloadNotAllowed,
        Refusal::BufferTooSmall,
    ];
    assert_seen(&seen, &refusals, 1000);
}

fn random_case(rng: &mut Rng, seen: &mut Seen) {
    let bits = match rng.below(10) {
        0 => rng.byte(),
        _ => rng.pick(&BITS),
    };
    let length = match rng.below(12) {
        0 => rng.pick(&LONG),
        1 => rng.index(6300),
        2 => rng.index(100),
        _ => 15 * rng.index(40) + rng.pick(&[0, 0, 3, 5]),
    };
    let mut payload = rng.bytes(length);
    match rng.below(10) {
        0 => payload.fill(0x00),
        1 => payload.fill(0xFF),
        _ => {}
    }
    let width = width(bits, length);
    let size = match rng.below(8) {
        0 => width.saturating_sub(1),
        1 => rng.index(width + 1),
        2..=4 => width,
        _ => width + rng.index(40),
    };
    Case::new(rng, bits, &payload, size).compare(seen);
}

#[test]
fn every_alignment() {
    let (mut rng, mut seen) = (Rng::new(73), Seen::default());
    for bits in BITS {
        for length in [15, 30, 45, 60, 75, 90, 105, 120, 240, 1200, 5115] {
            let bytes = rng.bytes(length + ALIGNMENTS);
            for alignment in 0..ALIGNMENTS {
                let payload = &bytes[alignment..alignment + length];
                for first in 0..8 {
                    let slice = first..first + width(bits, length);
                    Case::at(&mut rng, bits, payload, slice).compare(&mut seen);
                }
            }
        }
    }
    assert_eq!(seen[0], 2 * 11 * 16 * 8);
}

/// All groups of three bytes that there are.
#[test]
fn every_group_of_raw12() {
    let (mut rng, mut seen) = (Rng::new(74), Seen::default());
    for block in 0..8192 {
        let groups = 2048 * block..2048 * (block + 1);
        let payload: Vec<u8> = groups
            .flat_map(|group: u32| group.to_le_bytes().into_iter().take(3))
            .collect();
        Case::new(&mut rng, 12, &payload, 4096).compare(&mut seen);
    }
    assert_eq!(seen[0], 8192);
}

/// Every last byte of a group, with every value of each byte before it.
#[test]
fn every_pixel_of_raw10() {
    let (mut rng, mut seen) = (Rng::new(75), Seen::default());
    for last in 0..=255 {
        let payload: Vec<u8> = (0..=255)
            .flat_map(|first: u8| {
                let next = |steps: u8| first.wrapping_add(83 * steps);
                [first, next(1), next(2), next(3), last]
            })
            .collect();
        Case::new(&mut rng, 10, &payload, 1024).compare(&mut seen);
    }
    assert_eq!(seen[0], 256);
}

#[test]
fn what_was_packed() {
    let mut rng = Rng::new(76);
    for bits in BITS {
        let format = format_of(bits);
        for width in (4..=1200).step_by(4).chain([4092, 4096]) {
            pack_and_unpack(bits, &good_pixels(&mut rng, format, width));
        }
        for width in [4, 8, 100, 4096] {
            pack_and_unpack(bits, &vec![0; width]);
            pack_and_unpack(bits, &vec![format.largest_pixel(); width]);
        }
    }
    for width in (2..=1200).step_by(4).chain([4094]) {
        pack_and_unpack(12, &good_pixels(&mut rng, Format::Raw12, width));
    }
}

fn pack_and_unpack(bits: u8, pixels: &[u16]) {
    let mut buffer = vec![0xEE; 6200];
    let length = proved_pack(format_of(bits), pixels, &mut buffer, 7) as usize;
    let payload = &buffer[7..7 + length];
    let mut unpacked = vec![0xEEEE; pixels.len()];
    let count = proved::unpack(bits, payload, &mut unpacked);
    assert_eq!((count, unpacked.as_slice()), (pixels.len() as u64, pixels));
}
