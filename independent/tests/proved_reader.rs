//! The proved reader of packets against the model's.
#![cfg(feature = "proved")]

use independent::compare::expected;
use independent::compare::proved;
use independent::generate::rng::Rng;
use independent::model::format::Format;
use independent::model::header::{flipped, header};
use independent::model::packet::{payload, write_line};
use independent::model::refusal::Refusal;

/// How often each number stood in the top byte of an answer: 0 for none refused.
type Seen = [u64; 16];

fn compare(bytes: &[u8], seen: &mut Seen) {
    let answer = proved::read_packet(bytes);
    assert_eq!(answer, expected::read_packet(bytes), "{bytes:02X?}");
    assert_eq!(proved::payload_length(bytes), payload(bytes).len());
    seen[(answer >> 56) as usize] += 1;
}

fn count(seen: &Seen, refusal: Refusal) -> u64 {
    seen[usize::from(refusal.number())]
}

/// The packet of a line whose width is at most 4 x `fours`.
fn line(rng: &mut Rng, fours: u64) -> Vec<u8> {
    let format = rng.pick(&[Format::Raw10, Format::Raw12]);
    let width = 4 * rng.between(1, fours);
    let pixels: Vec<u16> = (0..width)
        .map(|_| rng.word() & format.largest_pixel())
        .collect();
    let mut bytes = vec![0; 6150];
    let identifier = rng.byte() | 0x10;
    let written = write_line(&mut bytes, 0, identifier, format, &pixels).unwrap();
    bytes.truncate(written.length);
    bytes
}

#[test]
fn lines_cut_at_every_length() {
    let (mut rng, mut seen) = (Rng::new(60), Seen::default());
    for _ in 0..100 {
        let mut bytes = line(&mut rng, 20);
        let whole = bytes.len();
        bytes.extend(rng.bytes(9));
        for length in 0..bytes.len() {
            let before = count(&seen, Refusal::TooFewBytes);
            compare(&bytes[..length], &mut seen);
            let refused = count(&seen, Refusal::TooFewBytes) - before;
            assert_eq!(refused == 1, length < whole);
        }
    }
    assert_eq!(seen[0], 900);
}

#[test]
fn long_lines() {
    let (mut rng, mut seen) = (Rng::new(61), Seen::default());
    for _ in 0..200 {
        let mut bytes = line(&mut rng, 1024);
        compare(&bytes, &mut seen);
        compare(&bytes[..bytes.len() - 1], &mut seen);
        let place = 4 + rng.index(bytes.len() - 4);
        bytes[place] ^= 1 << rng.below(8);
        compare(&bytes, &mut seen);
    }
    assert_eq!(seen[0], 200);
    assert_eq!(count(&seen, Refusal::TooFewBytes), 200);
    assert_eq!(count(&seen, Refusal::ChecksumWrong), 200);
}

#[test]
fn every_header_bit_flipped() {
    let (mut rng, mut seen) = (Rng::new(62), Seen::default());
    for _ in 0..300 {
        let mut bytes = line(&mut rng, 30);
        let right = bytes.clone();
        for bit in 0..32 {
            bytes[bit / 8] ^= 1 << (bit % 8);
            compare(&bytes, &mut seen);
            compare(&bytes[..bytes.len() - 1], &mut seen);
            bytes.copy_from_slice(&right);
        }
    }
    assert_eq!(seen[0], 300 * 32);
    assert_eq!(count(&seen, Refusal::TooFewBytes), 300 * 32);
}

#[test]
fn two_header_bits_flipped() {
    let (mut rng, mut seen) = (Rng::new(63), Seen::default());
    for _ in 0..20 {
        let bytes = line(&mut rng, 30);
        let &[a, b, c, d, ..] = bytes.as_slice() else {
            panic!("a line has a header");
        };
        for first in 0..32 {
            for second in first + 1..32 {
                let mut wrong = bytes.clone();
                let header = flipped(flipped([a, b, c, d], first), second);
                wrong[..4].copy_from_slice(&header);
                compare(&wrong, &mut seen);
                compare(&wrong[..4], &mut seen);
            }
        }
    }
    assert_eq!(count(&seen, Refusal::HeaderBeyondRepair), 20 * 496 * 2);
}

#[test]
fn every_byte_after_the_header_damaged() {
    let (mut rng, mut seen) = (Rng::new(64), Seen::default());
    for _ in 0..50 {
        let mut bytes = line(&mut rng, 30);
        for place in 4..bytes.len() {
            let (right, damage) = (bytes[place], rng.between(1, 255) as u8);
            bytes[place] ^= damage;
            compare(&bytes, &mut seen);
            bytes[place] = right;
        }
    }
    assert!(count(&seen, Refusal::ChecksumWrong) > 2000);
    assert_eq!(count(&seen, Refusal::ChecksumWrong), seen.iter().sum());
}

#[test]
fn short_packets_and_empty_payloads() {
    let (mut rng, mut seen) = (Rng::new(65), Seen::default());
    for identifier in 0..=255 {
        for word_count in [0, 1, rng.word(), 0xFFFF] {
            let mut bytes = header(identifier, word_count).to_vec();
            compare(&bytes, &mut seen);
            bytes[rng.index(4)] ^= 1 << rng.below(8);
            compare(&bytes, &mut seen);
            bytes.extend([0xFF, 0xFF]);
            compare(&bytes, &mut seen);
            bytes[5] = 0xFE;
            compare(&bytes, &mut seen);
        }
    }
    assert!(seen[0] > 1000);
    assert!(count(&seen, Refusal::TooFewBytes) > 1000);
    assert!(count(&seen, Refusal::ChecksumWrong) > 100);
}

#[test]
fn random_bytes() {
    let (mut rng, mut seen) = (Rng::new(66), Seen::default());
    for _ in 0..200_000 {
        let length = rng.index(24);
        let mut bytes = rng.bytes(length);
        if length > 4 && rng.one_in(2) {
            // A header that some short payload may follow.
            bytes[..4].copy_from_slice(&header(rng.byte(), rng.below(20) as u16));
        }
        compare(&bytes, &mut seen);
    }
    assert!(seen[0] > 1000, "{seen:?}");
    assert!(count(&seen, Refusal::HeaderBeyondRepair) > 10_000);
    assert!(count(&seen, Refusal::ChecksumWrong) > 10_000);
    assert!(count(&seen, Refusal::TooFewBytes) > 10_000);
}
