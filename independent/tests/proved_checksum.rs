//! The proved checksum (CRC) against the model's, in one go and fed in pieces.
#![cfg(feature = "proved")]

use independent::compare::cases::CHECKSUM_VECTORS;
use independent::compare::proved;
use independent::generate::rng::Rng;
use independent::model::checksum::{bit_by_bit, by_table, feed};

const ALIGNMENTS: usize = 16;
const LONG: [usize; 12] = [
    479, 480, 511, 512, 1000, 1023, 4096, 5120, 6143, 6144, 6145, 65_535,
];

#[test]
fn vectors_of_the_standard() {
    let sums = CHECKSUM_VECTORS.map(|payload| proved::checksum(&payload));
    assert_eq!(sums, [0x00F0, 0xE569]);
    assert_eq!(proved::checksum(&[]), 0xFFFF);
}

#[test]
fn every_length_at_every_alignment() {
    let mut rng = Rng::new(40);
    for length in 0..=300 {
        for alignment in 0..ALIGNMENTS {
            let bytes = rng.bytes(alignment + length);
            let payload = &bytes[alignment..];
            assert_eq!(proved::checksum(payload), bit_by_bit(payload));
        }
    }
}

#[test]
fn long_payloads_at_every_alignment() {
    let mut rng = Rng::new(41);
    for length in LONG {
        let bytes = rng.bytes(length + ALIGNMENTS);
        for alignment in 0..ALIGNMENTS {
            let payload = &bytes[alignment..alignment + length];
            assert_eq!(proved::checksum(payload), by_table(payload));
        }
    }
}

#[test]
fn payloads_of_one_byte_over_and_over() {
    for byte in [0x00, 0x01, 0x55, 0x80, 0xFF] {
        for length in 0..200 {
            let payload = vec![byte; length];
            assert_eq!(proved::checksum(&payload), bit_by_bit(&payload));
        }
    }
}

#[test]
fn one_set_bit_anywhere() {
    let mut payload = [0; 96];
    for bit in 0..8 * payload.len() {
        payload[bit / 8] = 1 << (bit % 8);
        assert_eq!(proved::checksum(&payload), bit_by_bit(&payload));
        payload[bit / 8] = 0;
    }
}

#[test]
fn feeding_from_any_register() {
    let mut rng = Rng::new(42);
    for turn in 0..20_000 {
        let length = rng.index(if turn % 10 == 0 { 2000 } else { 80 });
        let (crc, bytes) = (rng.word(), rng.bytes(length));
        assert_eq!(proved::feed(crc, &bytes), feed(crc, &bytes));
    }
}

#[test]
fn feeding_in_pieces() {
    let mut rng = Rng::new(43);
    for turn in 0..3000 {
        let length = rng.index(if turn % 10 == 0 { 7000 } else { 300 });
        let (bytes, longest) = (rng.bytes(length), rng.pick(&[2, 8, 20, 70, 1000]));
        let (mut crc, mut rest) = (0xFFFF, bytes.as_slice());
        while !rest.is_empty() {
            let (piece, after) = rest.split_at(rng.index(longest).min(rest.len()));
            crc = proved::feed(crc, piece);
            rest = after;
        }
        assert_eq!(crc, proved::checksum(&bytes));
        assert_eq!(crc, by_table(&bytes));
    }
}
