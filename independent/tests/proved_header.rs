//! The proved check byte (ECC) and header repair against the model's.
#![cfg(feature = "proved")]

use independent::compare::expected;
use independent::compare::proved;
use independent::generate::rng::Rng;
use independent::model::header::header;
use independent::model::refusal::Refusal;

fn right_headers(count: usize) -> Vec<u32> {
    let mut rng = Rng::new(30);
    let mut headers = vec![header(0, 0), header(0xFF, 0xFFFF), header(0x40, 1)];
    headers.extend((0..count).map(|_| header(rng.byte(), rng.word())));
    headers.into_iter().map(u32::from_le_bytes).collect()
}

/// Compares the answers to one word, and hands them back.
fn same_repair(word: u32) -> u64 {
    let answer = proved::correct_header(word);
    assert_eq!(answer, expected::correct_header(word), "header {word:08X}");
    answer
}

#[test]
fn check_bytes() {
    let mut rng = Rng::new(31);
    let no_bit = 0;
    let one_bit = (0..24).map(|bit| 1 << bit);
    let all_but_one = (0..24).map(|bit| 0xFF_FFFF ^ 1 << bit);
    let random = (0..200_000).map(|_| rng.draw() as u32 & 0xFF_FFFF);
    for word in one_bit.chain(all_but_one).chain(random).chain([no_bit]) {
        let check = expected::check_byte(word);
        assert_eq!(proved::check_byte(word), check, "word {word:06X}");
    }
}

#[test]
fn check_bytes_count_the_low_24_bits() {
    let mut rng = Rng::new(32);
    for _ in 0..50_000 {
        let word = rng.draw() as u32;
        assert_eq!(proved::check_byte(word), expected::check_byte(word));
    }
}

#[test]
fn right_headers_stay() {
    for right in right_headers(20_000) {
        assert_eq!(same_repair(right), u64::from(right));
    }
}

#[test]
fn every_single_wrong_bit_is_corrected_and_named() {
    for right in right_headers(5000) {
        for bit in 0..32 {
            let answer = u64::from(right) | (1 + bit) << 32;
            assert_eq!(same_repair(right ^ 1 << bit), answer);
        }
    }
}

#[test]
fn every_double_wrong_bit_is_refused() {
    let refused = expected::refused(Refusal::HeaderBeyondRepair);
    for right in right_headers(1000) {
        for first in 0..32 {
            for second in first + 1..32 {
                assert_eq!(same_repair(right ^ 1 << first ^ 1 << second), refused);
            }
        }
    }
}

/// Of all words 33 in 256 are at most one bit from a right header.
#[test]
fn random_words() {
    let mut rng = Rng::new(33);
    let (mut right, mut corrected, mut refused) = (0, 0, 0);
    for _ in 0..400_000 {
        match same_repair(rng.draw() as u32) {
            answer if answer == expected::refused(Refusal::HeaderBeyondRepair) => refused += 1,
            answer if answer >> 32 == 0 => right += 1,
            _ => corrected += 1,
        }
    }
    assert!(right > 1000, "{right} right words");
    assert!(corrected > 40_000, "{corrected} corrected words");
    assert!(refused > 300_000, "{refused} words refused with 10");
}
