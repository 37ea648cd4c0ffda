//! Header repair: every single wrong bit is mended and named, every double one is refused.

use independent::generate::rng::Rng;
use independent::model::header::{check_byte, flipped, header, is_right, repair, Mended};
use independent::model::packet::read;

fn headers(count: usize) -> Vec<[u8; 4]> {
    let mut rng = Rng::new(5);
    let mut headers = vec![header(0, 0), header(0xFF, 0xFFFF), header(0x40, 1)];
    headers.extend((0..count).map(|_| header(rng.byte(), rng.word())));
    headers
}

#[test]
fn a_right_header_is_taken_as_it_is() {
    for header in headers(5000) {
        assert_eq!(repair(header), Some(Mended { header, bit: None }));
    }
}

#[test]
fn every_single_wrong_bit_is_mended_and_named() {
    for header in headers(2000) {
        for bit in 0..32 {
            let expected = Mended {
                header,
                bit: Some(bit),
            };
            assert_eq!(repair(flipped(header, bit)), Some(expected));
        }
    }
    let packet = [0x40, 0x01, 0x00, 0x4C];
    assert_eq!(read(&packet).unwrap().mended, Some(30));
}

#[test]
fn every_double_wrong_bit_is_refused() {
    for header in headers(2000) {
        for first in 0..32 {
            for second in first + 1..32 {
                assert_eq!(repair(flipped(flipped(header, first), second)), None);
            }
        }
    }
}

/// Of any four bytes at most one right header is at most one bit away, so repair has no choice.
#[test]
fn no_bytes_are_near_two_right_headers() {
    let mut rng = Rng::new(6);
    for _ in 0..3000 {
        let any = (rng.draw() as u32).to_le_bytes();
        let near = (0..32).filter(|&bit| is_right(flipped(any, bit))).count();
        assert!(near + usize::from(is_right(any)) <= 1);
        assert_eq!(repair(any).is_some(), near == 1 || is_right(any));
    }
}

/// All columns of the code, those of the eight check bits included, are odd and distinct: the
/// sum of two is even and not zero, hence no column, and two wrong bits never look like one.
#[test]
fn the_code_has_distance_four() {
    let mut columns: Vec<u8> = (0..24)
        .map(|bit| {
            let [first, second, third, _] = (1u32 << bit).to_le_bytes();
            check_byte(first, second, third)
        })
        .collect();
    columns.extend((0..8).map(|bit| 1u8 << bit));
    assert!(columns.iter().all(|column| column.count_ones() % 2 == 1));
    columns.sort_unstable();
    columns.dedup();
    assert_eq!(columns.len(), 32);
}
