//! Packets: check bytes, checksums, packing, the reader's refusals and round trips.

use independent::compare::cases::CHECKSUM_VECTORS;
use independent::generate::rng::Rng;
use independent::model::checksum::{bit_by_bit, by_table};
use independent::model::format::Format;
use independent::model::header::{check_byte, check_byte_counted, header};
use independent::model::packet::{payload, read, write_line, write_short};
use independent::model::pixels::{pack, payload_length, unpack};
use independent::model::refusal::Refusal;

#[test]
fn check_bytes_of_the_cases() {
    assert_eq!(check_byte(0x00, 0x00, 0x00), 0x00);
    assert_eq!(check_byte(0x40, 0x01, 0x00), 0x0C);
    assert_eq!(header(0x6B, 5), [0x6B, 0x05, 0x00, 0x38]);
}

#[test]
fn check_byte_columns_are_the_standards() {
    let columns = [
        0x07, 0x0B, 0x0D, 0x0E, 0x13, 0x15, 0x16, 0x19, 0x1A, 0x1C, 0x23, 0x25, 0x26, 0x29, 0x2A,
        0x2C, 0x31, 0x32, 0x34, 0x38, 0x1F, 0x2F, 0x37, 0x3B,
    ];
    for (bit, column) in columns.into_iter().enumerate() {
        let [first, second, third, _] = (1u32 << bit).to_le_bytes();
        assert_eq!(check_byte_counted(first, second, third), column);
        assert_eq!(check_byte(first, second, third), column);
    }
    let mut rng = Rng::new(1);
    for _ in 0..100_000 {
        let word = rng.draw() as u32 & 0xFF_FFFF;
        let [first, second, third, _] = word.to_le_bytes();
        let by_columns = (0..24).filter(|bit| word >> bit & 1 == 1);
        let by_columns = by_columns.fold(0, |check, bit| check ^ columns[bit]);
        assert_eq!(check_byte_counted(first, second, third), by_columns);
        assert_eq!(check_byte(first, second, third), by_columns);
    }
}

#[test]
fn checksum_vectors_of_the_standard() {
    let sums = CHECKSUM_VECTORS.map(|payload| bit_by_bit(&payload));
    assert_eq!(sums, [0x00F0, 0xE569]);
    assert_eq!(bit_by_bit(&[]), 0xFFFF);
}

#[test]
fn the_table_gives_the_checksum_of_the_rule() {
    let mut rng = Rng::new(2);
    for length in 0..600 {
        let bytes = rng.bytes(length);
        assert_eq!(by_table(&bytes), bit_by_bit(&bytes));
    }
}

#[test]
fn packing_of_the_cases() {
    let mut five = [0; 5];
    pack(Format::Raw10, &[0x3FF, 0, 0, 1], &mut five);
    assert_eq!(five, [0xFF, 0x00, 0x00, 0x00, 0x43]);
    let mut three = [0; 3];
    pack(Format::Raw12, &[0xABC, 0x123], &mut three);
    assert_eq!(three, [0xAB, 0x12, 0x3C]);
    assert_eq!(payload_length(Format::Raw12, 4096), 6144);
    assert_eq!(payload_length(Format::Raw10, 4096), 5120);
}

#[test]
fn reads_of_the_cases() {
    for bytes in [[0x41, 0x01, 0x00, 0x0C], [0x40, 0x01, 0x00, 0x4C]] {
        let packet = read(&bytes).unwrap();
        assert_eq!((packet.identifier, packet.count), (0x40, 1));
        assert_eq!((packet.payload, packet.length), (&[][..], 4));
    }
    let refused = read(&[0x40, 0x01, 0x00, 0x0F]);
    assert_eq!(refused, Err(Refusal::HeaderBeyondRepair));
}

#[test]
fn the_reader_refuses_in_its_order() {
    let mut bytes = vec![0xEE; 3];
    for length in 0..=3 {
        assert_eq!(read(&bytes[..length]), Err(Refusal::TooFewBytes));
    }
    bytes.resize(40, 0xEE);
    let written = write_line(&mut bytes, 2, 0x2C, Format::Raw12, &[1, 2, 3, 4]).unwrap();
    assert_eq!(written.length, 12);
    assert_eq!((bytes[1], bytes[14]), (0xEE, 0xEE));
    let packet = bytes[2..14].to_vec();
    assert_eq!(payload(&packet).len(), 6);
    for length in 4..12 {
        assert_eq!(read(&packet[..length]), Err(Refusal::TooFewBytes));
        assert_eq!(payload(&packet[..length]), &[]);
    }
    for place in 4..12 {
        let mut wrong = packet.clone();
        wrong[place] ^= 0x10;
        assert_eq!(read(&wrong), Err(Refusal::ChecksumWrong));
        wrong[0] ^= 0x03;
        assert_eq!(read(&wrong), Err(Refusal::HeaderBeyondRepair));
    }
}

#[test]
fn a_count_of_zero_has_checksum_ffff() {
    let mut bytes = header(0x30, 0).to_vec();
    bytes.extend([0xFF, 0xFF]);
    assert_eq!(read(&bytes).unwrap().length, 6);
    bytes[5] = 0xFE;
    assert_eq!(read(&bytes), Err(Refusal::ChecksumWrong));
}

#[test]
fn short_types_end_at_0f() {
    for identifier in 0..=255u8 {
        let bytes = header(identifier, 0x1234);
        let expected = if identifier & 0x3F <= 0x0F {
            None
        } else {
            Some(Refusal::TooFewBytes)
        };
        assert_eq!(read(&bytes).err(), expected);
    }
}

#[test]
fn short_packets_come_back() {
    let mut rng = Rng::new(3);
    for _ in 0..10_000 {
        let (identifier, number) = (rng.byte() & 0xCF, rng.word());
        let mut bytes = [0; 4];
        write_short(&mut bytes, 0, identifier, number).unwrap();
        let packet = read(&bytes).unwrap();
        assert_eq!((packet.identifier, packet.count), (identifier, number));
        assert_eq!(packet.mended, None);
    }
}

#[test]
fn lines_come_back() {
    let mut rng = Rng::new(4);
    for turn in 0..400 {
        let (bits, format, step, mask) = match turn % 2 {
            0 => (10, Format::Raw10, 4, 0x3FF),
            _ => (12, Format::Raw12, 2, 0xFFF),
        };
        let width = step * rng.between(1, 4096 / step) as usize as u64;
        let pixels: Vec<u16> = (0..width).map(|_| rng.word() & mask).collect();
        let place = rng.index(20);
        let mut bytes = vec![0xEE; 6200];
        let written = write_line(&mut bytes, place, 0x2B, format, &pixels).unwrap();
        let after = place + written.length;
        assert!(bytes[..place].iter().all(|&byte| byte == 0xEE));
        assert!(bytes[after..].iter().all(|&byte| byte == 0xEE));
        let packet = read(&bytes[place..]).unwrap();
        assert_eq!(packet.length, written.length);
        let mut unpacked = vec![0xEEEE; pixels.len()];
        let count = unpack(bits, packet.payload, &mut unpacked);
        assert_eq!((count, unpacked), (Ok(pixels.len()), pixels));
    }
}
