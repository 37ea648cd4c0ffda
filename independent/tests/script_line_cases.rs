//! The shape of a line, against a second reader that walks a pattern byte by byte.

use independent::generate::scripts::{numbered, Job};
use independent::model::script_line::{read_line, read_shape, Call};

/// _ is any number of blanks, h a hex digit, H one or none.
const BLANK: &[u8] = b"_";
const CALL: &[u8] = b"_WriteI2C_(_0xhH_,_0xhH_)_";

/// The places in the pattern where one may be, with what may be left out passed over.
fn reachable(pattern: &[u8], places: &[usize]) -> Vec<usize> {
    let mut all = Vec::new();
    for &place in places {
        let mut place = place;
        all.push(place);
        while matches!(pattern.get(place), Some(b'_' | b'H')) {
            place += 1;
            all.push(place);
        }
    }
    all
}

fn fits(pattern: &[u8], line: &[u8]) -> bool {
    let mut places = reachable(pattern, &[0]);
    for &byte in line.iter().take_while(|&&byte| byte != b'#') {
        let step = |&place: &usize| match pattern.get(place)? {
            b'_' => (byte == b' ' || byte == b'\t').then_some(place),
            b'h' | b'H' => byte.is_ascii_hexdigit().then_some(place + 1),
            &literal => (byte == literal).then_some(place + 1),
        };
        let next: Vec<usize> = places.iter().filter_map(step).collect();
        places = reachable(pattern, &next);
    }
    places.contains(&pattern.len())
}

fn check(line: &[u8]) {
    let shape = read_shape(line);
    let shown = line.escape_ascii();
    assert_eq!(shape == Ok(None), fits(BLANK, line), "\"{shown}\"");
    let is_call = matches!(shape, Ok(Some(_)));
    assert_eq!(is_call, fits(CALL, line), "\"{shown}\"");
}

const LINES: [&[u8]; 6] = [
    b"WriteI2C(0x4c,0x0f)",
    b" WriteI2C\t( 0x4c ,0xF )\t# RX0",
    b"\tWriteI2C  (\t\t0x0,  0xaB\t) ",
    b"",
    b" \t ",
    b" # WriteI2C(0x4c,0x0f)",
];

#[test]
fn the_second_reader_knows_right_lines() {
    assert!(LINES[..3].iter().all(|line| fits(CALL, line)));
    assert!(LINES[3..].iter().all(|line| fits(BLANK, line)));
}

#[test]
fn every_byte_changed_inserted_or_deleted_at_every_place() {
    for line in LINES {
        check(line);
        for place in 0..=line.len() {
            let (before, after) = line.split_at(place);
            for byte in 0..=255 {
                check(&[before, &[byte], after].concat());
                if let Some((_, rest)) = after.split_first() {
                    check(&[before, &[byte], rest].concat());
                    check(&[before, rest].concat());
                }
            }
        }
    }
}

#[test]
fn every_line_of_the_generator() {
    let mut lines = 0;
    for number in 0..1500 {
        if let Job::Trace { text, .. } = numbered(7, number).job {
            text.split(|&byte| byte == b'\n').for_each(check);
            lines += text.split(|&byte| byte == b'\n').count();
        }
    }
    assert!(lines > 100_000, "{lines} lines");
}

#[test]
fn every_value_in_every_way_to_write_it() {
    for byte in 0..=255u8 {
        let mut ways = vec![format!("0x{byte:02x}"), format!("0x{byte:02X}")];
        if byte < 16 {
            ways.extend([format!("0x{byte:x}"), format!("0x{byte:X}")]);
        }
        for way in ways {
            let other = 255 - byte;
            let call = |offset, value| Ok(Some(Call { offset, value }));
            let line = format!("WriteI2C({way},0x{other:02x})");
            assert_eq!(read_line(line.as_bytes()), call(byte, other));
            let line = format!("WriteI2C(0x{other:02x},{way})");
            assert_eq!(read_line(line.as_bytes()), call(other, byte));
        }
    }
}
