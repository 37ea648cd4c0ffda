//! The register file: the starred register cases, resets and masks, ticks, bursts, SCL times.

use independent::model::registers::{register, reset_value, RegisterFile};

fn written(writes: &[(u8, u8)]) -> RegisterFile {
    let mut file = RegisterFile::after_reset();
    for &(offset, value) in writes {
        file.write(offset, value);
    }
    file
}

#[test]
fn masks_hold_when_ff_is_written() {
    assert_eq!(written(&[(0x1F, 0xFF)]).read(0x1F), 0x03);
    assert_eq!(written(&[(0xB6, 0xFF)]).read(0xB6), 0x38);
    assert_eq!(written(&[(0x4C, 0xFF)]).read(0x4C), 0x3F);
    assert_eq!(written(&[(0xB3, 0xFF)]).read(0xB3), 0xCF);
    assert_eq!(written(&[(0xB9, 0xFF)]).read(0xB9), 0x3F);
    assert_eq!(written(&[(0x4C, 0x01), (0x5D, 0xFF)]).read(0x5D), 0xFE);
    assert_eq!(written(&[(0x00, 0xFF)]).read(0x00), 0x00);
}

#[test]
fn with_no_port_ticked_nothing_changes() {
    let file = written(&[(0x58, 0x58)]);
    assert_eq!(file, RegisterFile::after_reset());
    assert_eq!(file.read(0x58), 0x18);
}

#[test]
fn resets_are_those_of_the_table_and_lie_inside_the_masks() {
    let shared = [
        (0x0A, 0x79),
        (0x0B, 0x79),
        (0x1D, 0x00),
        (0x1E, 0x04),
        (0x1F, 0x02),
        (0x20, 0xF0),
        (0x21, 0x03),
        (0x4C, 0x00),
        (0xB3, 0x08),
        (0xB6, 0x18),
        (0xB9, 0x03),
        (0xBC, 0x80),
        (0xBE, 0x00),
    ];
    let file = RegisterFile::after_reset();
    for offset in 0..=255u8 {
        let listed = shared.iter().find(|(known, _)| *known == offset);
        assert_eq!(file.shared(offset), listed.map_or(0, |(_, reset)| *reset));
        let per_port = matches!(offset, 0x58 | 0x5B..=0x6C | 0x70 | 0x71);
        assert_eq!(register(offset).per_port, per_port, "{offset:02X}");
        for port in 0..4 {
            assert_eq!(reset_value(offset, port) & !register(offset).mask, 0);
        }
    }
    let identifiers = [0x2B, 0x6B, 0xAB, 0xEB];
    for (port, identifier) in identifiers.into_iter().enumerate() {
        assert_eq!(file.on_port(port, 0x58), 0x18);
        assert!((0x5B..=0x6C).all(|offset| file.on_port(port, offset) == 0));
        assert_eq!(file.on_port(port, 0x70), identifier);
        assert_eq!(file.on_port(port, 0x71), identifier + 1);
    }
}

#[test]
fn per_port_writes_go_to_the_ticked_ports_and_reads_to_the_read_port() {
    let mut file = written(&[(0x4C, 0x1A), (0x65, 0x77)]);
    let aliases = [0, 1, 2, 3].map(|port| file.on_port(port, 0x65));
    assert_eq!(aliases, [0x00, 0x77, 0x00, 0x77]);
    assert_eq!(file.read(0x65), 0x77);
    file.write(0x4C, 0x20);
    assert_eq!(file.read(0x65), 0x00);
}

#[test]
fn a_burst_wraps_and_obeys_a_selection_it_changes() {
    let mut file = written(&[(0x4C, 0x01)]);
    let mut values = [0x22; 14];
    values[1] = 0x08;
    file.burst(0x4B, &values);
    assert_eq!(file.on_port(0, 0x58), 0x18);
    assert_eq!(file.on_port(3, 0x58), 0x22);
    let mut values = [0u8; 12];
    values[11] = 0x5A;
    file.burst(0xFF, &values);
    assert_eq!(file.read(0x0A), 0x5A);
    let before = file.clone();
    file.burst(0x4C, &[]);
    assert_eq!(file, before);
}

#[test]
fn scl_times_are_forty_times_n_plus_four() {
    assert_eq!(RegisterFile::after_reset().scl_high_time_ns(), 5000);
    assert_eq!(RegisterFile::after_reset().scl_low_time_ns(), 5000);
    assert_eq!(written(&[(0x0B, 0x00)]).scl_low_time_ns(), 160);
    assert_eq!(written(&[(0x0B, 0xFF)]).scl_low_time_ns(), 10_360);
}

/// Table 5-14 of 004: Standard, Fast and Fast-mode Plus.
#[test]
fn scl_times_of_the_data_sheets_table() {
    for (high, low, times) in [
        (0x7A, 0x7A, (5040, 5040)),
        (0x13, 0x25, (920, 1640)),
        (0x06, 0x0C, (400, 640)),
    ] {
        let file = written(&[(0x0A, high), (0x0B, low)]);
        assert_eq!((file.scl_high_time_ns(), file.scl_low_time_ns()), times);
    }
}
