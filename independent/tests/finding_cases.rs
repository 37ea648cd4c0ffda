//! The findings at single writes, by hand: where each kind has to be found, and where it must not be.

mod facts;

use facts::{found, NONE};

#[test]
fn replaced_is_another_value_over_an_earlier_blocks() {
    let twice = [(0x4C, 0x01), (0x65, 0x62), (0x4C, 0x01), (0x65, 0x64)];
    assert_eq!(found("replaced", &twice), ["wrong 2,4 p0 65"]);
    let with_none_between = [
        (0x4C, 0x01),
        (0x65, 0x62),
        (0x4C, 0x00),
        (0x4C, 0x31),
        (0x65, 0x64),
    ];
    assert_eq!(found("replaced", &with_none_between), ["wrong 2,5 p0 65"]);
    let kept_between = [
        (0x4C, 0x01),
        (0x65, 0x62),
        (0x4C, 0x01),
        (0x65, 0x62),
        (0x4C, 0x01),
        (0x65, 0x64),
    ];
    assert_eq!(
        found("replaced", &kept_between),
        ["wrong 4,6 p0 65"],
        "line 4 reached it last"
    );
}

#[test]
fn replaced_has_one_finding_a_port() {
    let broadcast = [
        (0x4C, 0x03),
        (0x58, 0x58),
        (0x4C, 0x04),
        (0x58, 0x58),
        (0x4C, 0x0F),
        (0x58, 0x18),
    ];
    let expected = ["wrong 2,6 p0 58", "wrong 2,6 p1 58", "wrong 4,6 p2 58"];
    assert_eq!(
        found("replaced", &broadcast),
        expected,
        "port 3 had its start value"
    );
}

#[test]
fn replaced_is_not_found_elsewhere() {
    let cases: [&[(u8, u8)]; 9] = [
        &[(0x4C, 0x01), (0x65, 0x62), (0x4C, 0x01), (0x65, 0x62)], // the value stays
        &[(0x4C, 0x01), (0x5D, 0x60), (0x4C, 0x01), (0x5D, 0x61)], // bit 0 is not writable
        &[(0x4C, 0x01), (0x65, 0x62), (0x65, 0x64)],               // in one block
        &[(0x4C, 0x01), (0x65, 0x62), (0x4C, 0x02), (0x65, 0x64)], // of another port
        &[(0x4C, 0x01), (0x65, 0x62), (0x4C, 0x01), (0x66, 0x64)], // another register
        &[(0x4C, 0x01), (0x65, 0x62), (0x4C, 0x00), (0x65, 0x64)], // nobody ticked
        &[(0x20, 0x00), (0x4C, 0x01), (0x20, 0x0F)],               // shared
        &[(0x4C, 0x01), (0x70, 0x6B)],                             // over a start value
        &[
            (0x4C, 0x01),
            (0x65, 0x62),
            (0x4C, 0x01),
            (0x65, 0x62),
            (0x65, 0x64),
        ], // line 4, of this block, is the origin
    ];
    for writes in cases {
        assert_eq!(found("replaced", writes), NONE, "{writes:02X?}");
    }
}

#[test]
fn no_port_is_a_per_port_write_for_nobody() {
    let writes = [
        (0x58, 0x58),
        (0x20, 0x00),
        (0x6E, 0xAA),
        (0x4C, 0x30),
        (0x5D, 0x61),
        (0x4C, 0x01),
        (0x58, 0x58),
    ];
    assert_eq!(found("no-port", &writes), ["wrong 1 p 58", "wrong 5 p 5D"]);
    assert_eq!(
        found("bits-ignored", &writes),
        NONE,
        "a register has to be reached"
    );
    assert_eq!(found("no-change", &writes), NONE);
}

#[test]
fn not_followed_is_a_register_without_a_writable_bit() {
    let writes = [
        (0x33, 0x01),
        (0x4C, 0x01),
        (0x6E, 0x00),
        (0x1F, 0xFF),
        (0x57, 0x00),
        (0x71, 0x2C),
    ];
    let expected = ["note 1 p 33", "note 3 p 6E", "note 5 p 57"];
    assert_eq!(found("not-followed", &writes), expected);
}

#[test]
fn bits_ignored_is_a_register_that_was_reached_with_more_bits() {
    let writes = [
        (0x5D, 0x61),
        (0x1F, 0xFF),
        (0x4C, 0xC5),
        (0x5D, 0x61),
        (0x65, 0x61),
        (0x33, 0xFF),
        (0xB6, 0x38),
        (0x4C, 0x01),
        (0x64, 0x01),
    ];
    let expected = [
        "note 2 p 1F",
        "note 3 p 4C",
        "note 4 p02 5D",
        "note 9 p0 64",
    ];
    assert_eq!(found("bits-ignored", &writes), expected);
}

#[test]
fn no_change_is_a_write_that_all_its_registers_had() {
    let writes = [
        (0x20, 0xF0),
        (0x4C, 0x00),
        (0x4C, 0xC0),
        (0x70, 0x2B),
        (0x4C, 0x03),
        (0x70, 0x2B),
        (0x58, 0x18),
        (0x33, 0x00),
        (0x4C, 0x01),
        (0x5D, 0x01),
        (0x1F, 0xFE),
    ];
    let expected = [
        "note 1 p 20",
        "note 2 p 4C",
        "note 3 p 4C",
        "note 7 p01 58",
        "note 10 p0 5D",
        "note 11 p 1F",
    ];
    assert_eq!(found("no-change", &writes), expected);
    let changed_on_one = [(0x4C, 0x03), (0x70, 0x2B)];
    assert_eq!(
        found("no-change", &changed_on_one),
        NONE,
        "port 1 started with 6B"
    );
}

#[test]
fn odd_alias_is_an_odd_value_that_a_port_got() {
    let writes = [
        (0x5C, 0x19),
        (0x4C, 0x05),
        (0x5C, 0x19),
        (0x65, 0x01),
        (0x6C, 0xFF),
        (0x6C, 0xFF),
        (0x64, 0x61),
        (0x6D, 0x01),
        (0x5B, 0xB1),
        (0x66, 0x62),
    ];
    let expected = [
        "note 3 p02 5C",
        "note 4 p02 65",
        "note 5 p02 6C",
        "note 6 p02 6C",
    ];
    assert_eq!(found("odd-alias", &writes), expected);
}
