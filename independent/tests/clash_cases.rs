//! The findings in the end state, by hand: clashes, ports that were not set up, ports without an
//! address; where each has to be found, and where it must not be.

mod facts;

use facts::{answer, found, NONE};

/// Ports 0 and 1 with RAW10 channel 2, by two lines, then these writes.
fn sharing(more: &[(u8, u8)]) -> Vec<String> {
    let mut writes = vec![(0x4C, 0x01), (0x70, 0xAB), (0x4C, 0x02), (0x70, 0xAB)];
    writes.extend(more);
    found("same-channel", &writes)
}

#[test]
fn same_channel_is_one_output_and_one_channel() {
    assert_eq!(sharing(&[(0x20, 0xC0)]), ["wrong 2,4 p01 0/2 raw10"]);
    assert_eq!(sharing(&[(0x20, 0xC3)]), ["wrong 2,4 p01 1/2 raw10"]);
    assert_eq!(sharing(&[(0x20, 0xC1)]), NONE, "on two outputs");
    assert_eq!(sharing(&[(0x20, 0xD0)]), NONE, "port 0 is not forwarded");
    assert_eq!(sharing(&[]), NONE, "none is forwarded");
    let three = ["wrong 2,4 p012 0/2 raw10"];
    assert_eq!(
        sharing(&[(0x20, 0x80)]),
        three,
        "port 2 starts with channel 2, which has no line"
    );
}

#[test]
fn same_channel_is_looked_at_by_format() {
    let crossed = [(0x4C, 0x01), (0x71, 0x6C), (0x20, 0xC0)];
    assert_eq!(found("same-channel", &crossed), ["wrong 2 p01 0/1 raw12"]);
    let raw10_and_raw12 = [(0x4C, 0x03), (0x70, 0x2B), (0x20, 0xC0)];
    assert_eq!(
        found("same-channel", &raw10_and_raw12),
        ["meant 2 p01 0/0 raw10"]
    );
    let all = [(0x4C, 0x0F), (0x70, 0x2B), (0x71, 0xEC), (0x20, 0x05)];
    let expected = [
        "meant 2 p13 0/0 raw10",
        "meant 2 p02 1/0 raw10",
        "meant 3 p13 0/3 raw12",
        "meant 3 p02 1/3 raw12",
    ];
    assert_eq!(found("same-channel", &all), expected);
}

#[test]
fn same_channel_is_meant_by_one_line() {
    let broadcast = [(0x4C, 0x06), (0x70, 0x6B), (0x20, 0x90)];
    assert_eq!(found("same-channel", &broadcast), ["meant 2 p12 0/1 raw10"]);
    let with_a_start_value = [(0x4C, 0x01), (0x70, 0x6B), (0x20, 0xC0)];
    assert_eq!(
        found("same-channel", &with_a_start_value),
        ["wrong 2 p01 0/1 raw10"]
    );
    let with_another = [
        (0x4C, 0x07),
        (0x70, 0x6B),
        (0x4C, 0x01),
        (0x70, 0x6B),
        (0x20, 0x80),
    ];
    assert_eq!(
        found("same-channel", &with_another),
        ["wrong 2,4 p012 0/1 raw10"]
    );
}

#[test]
fn same_channel_is_meant_where_lines_are_merged() {
    for (modes, outputs) in [
        (0x03, [false, false]),
        (0x14, [false, false]),
        (0x08, [true, false]),
        (0x0C, [true, false]),
        (0x20, [false, true]),
        (0x30, [false, true]),
        (0x28, [true, true]),
        (0x3C, [true, true]),
        (0xC3, [false, false]),
    ] {
        for (output, forwarding) in [(0, 0xC0), (1, 0xC3)] {
            let grade = if outputs[output] { "meant" } else { "wrong" };
            let expected = format!("{grade} 2,4 p01 {output}/2 raw10");
            let found = sharing(&[(0x21, modes), (0x20, forwarding)]);
            assert_eq!(found, [expected], "{modes:02X} on output {output}");
        }
    }
}

#[test]
fn same_address_is_a_write_that_two_ports_hear() {
    let broadcast = [(0x4C, 0x0F), (0x58, 0x58), (0x5C, 0x18), (0x65, 0x60)];
    let expected = ["meant 3 p0123 @0C", "meant 4 p0123 @30"];
    assert_eq!(found("same-address", &broadcast), expected);
    let by_two_lines = [
        (0x4C, 0x03),
        (0x58, 0x58),
        (0x4C, 0x01),
        (0x65, 0x60),
        (0x4C, 0x02),
        (0x6C, 0x61),
    ];
    assert_eq!(found("same-address", &by_two_lines), ["wrong 4,6 p01 @30"]);
    let serializer_and_target = [
        (0x4C, 0x09),
        (0x58, 0x58),
        (0x4C, 0x08),
        (0x5C, 0x60),
        (0x4C, 0x01),
        (0x66, 0x60),
    ];
    assert_eq!(
        found("same-address", &serializer_and_target),
        ["wrong 4,6 p03 @30"]
    );
}

#[test]
fn same_address_counts_the_aliases_that_hear() {
    let passed_over = [
        (0x4C, 0x03),
        (0x58, 0x58),
        (0x65, 0x60),
        (0x4C, 0x01),
        (0x66, 0x60),
    ];
    assert_eq!(
        found("same-address", &passed_over),
        ["meant 3 p01 @30"],
        "the alias of line 5 stands behind that of line 3"
    );
    let cases: [&[(u8, u8)]; 5] = [
        &[(0x4C, 0x03), (0x65, 0x60)],               // no pass-through
        &[(0x4C, 0x03), (0x58, 0x58), (0x65, 0x00)], // an alias that is off
        &[(0x4C, 0x03), (0x58, 0x58), (0x65, 0x01)], // the same
        &[(0x4C, 0x03), (0x58, 0x58), (0x65, 0x7A)], // the hub's own address
        &[(0x4C, 0x01), (0x58, 0x58), (0x65, 0x60), (0x66, 0x60)], // twice on one port
    ];
    for writes in cases {
        assert_eq!(found("same-address", writes), NONE, "{writes:02X?}");
    }
}

#[test]
fn not_set_up_is_a_forwarded_port_that_was_left_out() {
    let writes = [(0x20, 0x80), (0x4C, 0x02), (0x58, 0x58)];
    let expected = ["wrong 1 p0", "wrong 1 p2"];
    assert_eq!(found("not-set-up", &writes), expected);
    let other_is_not_forwarded = [(0x20, 0xE0), (0x4C, 0x08), (0x71, 0xEC)];
    assert_eq!(found("not-set-up", &other_is_not_forwarded), ["wrong 1 p0"]);
    let last_line = [(0x20, 0x00), (0x4C, 0x07), (0x64, 0x00), (0x20, 0x00)];
    assert_eq!(found("not-set-up", &last_line), ["wrong 4 p3"]);
    let cases: [&[(u8, u8)]; 4] = [
        &[(0x20, 0x00)],                             // no port was reached
        &[(0x20, 0x00), (0x4C, 0x00), (0x58, 0x58)], // the same
        &[(0x4C, 0x01), (0x58, 0x58), (0x20, 0xE0)], // port 0 alone is forwarded
        &[(0x4C, 0x0F), (0x64, 0x00), (0x20, 0x00)], // reached, though nothing changed
    ];
    for writes in cases {
        assert_eq!(found("not-set-up", writes), NONE, "{writes:02X?}");
    }
}

#[test]
fn no_address_is_a_forwarded_port_that_nobody_reaches() {
    let none = ["note 1 p0", "note 1 p1", "note 1 p2", "note 1 p3"];
    assert_eq!(found("no-address", &[(0x20, 0x00)]), none);
    let with = |more: &[(u8, u8)]| {
        let mut writes = vec![(0x20, 0xE0), (0x4C, 0x01)];
        writes.extend(more);
        found("no-address", &writes)
    };
    assert_eq!(with(&[(0x58, 0x58), (0x6C, 0x62)]), NONE);
    assert_eq!(with(&[(0x58, 0x40), (0x5C, 0x03)]), NONE);
    assert_eq!(with(&[(0x58, 0x98), (0x65, 0x62)]), ["note 1 p0"]);
    assert_eq!(with(&[(0x58, 0x58), (0x65, 0x01)]), ["note 1 p0"]);
    assert_eq!(
        with(&[(0x58, 0x58), (0x65, 0x7A)]),
        ["note 1 p0"],
        "the hub's own address"
    );
    assert_eq!(with(&[(0x20, 0xF0)]), NONE, "not forwarded");
    let both = answer(&[(0x20, 0xC0), (0x4C, 0x02), (0x58, 0x58), (0x65, 0x62)]);
    assert_eq!(facts::of_kind(&both, "no-address"), ["note 1 p0"]);
    assert_eq!(facts::of_kind(&both, "not-set-up"), ["wrong 1 p0"]);
}
