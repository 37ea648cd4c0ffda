//! The findings about the order of blocks, by hand: where each kind has to be found, and where it must
//! not be.

mod facts;

use facts::{found, NONE};

#[test]
fn port_twice_names_the_latest_selection_before() {
    let writes = [
        (0x4C, 0x03),
        (0x4C, 0x12),
        (0x4C, 0x30),
        (0x4C, 0x24),
        (0x4C, 0x07),
    ];
    let expected = [
        "note 1,2 p1 4C",
        "note 1,5 p0 4C",
        "note 2,5 p1 4C",
        "note 4,5 p2 4C",
    ];
    assert_eq!(found("port-twice", &writes), expected);
    let same_read_port = [(0x4C, 0x11), (0x4C, 0x12), (0x4C, 0x14), (0x4C, 0x10)];
    assert_eq!(found("port-twice", &same_read_port), NONE);
    let other_read_port = [(0x4C, 0x01), (0x4C, 0x31)];
    assert_eq!(found("port-twice", &other_read_port), ["note 1,2 p0 4C"]);
    let bits_7_and_6 = [(0x4C, 0xC1), (0x4C, 0xC2)];
    assert_eq!(found("port-twice", &bits_7_and_6), NONE);
}

#[test]
fn shared_in_block_is_between_selections_and_their_writes() {
    let writes = [
        (0x20, 0x00),
        (0x4C, 0x01),
        (0x21, 0x03),
        (0x70, 0x2B),
        (0x33, 0x01),
        (0x1F, 0x02),
        (0x4C, 0x02),
        (0x20, 0x0C),
    ];
    let expected = ["note 3 p 21", "note 6 p 1F"];
    assert_eq!(found("shared-in-block", &writes), expected);
    let followed_by_nothing = [(0x4C, 0x01), (0x58, 0x58), (0x20, 0x00), (0x33, 0x01)];
    assert_eq!(found("shared-in-block", &followed_by_nothing), NONE);
    let not_followed = [(0x4C, 0x01), (0x6E, 0xAA), (0x4C, 0x02), (0x6E, 0xAA)];
    assert_eq!(found("shared-in-block", &not_followed), NONE);
    let no_selection_yet = [(0x20, 0x00), (0x58, 0x58)];
    assert_eq!(found("shared-in-block", &no_selection_yet), NONE);
    let far = [(0x4C, 0x01), (0x20, 0x00), (0x21, 0x03), (0x4C, 0x00)];
    let expected = ["note 2 p 20", "note 3 p 21"];
    assert_eq!(found("shared-in-block", &far), expected);
}
