//! The addresses that a later write took away, by hand.

mod facts;

use facts::{given, Writes};
use independent::facts::lost::lost;
use independent::facts::run::run;

/// As in "31: 3, 5!": the address, the line that had set its alias, and the one that gave it another
/// value, with a mark where that is a `replaced`.
fn lost_of(writes: Writes) -> Vec<String> {
    let given = given(writes);
    let lost = lost(&given, &run(&given).unwrap());
    let words = lost.iter().map(|(address, it)| {
        let mark = if it.is_replaced { "!" } else { "" };
        format!("{address:02X}: {}, {}{mark}", it.set, it.changed)
    });
    words.collect()
}

const ON: (u8, u8) = (0x58, 0x58);
const FIRST: (u8, u8) = (0x4C, 0x01);

#[test]
fn an_address_is_lost_by_the_last_write_that_took_its_alias() {
    let once = [FIRST, ON, (0x65, 0x62), FIRST, (0x65, 0x64)];
    assert_eq!(lost_of(&once), ["31: 3, 5!"]);
    let off = [FIRST, ON, (0x5C, 0x62), FIRST, (0x5C, 0x00)];
    assert_eq!(lost_of(&off), ["31: 3, 5!"], "of a serializer");
    let mut twice = once.to_vec();
    twice.extend([FIRST, (0x65, 0x62), FIRST, (0x65, 0x66)]);
    assert_eq!(lost_of(&twice), ["31: 7, 9!", "32: 5, 7!"]);
    let two = [FIRST, ON, (0x65, 0x62), (0x66, 0x62), FIRST];
    let two = [&two[..], &[(0x65, 0x64), (0x66, 0x64)]].concat();
    assert_eq!(lost_of(&two), ["31: 4, 7!"], "the next alias took over");
    let within = [&once[..], &[(0x65, 0x62), (0x65, 0x66)]].concat();
    assert_eq!(lost_of(&within), ["31: 6, 7", "32: 5, 6"], "in its block");
    let again = [FIRST, ON, (0x65, 0x62), (0x65, 0x64)];
    assert_eq!(lost_of(&again), ["31: 3, 4"], "a selection was forgotten");
}

#[test]
fn of_several_ports_it_is_the_last() {
    let both = [
        FIRST,
        ON,
        (0x65, 0x62),
        (0x4C, 0x02),
        ON,
        (0x65, 0x62),
        (0x4C, 0x03),
        (0x65, 0x66),
    ];
    assert_eq!(lost_of(&both), ["31: 6, 8!"]);
}

#[test]
fn an_address_is_not_lost_elsewhere() {
    let set = [FIRST, ON, (0x65, 0x62)];
    let cases: [(&str, Writes); 6] = [
        ("while nobody heard", &[FIRST, (0x58, 0x18), (0x65, 0x64)]),
        ("heard by another", &[FIRST, (0x65, 0x64), (0x66, 0x62)]),
        ("pass-through goes", &[FIRST, (0x58, 0x18)]),
        ("it stays", &[FIRST, (0x65, 0x63)]),
        (
            "it stays, and pass-through goes",
            &[FIRST, (0x65, 0x63), (0x58, 0x18)],
        ),
        (
            "the alias was passed over",
            &[FIRST, (0x5C, 0x62), (0x65, 0x64), (0x58, 0x18)],
        ),
    ];
    for (name, more) in cases {
        let writes = [&set[..], more].concat();
        assert_eq!(lost_of(&writes), [""; 0], "{name}");
    }
    let back = [&set[..], &[(0x65, 0x64), (0x65, 0x62), (0x58, 0x18)]].concat();
    assert_eq!(lost_of(&back), ["32: 4, 5"], "31 was given back");
    let hub = [FIRST, ON, (0x65, 0x7A), FIRST, (0x65, 0x62)];
    assert_eq!(lost_of(&hub), [""; 0], "the hub's own");
}
