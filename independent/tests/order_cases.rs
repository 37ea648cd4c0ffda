//! Points 1 to 3 by hand: origins, what a write did, and whether the blocks may be run in any order.

mod facts;

use facts::{given, Writes};
use independent::facts::effect::{Did, Effect};
use independent::facts::order::{any_order, breaks, Why};
use independent::facts::run::{run, Run};

fn run_of(writes: Writes) -> Run {
    run(&given(writes)).unwrap()
}

/// The numbers of a register's origin on the four ports.
fn origins(run: &Run, offset: u8) -> [Option<u64>; 4] {
    [0, 1, 2, 3].map(|port| run.origins.on_port(port, offset).map(|it| it.number))
}

#[test]
fn an_origin_is_the_last_write_that_reached_the_register() {
    let run = run_of(&[
        (0x58, 0x58),
        (0x4C, 0x03),
        (0x58, 0x58),
        (0x4C, 0x02),
        (0x58, 0x58),
        (0x4C, 0x30),
        (0x58, 0x18),
        (0x20, 0x00),
        (0x20, 0x00),
        (0x33, 0x01),
    ]);
    assert_eq!(origins(&run, 0x58), [Some(3), Some(5), None, None]);
    assert_eq!(origins(&run, 0x70), [None; 4]);
    let shared = |offset| run.origins.shared(offset).map(|it| it.number);
    assert_eq!(
        [shared(0x20), shared(0x4C), shared(0x33), shared(0x21)],
        [Some(9), Some(6), None, None]
    );
    assert_eq!(
        shared(0x58),
        None,
        "a per-port register is in no shared place"
    );
    let blocks: Vec<u64> = run.steps.iter().map(|step| step.block).collect();
    assert_eq!(blocks, [0, 1, 1, 2, 2, 3, 3, 3, 3, 3]);
}

#[test]
fn a_write_does_one_of_five_things() {
    let run = run_of(&[
        (0x58, 0x58),
        (0x4C, 0xC5),
        (0x70, 0x2B),
        (0x5D, 0x01),
        (0x33, 0x01),
        (0x20, 0xF0),
        (0xB6, 0xFF),
        (0x4C, 0x05),
        (0x33, 0x00),
    ]);
    let effect = |did, bits_not_writable| Effect {
        did,
        bits_not_writable,
    };
    let reached = |ports: &[u8], changed: &[u8]| Did::ReachedPorts {
        ports: ports.to_vec(),
        changed: changed.to_vec(),
    };
    let selected = |changed| Did::Selected {
        ports: vec![0, 2],
        changed,
    };
    let expected = [
        effect(Did::NoPort, false),
        effect(selected(true), true),
        effect(reached(&[0, 2], &[2]), false),
        effect(reached(&[0, 2], &[]), true),
        effect(Did::NotFollowed, true),
        effect(Did::ReachedShared { changed: false }, false),
        effect(Did::ReachedShared { changed: true }, true),
        effect(selected(false), false),
        effect(Did::NotFollowed, false),
    ];
    let did: Vec<Effect> = run.steps.into_iter().map(|step| step.effect).collect();
    assert_eq!(did, expected);
}

#[test]
fn setup_blocks_that_tick_disjoint_ports_may_be_run_in_any_order() {
    let cases: [Writes; 9] = [
        &[],
        &[(0x20, 0x00), (0x21, 0x03)],
        &[(0x33, 0x01)],
        &[(0x4C, 0x00)],
        &[(0x4C, 0x00), (0x58, 0x58), (0x4C, 0x30), (0x58, 0x18)],
        &[(0x4C, 0x0F), (0x58, 0x58), (0x20, 0x00)],
        &[
            (0x20, 0x00),
            (0x4C, 0x01),
            (0x58, 0x58),
            (0x4C, 0x02),
            (0x21, 0x03),
        ],
        &[
            (0x4C, 0x03),
            (0x6E, 0xAA),
            (0x58, 0x58),
            (0x33, 0x01),
            (0x4C, 0x0C),
        ],
        &[(0x4C, 0x11), (0x70, 0x2B), (0x4C, 0x12), (0x70, 0x2B)],
    ];
    for writes in cases {
        let writes = given(writes).writes;
        assert!(any_order(&writes), "{writes:02X?}");
        assert_eq!(breaks(&writes), [], "{writes:02X?}");
    }
}

#[test]
fn each_write_that_breaks_the_order_is_named() {
    let twice = |port, earlier| Why::PortTwice { port, earlier };
    let cases: [(Writes, &[(u64, Why)]); 6] = [
        (&[(0x58, 0x58)], &[(1, Why::NoSelectionYet)]),
        (
            &[(0x20, 0x00), (0x58, 0x58), (0x4C, 0x01), (0x58, 0x58)],
            &[(2, Why::NoSelectionYet)],
        ),
        (
            &[(0x4C, 0x01), (0x20, 0x00), (0x4C, 0x02)],
            &[(2, Why::SharedInBlock)],
        ),
        (
            &[(0x4C, 0x00), (0x20, 0x00), (0x58, 0x58)],
            &[(2, Why::SharedInBlock)],
        ),
        (&[(0x4C, 0x01), (0x4C, 0x31)], &[(2, twice(0, 1))]),
        (
            &[(0x4C, 0x03), (0x4C, 0x02), (0x1F, 0x00), (0x4C, 0x07)],
            &[
                (2, twice(1, 1)),
                (3, Why::SharedInBlock),
                (4, twice(0, 1)),
                (4, twice(1, 2)),
            ],
        ),
    ];
    for (writes, expected) in cases {
        let writes = given(writes).writes;
        assert!(!any_order(&writes), "{writes:02X?}");
        let breaks = breaks(&writes).into_iter();
        let found: Vec<(u64, Why)> = breaks.map(|it| (it.write.number, it.why)).collect();
        assert_eq!(found, expected, "{writes:02X?}");
    }
}
