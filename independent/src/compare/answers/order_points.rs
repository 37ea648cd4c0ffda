//! The points about the order of blocks.

use crate::compare::coverage::Coverage;
use crate::facts::given::{Given, Write};
use crate::facts::order::{any_order, blocks, breaks, Break, Why};
use crate::facts::run::Run;
use crate::model::registers::{register, FPD3_PORT_SEL};

pub const POINTS: &[&str] = &[
    "any order without a block",
    "any order of one block",
    "any order of several blocks",
    "any order with a block that ticks no port",
    "any order with blocks of the same read port",
    "any order with writes inside that are not followed",
    "any order with shared registers before and after",
    "no order for port-twice alone",
    "no order for shared-in-block alone",
    "no order for a write before the first selection alone",
    "port-twice with another read port",
    "port-twice with a selection between",
    "port-twice of several ports at one selection",
    "port-twice with several earlier lines at one selection",
    "shared-in-block before a selection alone",
    "shared-in-block before a per-port write alone",
    "a shared register after the last block",
];

pub fn note(coverage: &mut Coverage, given: &Given, run: &Run) {
    let writes = &given.writes;
    if any_order(writes) {
        note_any_order(coverage, run, writes);
    } else {
        note_breaks(coverage, &breaks(writes));
    }
    note_twice(coverage, writes, &breaks(writes));
    note_shared(coverage, writes, &breaks(writes));
}

fn is_selection(write: &Write) -> bool {
    write.offset == FPD3_PORT_SEL
}

fn is_shared(write: &Write) -> bool {
    let row = register(write.offset);
    row.mask != 0 && !row.per_port && !is_selection(write)
}

fn note_any_order(coverage: &mut Coverage, run: &Run, writes: &[Write]) {
    let selections: Vec<&Write> = writes.iter().filter(|write| is_selection(write)).collect();
    coverage.note(match selections.len() {
        0 => "any order without a block",
        1 => "any order of one block",
        _ => "any order of several blocks",
    });
    let several = selections.len() > 1;
    if several && selections.iter().any(|it| it.value & 0x0F == 0) {
        coverage.note("any order with a block that ticks no port");
    }
    let read_port = |write: &Write| write.value >> 4 & 3;
    let same = |pair: &[&Write]| read_port(pair[0]) == read_port(pair[1]);
    let ticking: Vec<&Write> = selections
        .iter()
        .copied()
        .filter(|it| it.value & 0x0F != 0)
        .collect();
    if ticking.windows(2).any(same) {
        coverage.note("any order with blocks of the same read port");
    }
    let last = selections.len() as u64;
    let unfollowed = |write: &Write| register(write.offset).mask == 0;
    if run
        .steps
        .iter()
        .any(|it| it.block > 0 && it.block < last && unfollowed(&it.write))
    {
        coverage.note("any order with writes inside that are not followed");
    }
    let shared_in = |block| {
        run.steps
            .iter()
            .any(|it| it.block == block && is_shared(&it.write))
    };
    if several && shared_in(0) && shared_in(last) {
        coverage.note("any order with shared registers before and after");
    }
}

fn note_breaks(coverage: &mut Coverage, breaks: &[Break]) {
    let all = |is_such: fn(&Why) -> bool| breaks.iter().all(|it| is_such(&it.why));
    if all(|why| matches!(why, Why::PortTwice { .. })) {
        coverage.note("no order for port-twice alone");
    }
    if all(|why| matches!(why, Why::SharedInBlock)) {
        coverage.note("no order for shared-in-block alone");
    }
    if all(|why| matches!(why, Why::NoSelectionYet)) {
        coverage.note("no order for a write before the first selection alone");
    }
}

fn note_twice(coverage: &mut Coverage, writes: &[Write], breaks: &[Break]) {
    let selections: Vec<&Write> = writes.iter().filter(|write| is_selection(write)).collect();
    let mut before: Option<(u64, u64)> = None;
    for it in breaks {
        let Why::PortTwice { earlier, .. } = it.why else {
            continue;
        };
        let place = |number| selections.iter().position(|it| it.number == number);
        let (from, to) = (place(earlier), place(it.write.number));
        if let (Some(from), Some(to)) = (from, to) {
            if from + 1 < to {
                coverage.note("port-twice with a selection between");
            }
            if selections[from].value & 0x30 != selections[to].value & 0x30 {
                coverage.note("port-twice with another read port");
            }
        }
        if let Some((last_earlier, last_number)) = before {
            if last_number == it.write.number {
                coverage.note("port-twice of several ports at one selection");
                if last_earlier != earlier {
                    coverage.note("port-twice with several earlier lines at one selection");
                }
            }
        }
        before = Some((earlier, it.write.number));
    }
}

fn note_shared(coverage: &mut Coverage, writes: &[Write], breaks: &[Break]) {
    let rest_of = |write: &Write| {
        let place = writes.iter().position(|it| it == write).unwrap_or(0);
        &writes[place + 1..]
    };
    for it in breaks.iter().filter(|it| it.why == Why::SharedInBlock) {
        let rest = rest_of(&it.write);
        if !rest.iter().any(|it| register(it.offset).per_port) {
            coverage.note("shared-in-block before a selection alone");
        }
        if !rest.iter().any(is_selection) {
            coverage.note("shared-in-block before a per-port write alone");
        }
    }
    let last = blocks(writes).pop().unwrap_or_default();
    let ends_shared = last.last().is_some_and(is_shared);
    if ends_shared && last.first().is_some_and(is_selection) {
        coverage.note("a shared register after the last block");
    }
}
