//! Traces at the borders.

use super::{ADDRESS, WINDOW};
use crate::generate::rng::Rng;
use crate::generate::values;
use crate::model::trace::{HUB_ADDRESS, READ};
use crate::model::trace_builder::TraceBuilder;

const LENGTHS: [usize; 3] = [WINDOW - 1, WINDOW, WINDOW + 1];

/// So many bytes of a burst stand before the border: inside its first four bytes, and later.
const ACROSS: [usize; 6] = [1, 2, 3, 4, 130, 258];

/// The bytes of a line of text, and of the most lines that are written at a time.
const LINE: usize = 20;
const MOST_LINES: usize = WINDOW / LINE;

const SHORTEST: usize = 6;
const LONGEST: usize = 259;
const SINGLES: &[usize] = &[SHORTEST];
const BURSTS: &[usize] = &[SHORTEST, 7, 30, LONGEST];

const ENDS: usize = 4;
const LARGE: usize = 5;

pub const COUNT: usize = LARGE + ACROSS.len() + LENGTHS.len() * ENDS;

pub fn trace(rng: &mut Rng, turn: usize) -> Vec<u8> {
    if turn < LARGE {
        return large(rng, turn);
    }
    let turn = turn - LARGE;
    match ACROSS.get(turn) {
        Some(&before) => across(rng, before),
        None => ended(rng, turn - ACROSS.len()),
    }
}

/// Texts of just under and just over a window, and a trace that has several.
fn large(rng: &mut Rng, turn: usize) -> Vec<u8> {
    match turn {
        0 => with_values(rng, MOST_LINES, 1),
        1 => with_values(rng, MOST_LINES + 1, 1),
        2 => with_values(rng, MOST_LINES, 254),
        3 => with_values(rng, MOST_LINES + 1, 254),
        _ => right(rng, 4 * WINDOW + 1, SINGLES).into_bytes(),
    }
}

/// The hub record and so many values, up to `most` in a record.
fn with_values(rng: &mut Rng, count: usize, most: usize) -> Vec<u8> {
    let mut trace = TraceBuilder::with_hub(ADDRESS, values::start(rng));
    for values in rng.bytes(count).chunks(most) {
        trace.burst(rng.byte(), values);
    }
    trace.into_bytes()
}

fn across(rng: &mut Rng, before: usize) -> Vec<u8> {
    let mut trace = right(rng, WINDOW - before, SINGLES);
    write(&mut trace, rng, LONGEST);
    write(&mut trace, rng, SHORTEST);
    trace.into_bytes()
}

/// Each length with each end.
fn ended(rng: &mut Rng, turn: usize) -> Vec<u8> {
    let last = last(rng, turn % ENDS);
    let rest = LENGTHS[turn / ENDS] - last.len();
    let mut trace = right(rng, rest, BURSTS);
    trace.raw(&last);
    trace.into_bytes()
}

/// The last record: a burst, a burst cut short, the hub record again, a record with no text form.
fn last(rng: &mut Rng, turn: usize) -> Vec<u8> {
    let mut trace = TraceBuilder::default();
    match turn {
        0 | 1 => write(&mut trace, rng, LONGEST),
        2 => trace.record(HUB_ADDRESS, &[ADDRESS]),
        _ => trace.record(READ, &[0x4C]),
    }
    let mut bytes = trace.into_bytes();
    if turn == 1 {
        bytes.pop();
    }
    bytes
}

/// A write record of so many bytes.
fn write(trace: &mut TraceBuilder, rng: &mut Rng, size: usize) {
    let values = rng.bytes(size - 5);
    trace.burst(rng.byte(), &values);
}

/// The hub record and write records of these sizes, the last ones so that all have `length`.
fn right(rng: &mut Rng, length: usize, sizes: &[usize]) -> TraceBuilder {
    let mut trace = TraceBuilder::with_hub(ADDRESS, values::start(rng));
    loop {
        let size = rng.pick(sizes);
        let size = match length - trace.as_bytes().len() {
            0 => return trace,
            rest if rest >= size + SHORTEST => size,
            rest if rest > LONGEST => rest - SHORTEST,
            rest => rest,
        };
        write(&mut trace, rng, size);
    }
}
