//! Traces of hub and write records, and such traces with something else in them.

use crate::generate::rng::Rng;
use crate::generate::traces::{self, Kind};
use crate::generate::values;
use crate::model::start::Start;
use crate::model::trace::{ADDRESS, FRAME_END, FRAME_START, HUB_ADDRESS, LINE, MARK, READ, WRITE};
use crate::model::trace_builder::TraceBuilder;

const NO_TEXT_FORM: [u8; 5] = [READ, ADDRESS, FRAME_START, FRAME_END, LINE];

/// The kinds of the other generator, whose traces are damaged or have records without text.
const OTHERS: [Kind; 12] = [
    Kind::Case,
    Kind::Traffic,
    Kind::Bursts,
    Kind::Edges,
    Kind::ChangedByte,
    Kind::Cut,
    Kind::Inserted,
    Kind::BrokenMark,
    Kind::Trailing,
    Kind::Shapes,
    Kind::Noise,
    Kind::OneByte,
];

fn write(trace: &mut TraceBuilder, rng: &mut Rng) {
    let first = match rng.below(3) {
        0 => rng.byte(),
        1 => rng.between(0xF0, 0xFF) as u8,
        _ => values::offset(rng),
    };
    let count = match rng.below(12) {
        0 => 254,
        1 => rng.between(20, 253),
        2..=4 => rng.between(2, 20),
        _ => 1,
    };
    let values = rng.bytes(count as usize);
    trace.burst(first, &values);
}

fn writes(trace: &mut TraceBuilder, rng: &mut Rng, most: u64) {
    for _ in 0..rng.between(0, most) {
        write(trace, rng);
    }
}

/// The hub record and up to so many write records.
pub fn right(rng: &mut Rng, most: u64) -> Vec<u8> {
    let mut trace = TraceBuilder::with_hub(values::hub_address(rng), values::start(rng));
    writes(&mut trace, rng, most);
    trace.into_bytes()
}

/// Each offset and each value at least once, one value a record and in bursts.
pub fn every_byte() -> Vec<u8> {
    let mut trace = TraceBuilder::with_hub(0x3D, Start::Board);
    let all: Vec<u8> = (0..=255).collect();
    for &byte in &all {
        trace.write(byte, 255 - byte);
    }
    trace.burst(0x80, &all[..254]);
    trace.burst(0x7E, &all[2..]);
    trace.into_bytes()
}

/// Few bytes with a bit of everything, for edits at each place.
pub fn short() -> Vec<u8> {
    let mut trace = TraceBuilder::with_hub(0x3D, Start::Sheet);
    trace.write(0x4C, 0x0F);
    trace.burst(0xFE, &[0x00, 0x9A, 0x64, 0x01]);
    trace.write(0x58, 0x58);
    trace.into_bytes()
}

/// A record with no text form, each kind in turn, with its right shape or not.
fn no_text(trace: &mut TraceBuilder, rng: &mut Rng, turn: usize, right: bool) {
    let kind = NO_TEXT_FORM[turn % NO_TEXT_FORM.len()];
    let length = match kind {
        READ | FRAME_END => 1,
        LINE => 5,
        _ => 2,
    };
    let mut data: Vec<u8> = (0..length).map(|_| rng.below(2) as u8).collect();
    match (right, kind) {
        (true, _) => {}
        (false, ADDRESS) if rng.one_in(2) => data[1] = rng.pick(&values::BAD_DIRECTIONS),
        (false, _) if rng.one_in(2) => data.push(0),
        (false, _) => drop(data.pop()),
    }
    trace.record(kind, &data);
}

/// What follows the record that decides: in turn writes, a cut record, a record with no text
/// form, nothing.
fn append_rest(trace: &mut TraceBuilder, rng: &mut Rng, turn: usize) {
    match turn % 4 {
        0 => writes(trace, rng, 3),
        1 => trace.raw(&[MARK[0], MARK[1], WRITE, 0x02, 0x4C]),
        2 => no_text(trace, rng, turn / 4, true),
        _ => {}
    }
}

/// What is no record where it stands: wrong shapes, a second hub record, another kind or mark.
fn no_record(trace: &mut TraceBuilder, rng: &mut Rng, turn: usize) {
    match turn % 8 {
        0..=2 => no_text(trace, rng, turn, false),
        3 => trace.record(HUB_ADDRESS, &[0x3D]),
        4 => trace.record(WRITE, &[rng.byte()]),
        5 => trace.record(WRITE, &[]),
        6 => trace.record(rng.pick(&[0x04, 0x0F, 0x13, 0x80, 0xFF]), &[0x4C, 0x0F]),
        _ => trace.raw(&[0x9A, 0x65, WRITE, 0x02, 0x4C, 0x0F]),
    }
}

/// Among writes a record with no text form, and every other time what is no record.
pub fn without_text(rng: &mut Rng, turn: usize) -> Vec<u8> {
    let mut trace = TraceBuilder::with_hub(values::hub_address(rng), values::start(rng));
    writes(&mut trace, rng, 6);
    if turn.is_multiple_of(2) {
        no_text(&mut trace, rng, turn / 2, true);
    } else {
        no_record(&mut trace, rng, turn / 2);
    }
    append_rest(&mut trace, rng, turn / 2 / NO_TEXT_FORM.len());
    trace.into_bytes()
}

/// The first record is right but not the hub's, or the hub's with a wrong length or second byte.
pub fn first(rng: &mut Rng, turn: usize) -> Vec<u8> {
    let mut trace = TraceBuilder::default();
    match turn % 8 {
        0 => write(&mut trace, rng),
        1..=4 => {
            let address = values::hub_address(rng);
            trace.record(HUB_ADDRESS, &no_hub(rng, address, turn));
        }
        _ => no_text(&mut trace, rng, turn, true),
    }
    writes(&mut trace, rng, 3);
    trace.into_bytes()
}

/// The data of a hub record that is none: no byte, another second byte than 0, or more than two.
fn no_hub(rng: &mut Rng, address: u8, turn: usize) -> Vec<u8> {
    match turn % 4 {
        1 => Vec::new(),
        2 => {
            let seconds = values::BAD_SECOND_BYTES;
            vec![address, seconds[turn / 8 % seconds.len()]]
        }
        3 => vec![address, rng.between(1, 255) as u8],
        _ => {
            let zeros = rng.pick(&[2, 2, 3, 254]);
            [vec![address], vec![0; zeros]].concat()
        }
    }
}

/// A hub record with an address that no hub has; every fourth time it is not even a record.
pub fn bad_hub(rng: &mut Rng, turn: usize) -> Vec<u8> {
    let addresses = values::BAD_HUB_ADDRESSES;
    let address = addresses[turn % addresses.len()];
    let mut trace = if rng.one_in(4) {
        let mut trace = TraceBuilder::default();
        let wrong = rng.between(2, 4) as usize;
        trace.record(HUB_ADDRESS, &no_hub(rng, address, wrong));
        trace
    } else {
        TraceBuilder::with_hub(address, values::start(rng))
    };
    append_rest(&mut trace, rng, turn / addresses.len());
    trace.into_bytes()
}

pub fn cut(turn: usize) -> Vec<u8> {
    let mut trace = short();
    trace.truncate(turn % (trace.len() + 1));
    trace
}

/// A trace of the other generator.
pub fn other(rng: &mut Rng, turn: usize) -> Vec<u8> {
    let kind = OTHERS[turn % OTHERS.len()];
    traces::trace(kind, rng, (turn / OTHERS.len()) as u64)
}
