//! Damaged files: good traces with a byte changed, cut, filled up or ended wrongly, and noise.

use super::traffic;
use crate::generate::rng::Rng;
use crate::generate::samples::whole_case;
use crate::generate::values;
use crate::model::trace::{KINDS, MARK};
use crate::model::trace_builder::TraceBuilder;

/// The whole case in even turns, so that its every place comes up; else a random trace.
fn good(rng: &mut Rng, turn: u64) -> Vec<u8> {
    if turn.is_multiple_of(2) {
        whole_case()
    } else {
        traffic::trace(rng)
    }
}

/// A place from 0 to `limit` - 1: each in turn for the whole case, else any.
fn place(rng: &mut Rng, turn: u64, limit: usize) -> usize {
    if turn.is_multiple_of(2) {
        (turn / 2) as usize % limit.max(1)
    } else {
        rng.index(limit)
    }
}

pub fn changed_byte(rng: &mut Rng, turn: u64) -> Vec<u8> {
    let mut bytes = good(rng, turn);
    let place = place(rng, turn, bytes.len());
    let change = match rng.below(3) {
        0 => 1 << rng.below(8),
        1 => bytes[place].max(1),
        _ => rng.between(1, 255) as u8,
    };
    bytes[place] ^= change;
    bytes
}

pub fn cut(rng: &mut Rng, turn: u64) -> Vec<u8> {
    let mut bytes = good(rng, turn);
    let length = place(rng, turn, bytes.len() + 1);
    bytes.truncate(length);
    bytes
}

pub fn inserted(rng: &mut Rng, turn: u64) -> Vec<u8> {
    let mut bytes = good(rng, turn);
    let place = place(rng, turn, bytes.len() + 1);
    let count = rng.between(1, 3) as usize;
    let extra = match rng.below(3) {
        0 => vec![0; count],
        1 => MARK[..count.min(2)].to_vec(),
        _ => rng.bytes(count),
    };
    bytes.splice(place..place, extra);
    bytes
}

/// The places where records begin.
fn beginnings(bytes: &[u8]) -> Vec<usize> {
    let mut places = Vec::new();
    let mut place = 0;
    while let Some(&length) = bytes.get(place + 3) {
        places.push(place);
        place += 4 + usize::from(length);
    }
    places
}

pub fn broken_mark(rng: &mut Rng, turn: u64) -> Vec<u8> {
    let mut bytes = good(rng, turn);
    let beginnings = beginnings(&bytes);
    let begin = beginnings[place(rng, turn, beginnings.len())];
    match rng.below(4) {
        0 => bytes[begin] = rng.byte(),
        1 => bytes[begin + 1] = rng.byte(),
        2 => bytes.swap(begin, begin + 1),
        _ => drop(bytes.drain(begin..begin + 2)),
    }
    bytes
}

pub fn trailing(rng: &mut Rng, turn: u64) -> Vec<u8> {
    const ENDINGS: [&[u8]; 10] = [
        &[0x9A],
        &[0x9A, 0x64],
        &[0x9A, 0x64, 0x02],
        &[0x9A, 0x64, 0x02, 0x01],
        &[0x9A, 0x64, 0x01, 0x02, 0x4C],
        &[0x9A, 0x64, 0x12, 0x05, 0x00, 0x04],
        &[0x00],
        &[0x0A],
        &[0x0D, 0x0A],
        &[0x64, 0x9A],
    ];
    let mut bytes = good(rng, turn);
    if rng.one_in(4) {
        let count = rng.between(1, 9) as usize;
        bytes.extend(rng.bytes(count));
    } else {
        bytes.extend(ENDINGS[place(rng, turn, ENDINGS.len())]);
    }
    bytes
}

/// Random bytes, or right marks and kinds with anything after them.
pub fn noise(rng: &mut Rng, turn: u64) -> Vec<u8> {
    if turn.is_multiple_of(3) {
        let count = rng.below(300) as usize;
        return rng.bytes(count);
    }
    let mut bytes = TraceBuilder::with_hub(0x3D, values::start(rng)).into_bytes();
    for _ in 0..rng.between(1, 40) {
        bytes.extend(MARK);
        bytes.push(if rng.one_in(12) {
            rng.byte()
        } else {
            rng.pick(&KINDS[1..])
        });
        let length = match bytes[bytes.len() - 1] {
            0x02 | 0x11 => 1,
            0x03 | 0x10 => 2,
            0x12 => 5,
            _ => rng.between(2, 9) as u8,
        };
        let length = if rng.one_in(20) { rng.byte() } else { length };
        bytes.push(length);
        let data = rng.bytes(usize::from(length));
        let small = rng.one_in(2);
        bytes.extend(data.iter().map(|byte| if small { byte & 1 } else { *byte }));
    }
    bytes
}
