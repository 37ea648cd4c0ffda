//! Record shapes: every kind with every short length, as first record and later ones.

use crate::generate::rng::Rng;
use crate::generate::samples::after_the_hub;
use crate::generate::values;
use crate::model::trace_builder::TraceBuilder;

const SHAPED: [u8; 12] = [
    0x00, 0x01, 0x02, 0x03, 0x10, 0x11, 0x12, 0x04, 0x0F, 0x13, 0x80, 0xFF,
];
const LENGTHS: usize = 8;

pub fn trace(rng: &mut Rng, turn: u64) -> Vec<u8> {
    let turn = turn as usize;
    let first = turn % 2 == 1;
    let kind = SHAPED[turn / 2 % SHAPED.len()];
    let length = turn / 2 / SHAPED.len() % LENGTHS;
    let mut trace = if first {
        TraceBuilder::default()
    } else {
        TraceBuilder::with_hub(0x3D, values::start(rng))
    };
    if !first && rng.one_in(2) {
        trace.start(0, 10);
        trace.write(0x4C, rng.byte());
    }
    trace.record(kind, &data(rng, length));
    trace.raw(&after_the_hub());
    trace.into_bytes()
}

/// Small numbers, edges, or anything, so that right shapes mean something.
fn data(rng: &mut Rng, length: usize) -> Vec<u8> {
    let choice = rng.below(3);
    (0..length)
        .map(|_| match choice {
            0 => rng.below(3) as u8,
            1 => rng.pick(&[0x00, 0x01, 0x04, 0x0A, 0x3D, 0x80, 0xFF]),
            _ => rng.byte(),
        })
        .collect()
}
