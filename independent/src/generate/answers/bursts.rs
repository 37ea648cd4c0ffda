//! Long runs of successive offsets: over the page selection, over the end of the offsets, and so far
//! round that one record has writes of two blocks.

use super::setups::Writes;
use crate::generate::rng::Rng;
use crate::generate::values;
use crate::model::registers::{FPD3_PORT_SEL, RAW10_ID, SER_ID, TARGET_ALIAS_0, TARGET_ID_0};

pub fn writes(rng: &mut Rng) -> Writes {
    let mut writes = Writes::new();
    for _ in 0..rng.between(1, 4) {
        if !rng.one_in(4) {
            writes.push((FPD3_PORT_SEL, values::selection(rng)));
        }
        let (first, count) = match rng.below(8) {
            0 => (FPD3_PORT_SEL, rng.between(13, 40)),
            1 => (rng.between(0x40, 0x4B) as u8, rng.between(13, 60)),
            2 => (TARGET_ALIAS_0, rng.between(1, 8)),
            3 => (TARGET_ID_0, rng.between(8, 16)),
            4 => (SER_ID, rng.between(2, 23)),
            5 => (RAW10_ID, rng.between(220, 254)),
            6 => (rng.between(0x58, 0x71) as u8, rng.between(1, 254)),
            _ => (rng.byte(), rng.between(1, 254)),
        };
        run(rng, &mut writes, first, count);
        if first == RAW10_ID && rng.one_in(2) {
            writes.push((RAW10_ID, values::identifier(rng))); // written before 4C by the same record
        }
    }
    if rng.one_in(2) {
        run(rng, &mut writes, 0x20, 2);
    }
    writes
}

fn run(rng: &mut Rng, writes: &mut Writes, first: u8, count: u64) {
    let mut offset = first;
    for _ in 0..count {
        writes.push((offset, values::value(rng, offset)));
        offset = offset.wrapping_add(1);
    }
}
