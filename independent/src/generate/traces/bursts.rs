//! Bursts: long ones, over the end of the offsets, and over the page selection on the way.

use crate::generate::rng::Rng;
use crate::generate::values;
use crate::model::registers::FPD3_PORT_SEL;
use crate::model::trace_builder::TraceBuilder;

const LISTED: [(u8, u8); 11] = [
    (0x0A, 0x0B),
    (0x19, 0x21),
    (0x4C, 0x4C),
    (0x58, 0x58),
    (0x5B, 0x6C),
    (0x70, 0x71),
    (0xB3, 0xB3),
    (0xB6, 0xB6),
    (0xB9, 0xB9),
    (0xBC, 0xBE),
    (0xFE, 0xFF),
];

pub fn trace(rng: &mut Rng) -> Vec<u8> {
    let mut trace = TraceBuilder::with_hub(values::hub_address(rng), values::start(rng));
    for _ in 0..rng.between(1, 4) {
        trace.write(FPD3_PORT_SEL, values::selection(rng));
        burst(&mut trace, rng);
    }
    trace.read(FPD3_PORT_SEL);
    for read_port in 0..4 {
        trace.write(FPD3_PORT_SEL, read_port << 4);
        for (low, high) in LISTED {
            for offset in low..=high {
                trace.read(offset);
            }
        }
    }
    trace.into_bytes()
}

fn burst(trace: &mut TraceBuilder, rng: &mut Rng) {
    let first = match rng.below(4) {
        0 => rng.byte(),
        1 => rng.between(0x40, 0x4C) as u8,
        2 => rng.between(0xB0, 0xFF) as u8,
        _ => values::offset(rng),
    };
    let count = match rng.below(3) {
        0 => 254,
        1 => rng.between(1, 8) as usize,
        _ => rng.between(20, 253) as usize,
    };
    let mut bytes = rng.bytes(count);
    let selection = usize::from(FPD3_PORT_SEL.wrapping_sub(first));
    if selection < bytes.len() {
        bytes[selection] = values::selection(rng);
    }
    trace.burst(first, &bytes);
}
