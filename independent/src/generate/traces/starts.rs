//! The two starts: registers read before anything is written, frames before the largest number is set
//! and after; and hub records that are none.

use super::numbers::set_largest;
use crate::generate::rng::Rng;
use crate::generate::samples::after_the_hub;
use crate::generate::values;
use crate::model::registers::{FPD3_PORT_SEL, FWD_CTL1};
use crate::model::start::STARTS;
use crate::model::trace::HUB_ADDRESS;
use crate::model::trace_builder::TraceBuilder;

/// Each start in turn, and every other time with all registers read at first.
pub fn trace(rng: &mut Rng, turn: u64) -> Vec<u8> {
    let start = STARTS[turn as usize % 2];
    let mut trace = TraceBuilder::with_hub(values::hub_address(rng), start);
    if (turn / 2).is_multiple_of(2) {
        read_all(&mut trace);
    }
    trace.write(FWD_CTL1, rng.below(16) as u8);
    let ports = [rng.below(4) as u8, rng.below(4) as u8];
    for port in ports {
        frames(&mut trace, rng, port);
    }
    set_largest(&mut trace, rng);
    frames(&mut trace, rng, ports[0]);
    trace.into_bytes()
}

/// Those of port 0 before any write.
fn read_all(trace: &mut TraceBuilder) {
    for read_port in 0..4 {
        if read_port > 0 {
            trace.write(FPD3_PORT_SEL, read_port << 4);
        }
        for offset in 0..=255 {
            trace.read(offset);
        }
    }
}

/// Enough of them to come round to 1 under the data sheet's largest number.
fn frames(trace: &mut TraceBuilder, rng: &mut Rng, port: u8) {
    for _ in 0..rng.between(5, 7) {
        trace.start(port, rng.pick(&values::FORMATS));
        trace.end(port);
    }
}

const EDGES: u64 = values::BAD_SECOND_BYTES.len() as u64;

/// The turn from which on the second bytes are 00 to FF, one after the other.
pub const EVERY_SECOND_BYTE: u64 = EDGES;

/// A hub record with a second byte: the edges first, then each there is.
pub fn second_byte(rng: &mut Rng, turn: u64) -> Vec<u8> {
    let second = match values::BAD_SECOND_BYTES.get(turn as usize) {
        Some(&edge) => edge,
        None => (turn - EDGES) as u8,
    };
    with_first(&[address(rng), second])
}

/// A hub record with no byte, or with more than two.
pub fn hub_length(rng: &mut Rng, turn: u64) -> Vec<u8> {
    let length = match turn % 6 {
        0 => 0,
        1 | 2 => 3,
        3 => 255,
        _ => rng.between(4, 254) as usize,
    };
    let mut data = match rng.below(3) {
        0 => rng.bytes(length),
        _ => vec![0; length],
    };
    data.splice(..length.min(1), [address(rng)]);
    data.truncate(length);
    with_first(&data)
}

/// Mostly one that a hub may have.
fn address(rng: &mut Rng) -> u8 {
    match rng.below(3) {
        0 => rng.pick(&values::BAD_HUB_ADDRESSES),
        _ => values::hub_address(rng),
    }
}

/// A hub record of this data, then the whole case.
fn with_first(data: &[u8]) -> Vec<u8> {
    let mut trace = TraceBuilder::default();
    trace.record(HUB_ADDRESS, data);
    trace.raw(&after_the_hub());
    trace.into_bytes()
}
