//! Frame numbers: largest numbers of every size, changed on the way, and the wrap at 65535.

use crate::generate::rng::Rng;
use crate::generate::values;
use crate::model::registers::{FWD_CTL1, MAX_FRM_HI, MAX_FRM_LO};
use crate::model::trace_builder::TraceBuilder;

pub fn trace(rng: &mut Rng) -> Vec<u8> {
    let mut trace = TraceBuilder::with_hub(values::hub_address(rng), values::start(rng));
    trace.write(FWD_CTL1, rng.below(16) as u8);
    for _ in 0..rng.between(2, 6) {
        set_largest(&mut trace, rng);
        for _ in 0..rng.between(1, 12) {
            let port = rng.pick(&[0, 0, 0, 1, 2, 3]);
            trace.start(port, rng.pick(&values::FORMATS));
            if rng.one_in(8) {
                set_largest(&mut trace, rng);
            }
            if rng.one_in(8) {
                trace.write(FWD_CTL1, values::forwarding(rng));
            }
            trace.end(port);
        }
    }
    trace.into_bytes()
}

pub fn set_largest(trace: &mut TraceBuilder, rng: &mut Rng) {
    let largest: u16 = match rng.below(4) {
        0 => rng.word(),
        1 => rng.pick(&[0, 1, 0xFF, 0x100, 0x101, 0xFFFE, 0xFFFF]),
        _ => rng.below(6) as u16,
    };
    let [high, low] = largest.to_be_bytes();
    match rng.below(3) {
        0 => trace.write(MAX_FRM_LO, low),
        _ => trace.burst(MAX_FRM_HI, &[high, low]),
    }
}

/// More than 65535 frames under the largest number there is.
pub fn wrap_at_65535(rng: &mut Rng) -> Vec<u8> {
    let mut trace = TraceBuilder::with_hub(values::hub_address(rng), values::start(rng));
    let port = rng.below(4) as u8;
    trace.burst(MAX_FRM_HI, &[0xFF, 0xFF]);
    trace.write(FWD_CTL1, 0x0F & rng.byte());
    for frame in 0..65_540u32 {
        trace.start(port, if frame % 2 == 0 { 10 } else { 12 });
        trace.end(port);
    }
    trace.into_bytes()
}
