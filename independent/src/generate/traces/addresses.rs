//! Address questions: few aliases on many targets, so that ports and targets meet often.

use crate::generate::rng::Rng;
use crate::generate::values;
use crate::model::registers::{
    BCC_CONFIG, FPD3_PORT_SEL, SER_ALIAS_ID, SER_ID, TARGETS, TARGET_ALIAS_0, TARGET_ID_0,
};
use crate::model::trace_builder::TraceBuilder;

pub fn trace(rng: &mut Rng) -> Vec<u8> {
    let hub = values::hub_address(rng);
    let mut trace = TraceBuilder::with_hub(hub, values::start(rng));
    let mut pool = vec![hub << 1, 0x00, 0x01];
    for _ in 0..rng.between(1, 5) {
        pool.push(rng.byte());
    }
    for port in 0..4 {
        set_up_port(&mut trace, rng, port, &pool);
    }
    for _ in 0..rng.between(1, 4) {
        ask(&mut trace, rng, &pool);
        change(&mut trace, rng, &pool);
    }
    trace.into_bytes()
}

fn set_up_port(trace: &mut TraceBuilder, rng: &mut Rng, port: u8, pool: &[u8]) {
    trace.write(FPD3_PORT_SEL, 1 << port);
    trace.write(BCC_CONFIG, rng.pick(&[0x58, 0x58, 0x58, 0xC0, 0x18]));
    let serializer_alias = if rng.one_in(3) { rng.pick(pool) } else { 0x00 };
    trace.burst(SER_ID, &[rng.byte(), serializer_alias]);
    for number in 0..TARGETS {
        if rng.one_in(2) {
            trace.write(TARGET_ID_0 + number, rng.byte());
        }
        let alias = if rng.one_in(2) { rng.pick(pool) } else { 0x00 };
        trace.write(TARGET_ALIAS_0 + number, alias ^ (rng.byte() & 1));
    }
}

fn ask(trace: &mut TraceBuilder, rng: &mut Rng, pool: &[u8]) {
    for read_port in 0..4 {
        trace.write(FPD3_PORT_SEL, read_port << 4 | rng.below(16) as u8);
        for alias in pool {
            trace.ask_both(alias >> 1);
        }
        trace.ask_both(rng.byte());
    }
}

/// Moves one alias or the pass-through bit of some ports.
fn change(trace: &mut TraceBuilder, rng: &mut Rng, pool: &[u8]) {
    trace.write(FPD3_PORT_SEL, values::selection(rng));
    match rng.below(3) {
        0 => trace.write(BCC_CONFIG, rng.pick(&[0x58, 0x18, 0x40, 0xBF])),
        1 => trace.write(SER_ALIAS_ID, rng.pick(pool)),
        _ => trace.write(TARGET_ALIAS_0 + rng.below(8) as u8, rng.pick(pool)),
    }
}
