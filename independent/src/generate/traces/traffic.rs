//! Random traffic: every kind of record in any order, biased to offsets and values that matter.

use crate::generate::rng::Rng;
use crate::generate::values;
use crate::model::trace_builder::TraceBuilder;

pub fn trace(rng: &mut Rng) -> Vec<u8> {
    let hub = values::hub_address(rng);
    let mut trace = TraceBuilder::with_hub(hub, values::start(rng));
    for _ in 0..rng.between(5, 200) {
        record(&mut trace, rng, hub);
    }
    trace.into_bytes()
}

fn record(trace: &mut TraceBuilder, rng: &mut Rng, hub: u8) {
    match rng.below(100) {
        0..=24 => {
            let offset = values::offset(rng);
            trace.write(offset, values::value(rng, offset));
        }
        25..=32 => burst(trace, rng),
        33..=46 => trace.read(values::offset(rng)),
        47..=61 => {
            let address = address(rng, hub);
            if rng.one_in(2) {
                trace.ask_write(address);
            } else {
                trace.ask_read(address);
            }
        }
        62..=73 => trace.start(port(rng), format(rng)),
        74..=88 => line(trace, rng),
        _ => trace.end(port(rng)),
    }
}

fn burst(trace: &mut TraceBuilder, rng: &mut Rng) {
    let first = values::offset(rng);
    let count = if rng.one_in(10) {
        254
    } else {
        rng.between(2, 20)
    };
    let mut offset = first;
    let mut bytes = Vec::new();
    for _ in 0..count {
        bytes.push(values::value(rng, offset));
        offset = offset.wrapping_add(1);
    }
    trace.burst(first, &bytes);
}

fn line(trace: &mut TraceBuilder, rng: &mut Rng) {
    let format = rng.pick(&values::FORMATS);
    let width = match rng.below(10) {
        0 => rng.pick(&values::EDGE_WIDTHS),
        1 => rng.word(),
        _ => values::good_width(rng, format),
    };
    let pixel = match rng.below(10) {
        0 => rng.pick(&values::EDGE_PIXELS),
        _ => values::good_pixel(rng, format),
    };
    trace.line(port(rng), width, pixel);
}

fn port(rng: &mut Rng) -> u8 {
    match rng.below(30) {
        0 => rng.pick(&values::BAD_PORTS),
        1 => rng.byte(),
        _ => rng.below(4) as u8,
    }
}

fn format(rng: &mut Rng) -> u8 {
    match rng.below(20) {
        0 => rng.pick(&values::BAD_FORMATS),
        _ => rng.pick(&values::FORMATS),
    }
}

fn address(rng: &mut Rng, hub: u8) -> u8 {
    match rng.below(10) {
        0 => rng.byte(),
        1 => hub,
        2 => rng.pick(&values::EDGE_ADDRESSES),
        _ => rng.pick(&values::MEETING_ALIASES) >> 1,
    }
}
