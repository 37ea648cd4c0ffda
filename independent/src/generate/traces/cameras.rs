//! Four-camera set-ups: every port selected and configured, frames on all ports, then address
//! questions for all relevant addresses in both directions.

use crate::generate::rng::Rng;
use crate::generate::values;
use crate::model::registers::{
    BCC_CONFIG, FPD3_PORT_SEL, FWD_CTL1, MAX_FRM_HI, RAW10_ID, SER_ID, TARGETS, TARGET_ALIAS_0,
    TARGET_ID_0,
};
use crate::model::trace_builder::TraceBuilder;

pub fn trace(rng: &mut Rng) -> Vec<u8> {
    let hub = values::hub_address(rng);
    let mut trace = TraceBuilder::with_hub(hub, values::start(rng));
    let mut addresses = set_up(&mut trace, rng);
    addresses.extend([hub, 0x00, rng.byte() & 0x7F]);
    for _ in 0..rng.between(1, 3) {
        frames(&mut trace, rng);
    }
    for read_port in 0..4 {
        trace.write(FPD3_PORT_SEL, read_port << 4 | rng.below(16) as u8);
        for &address in &addresses {
            trace.ask_both(address);
        }
        trace.read(rng.between(0x58, 0x71) as u8);
    }
    trace.into_bytes()
}

/// Configures all four ports in any order; the addresses that now find devices.
pub fn set_up(trace: &mut TraceBuilder, rng: &mut Rng) -> Vec<u8> {
    let mut addresses = vec![0x0C, 0x30];
    let mut ports = [0, 1, 2, 3];
    rng.shuffle(&mut ports);
    for port in ports {
        set_up_port(trace, rng, port, &mut addresses);
    }
    trace.write(FWD_CTL1, values::forwarding(rng));
    if rng.one_in(2) {
        let largest = [0, rng.below(4) as u8];
        trace.burst(MAX_FRM_HI, &largest);
    }
    addresses.sort_unstable();
    addresses.dedup();
    addresses
}

fn set_up_port(trace: &mut TraceBuilder, rng: &mut Rng, port: u8, addresses: &mut Vec<u8>) {
    trace.write(FPD3_PORT_SEL, 1 << port | port << 4);
    let pass_through = [0x58, 0x58, 0x58, 0x58, 0xD8, 0x18, 0x98];
    trace.write(BCC_CONFIG, rng.pick(&pass_through));
    let serializer_alias = rng.pick(&[0x18, 0x18, 0x20 + 2 * port, 0x00]);
    trace.burst(SER_ID, &[0xB0 | (rng.byte() & 1), serializer_alias]);
    let count = rng.between(1, u64::from(TARGETS)) as u8;
    let ids: Vec<u8> = (0..count).map(|_| rng.byte()).collect();
    let aliases: Vec<u8> = (0..count)
        .map(|number| match rng.below(4) {
            0 => rng.pick(&values::MEETING_ALIASES),
            _ => 0x80 + port * 0x10 + number * 2,
        })
        .collect();
    trace.burst(TARGET_ID_0, &ids);
    trace.burst(TARGET_ALIAS_0, &aliases);
    trace.burst(RAW10_ID, &[port << 6 | 0x2B, values::identifier(rng)]);
    addresses.push(serializer_alias >> 1);
    addresses.extend(aliases.iter().map(|alias| alias >> 1));
}

/// One frame on every port at once, its lines taking turns.
fn frames(trace: &mut TraceBuilder, rng: &mut Rng) {
    let formats = [0; 4].map(|_| rng.pick(&values::FORMATS));
    let mut ports = [0u8, 1, 2, 3];
    rng.shuffle(&mut ports);
    for port in ports {
        trace.start(port, formats[usize::from(port)]);
    }
    for _ in 0..rng.between(1, 4) {
        for port in ports {
            let format = formats[usize::from(port)];
            let width = values::good_width(rng, format);
            trace.line(port, width, values::good_pixel(rng, format));
        }
    }
    rng.shuffle(&mut ports);
    for port in ports {
        trace.end(port);
    }
}
