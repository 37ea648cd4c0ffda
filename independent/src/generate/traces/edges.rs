//! Edge values: widths, pixels, types, ports, formats, addresses and aliases at their borders.

use crate::generate::rng::Rng;
use crate::generate::values;
use crate::model::registers::{
    BCC_CONFIG, FPD3_PORT_SEL, FWD_CTL1, RAW10_ID, RAW12_ID, SER_ALIAS_ID, SER_ID, TARGET_ALIAS_0,
    TARGET_ID_0,
};
use crate::model::trace_builder::TraceBuilder;

pub fn trace(rng: &mut Rng, turn: u64) -> Vec<u8> {
    let bad = values::BAD_HUB_ADDRESSES;
    let hub = match turn as usize % 20 {
        place if place < bad.len() => bad[place],
        place if place % 2 == 0 => 0x08,
        _ => 0x77,
    };
    let mut trace = TraceBuilder::with_hub(hub, values::start(rng));
    let port = rng.below(4) as u8;
    trace.write(FPD3_PORT_SEL, 1 << port | (rng.below(4) as u8) << 4);
    match turn % 5 {
        0 => ports_and_formats(&mut trace, rng),
        1 => addresses(&mut trace, rng, port),
        2 => types(&mut trace, rng, port),
        3 => widths_and_pixels(&mut trace, rng, port, 10),
        _ => widths_and_pixels(&mut trace, rng, port, 12),
    }
    trace.into_bytes()
}

fn widths_and_pixels(trace: &mut TraceBuilder, rng: &mut Rng, port: u8, format: u8) {
    trace.write(FWD_CTL1, values::forwarding(rng));
    trace.start(port, format);
    for width in values::EDGE_WIDTHS {
        let pixels = [rng.pick(&values::EDGE_PIXELS), 0x3FF, 0xFFF, 0x1000];
        for pixel in pixels {
            trace.line(port, width, pixel);
        }
    }
    let width = values::good_width(rng, format);
    for pixel in values::EDGE_PIXELS {
        trace.line(port, width, pixel);
    }
    trace.end(port);
}

fn types(trace: &mut TraceBuilder, rng: &mut Rng, port: u8) {
    for format in values::FORMATS {
        trace.write(FWD_CTL1, rng.below(16) as u8);
        trace.start(port, format);
        for data_type in values::EDGE_TYPES {
            let channel = rng.below(4) as u8;
            let (used, other) = if format == 10 {
                (RAW10_ID, RAW12_ID)
            } else {
                (RAW12_ID, RAW10_ID)
            };
            trace.write(used, channel << 6 | data_type);
            trace.write(other, values::identifier(rng));
            trace.line(port, 8, values::good_pixel(rng, format));
            trace.write(FWD_CTL1, 0xF0);
            trace.line(port, 8, values::good_pixel(rng, format));
            trace.write(FWD_CTL1, rng.below(16) as u8);
        }
        trace.end(port);
    }
}

fn ports_and_formats(trace: &mut TraceBuilder, rng: &mut Rng) {
    trace.write(FWD_CTL1, values::forwarding(rng));
    let mut ports = vec![0, 1, 2, 3];
    ports.extend(values::BAD_PORTS);
    for port in ports {
        for format in values::BAD_FORMATS {
            trace.start(port, format);
        }
        let format = rng.pick(&values::FORMATS);
        trace.line(port, 4, 1);
        trace.end(port);
        trace.start(port, format);
        trace.start(port, format);
        trace.line(port, 4, 1);
        trace.end(port);
        trace.line(port, 4, 1);
        trace.end(port);
    }
}

fn addresses(trace: &mut TraceBuilder, rng: &mut Rng, port: u8) {
    trace.write(BCC_CONFIG, rng.pick(&[0x40, 0x58, 0xFF]));
    for alias in [0x00, 0x01, 0x02, 0x03, 0x0E, 0x10, 0xEE, 0xF0, 0xFE, 0xFF] {
        trace.burst(SER_ID, &[rng.byte(), rng.pick(&[alias, 0x00, 0x01])]);
        let number = rng.below(8) as u8;
        trace.write(TARGET_ID_0 + number, rng.pick(&[0x00, 0x01, 0xFE, 0xFF]));
        trace.write(TARGET_ALIAS_0 + number, alias);
        for address in values::EDGE_ADDRESSES {
            trace.ask_both(address);
        }
    }
    trace.write(BCC_CONFIG, 0x98);
    for address in values::EDGE_ADDRESSES {
        trace.ask_both(address);
    }
    trace.read(SER_ALIAS_ID);
    trace.write(FPD3_PORT_SEL, port << 4);
    trace.read(SER_ALIAS_ID);
}
