//! Refusals in their order: every set of an event's refusal conditions present at once.

use crate::generate::rng::Rng;
use crate::generate::values;
use crate::model::registers::{
    BCC_CONFIG, FPD3_PORT_SEL, FWD_CTL1, RAW10_ID, RAW12_ID, TARGET_ALIAS_0, TARGET_ID_0,
};
use crate::model::trace_builder::TraceBuilder;

pub fn trace(rng: &mut Rng, turn: u64) -> Vec<u8> {
    let mut trace = TraceBuilder::with_hub(0x3D, values::start(rng));
    match turn % 4 {
        0 => starts(&mut trace, rng),
        1 => ends(&mut trace, rng),
        2 => addresses(&mut trace, rng),
        _ => lines(&mut trace, rng),
    }
    malformed(&mut trace, rng);
    trace.into_bytes()
}

/// The port itself, or one above 3 that shares its two low bits.
fn named(rng: &mut Rng, port: u8, above_three: bool) -> u8 {
    if above_three {
        port | rng.pick(&[0x04, 0x08, 0x10, 0x80, 0xFC])
    } else {
        port
    }
}

fn starts(trace: &mut TraceBuilder, rng: &mut Rng) {
    for conditions in 0..16u8 {
        let [above_three, bad_format, open, dropped] = bits(conditions);
        let port = rng.below(4) as u8;
        trace.write(FWD_CTL1, forwarding(rng, port, dropped));
        if open {
            trace.start(port, rng.pick(&values::FORMATS));
        }
        let format = if bad_format {
            rng.pick(&values::BAD_FORMATS)
        } else {
            rng.pick(&values::FORMATS)
        };
        trace.start(named(rng, port, above_three), format);
        trace.end(port);
    }
}

fn ends(trace: &mut TraceBuilder, rng: &mut Rng) {
    for conditions in 0..8u8 {
        let [above_three, closed, dropped, _] = bits(conditions);
        let port = rng.below(4) as u8;
        trace.write(FWD_CTL1, forwarding(rng, port, dropped));
        if !closed {
            trace.start(port, rng.pick(&values::FORMATS));
        }
        trace.end(named(rng, port, above_three));
        trace.end(port);
    }
}

fn lines(trace: &mut TraceBuilder, rng: &mut Rng) {
    for conditions in 0..64u8 {
        let [above_three, closed, bad_width, bad_pixel] = bits(conditions);
        let [short_type, dropped, _, _] = bits(conditions >> 4);
        let port = rng.below(4) as u8;
        let format = rng.pick(&values::FORMATS);
        set_type(trace, rng, port, format, short_type);
        trace.write(FWD_CTL1, forwarding(rng, port, dropped));
        trace.start(port, format);
        if closed {
            trace.end(port);
        }
        let width = if bad_width {
            rng.pick(&[0, 1, 3, 7, 4097, 4098, 65535])
        } else {
            values::good_width(rng, format)
        };
        let pixel = if bad_pixel {
            rng.pick(&[0x1000, 0x4000, 0xFFFF])
        } else {
            values::good_pixel(rng, format)
        };
        trace.line(named(rng, port, above_three), width, pixel);
        if !closed {
            trace.end(port);
        }
    }
}

/// Gives the format's identifier a short or a long type and the other one the contrary.
fn set_type(trace: &mut TraceBuilder, rng: &mut Rng, port: u8, format: u8, short_type: bool) {
    let channel = (rng.below(4) as u8) << 6;
    let short = channel | rng.below(0x10) as u8;
    let long = channel | rng.between(0x10, 0x3F) as u8;
    let raw10_is_short = short_type == (format == 10);
    let (raw10, raw12) = if raw10_is_short {
        (short, long)
    } else {
        (long, short)
    };
    trace.write(FPD3_PORT_SEL, 1 << port);
    trace.write(RAW10_ID, raw10);
    trace.write(RAW12_ID, raw12);
}

fn addresses(trace: &mut TraceBuilder, rng: &mut Rng) {
    let address = rng.between(0x40, 0x7F) as u8;
    let read_port = rng.below(4) as u8;
    for ticked in 0..16u8 {
        trace.write(FPD3_PORT_SEL, 0x0F);
        trace.write(BCC_CONFIG, 0x18);
        trace.write(FPD3_PORT_SEL, ticked | read_port << 4);
        let number = rng.below(8) as u8;
        trace.write(BCC_CONFIG, 0x58);
        trace.write(TARGET_ID_0 + number, rng.byte());
        trace.write(TARGET_ALIAS_0 + number, address << 1 | (rng.byte() & 1));
        trace.ask_both(address);
        trace.ask_both(address | 0x80);
    }
}

/// A last record that is malformed and would be refused for another reason as well.
fn malformed(trace: &mut TraceBuilder, rng: &mut Rng) {
    let direction = rng.pick(&values::BAD_DIRECTIONS);
    match rng.below(10) {
        0 => trace.record(0x03, &[0xFF, direction]),
        8 => trace.record(0x03, &[0x30, direction]),
        9 => trace.record(0x12, &[0x00, 0x04, 0x00, 0x00, 0x00, 0x00]),
        1 => trace.record(0x03, &[0xFF]),
        2 => trace.record(0x10, &[0x04]),
        3 => trace.record(0x10, &[0x04, 0x00, 0x00]),
        4 => trace.record(0x11, &[]),
        5 => trace.record(0x12, &[0x04, 0x00, 0x00, 0xFF]),
        6 => trace.record(0x00, &[0xFF]),
        _ => trace.raw(&[0x9A, 0x64, 0x12, 0x05, 0x04, 0x00, 0x00]),
    }
}

fn forwarding(rng: &mut Rng, port: u8, dropped: bool) -> u8 {
    let bit = 0x10 << port;
    let value = rng.byte() & !bit;
    if dropped {
        value | bit
    } else {
        value
    }
}

fn bits(value: u8) -> [bool; 4] {
    [0, 1, 2, 3].map(|bit| value >> bit & 1 == 1)
}
