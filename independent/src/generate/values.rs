//! Values worth trying: ports, formats, widths, offsets, and register values by offset.

use crate::generate::rng::Rng;
use crate::model::registers::{
    BCC_CONFIG, FPD3_PORT_SEL, FWD_CTL1, MAX_FRM_HI, MAX_FRM_LO, RAW10_ID, RAW12_ID, SER_ALIAS_ID,
    SER_ID,
};
use crate::model::start::{Start, STARTS};

pub const BAD_HUB_ADDRESSES: [u8; 6] = [0x00, 0x07, 0x78, 0x7F, 0x80, 0xFF];
/// Second bytes of a hub record that is none.
pub const BAD_SECOND_BYTES: [u8; 7] = [0x01, 0xFF, 0x3D, 0x80, 0x02, 0x7F, 0x04];
pub const BAD_PORTS: [u8; 6] = [4, 5, 7, 127, 128, 255];
pub const FORMATS: [u8; 2] = [10, 12];
pub const BAD_FORMATS: [u8; 9] = [0, 1, 8, 9, 11, 13, 14, 26, 255];
pub const BAD_DIRECTIONS: [u8; 6] = [2, 3, 0x10, 0x80, 0x81, 0xFF];
pub const EDGE_WIDTHS: [u16; 14] = [
    0, 1, 2, 3, 4, 6, 8, 4092, 4094, 4095, 4096, 4097, 4098, 65535,
];
pub const EDGE_PIXELS: [u16; 8] = [0, 1, 0x3FE, 0x3FF, 0x400, 0xFFF, 0x1000, 0xFFFF];
pub const EDGE_TYPES: [u8; 7] = [0x00, 0x01, 0x0F, 0x10, 0x11, 0x2B, 0x3F];
pub const EDGE_ADDRESSES: [u8; 12] = [
    0x00, 0x01, 0x07, 0x08, 0x30, 0x3D, 0x77, 0x78, 0x7F, 0x80, 0xB0, 0xFF,
];
/// Alias registers that meet often: 0x30, 0x31 and 0x0C with either low bit, and the two off.
pub const MEETING_ALIASES: [u8; 8] = [0x60, 0x61, 0x62, 0x63, 0x18, 0x19, 0x00, 0x01];

const OFFSETS: [u8; 42] = [
    0x00, 0x09, 0x0A, 0x0B, 0x0C, 0x19, 0x1A, 0x1B, 0x1C, 0x1D, 0x1E, 0x1F, 0x20, 0x21, 0x22, 0x4B,
    0x4C, 0x4D, 0x57, 0x58, 0x59, 0x5A, 0x5B, 0x5C, 0x5D, 0x5E, 0x64, 0x65, 0x66, 0x6C, 0x6D, 0x6F,
    0x70, 0x71, 0x72, 0xB3, 0xB6, 0xB9, 0xBC, 0xBE, 0xFE, 0xFF,
];

pub fn hub_address(rng: &mut Rng) -> u8 {
    match rng.below(4) {
        0 => 0x08,
        1 => 0x77,
        2 => 0x3D,
        _ => rng.between(0x08, 0x77) as u8,
    }
}

pub fn start(rng: &mut Rng) -> Start {
    rng.pick(&STARTS)
}

pub fn offset(rng: &mut Rng) -> u8 {
    match rng.below(8) {
        0 => rng.byte(),
        1 => FPD3_PORT_SEL,
        2 => rng.between(0x58, 0x71) as u8,
        _ => rng.pick(&OFFSETS),
    }
}

/// A value that does something interesting at the offset.
pub fn value(rng: &mut Rng, offset: u8) -> u8 {
    if rng.one_in(6) {
        return rng.byte();
    }
    match offset {
        FPD3_PORT_SEL => selection(rng),
        BCC_CONFIG => rng.pick(&[0x58, 0x58, 0x58, 0x18, 0x98, 0xD8, 0x40, 0xBF]),
        FWD_CTL1 => forwarding(rng),
        MAX_FRM_HI => rng.pick(&[0x00, 0x00, 0x00, 0x01, 0xFF]),
        MAX_FRM_LO => rng.pick(&[0x00, 0x01, 0x02, 0x03, 0x04, 0xFF]),
        RAW10_ID | RAW12_ID => identifier(rng),
        SER_ID | SER_ALIAS_ID | 0x5D..=0x6C => rng.pick(&MEETING_ALIASES),
        _ => rng.pick(&[0x00, 0xFF, 0xFF, 0x55, 0xAA]),
    }
}

/// For FPD3_PORT_SEL: often all ports, one, or none.
pub fn selection(rng: &mut Rng) -> u8 {
    let ticked = match rng.below(4) {
        0 => 0x0F,
        1 => 1 << rng.below(4),
        2 => 0x00,
        _ => rng.below(16) as u8,
    };
    ticked | (rng.below(4) as u8) << 4 | rng.pick(&[0x00, 0x00, 0xC0])
}

pub fn forwarding(rng: &mut Rng) -> u8 {
    match rng.below(3) {
        0 => rng.below(16) as u8,
        1 => rng.byte(),
        _ => rng.pick(&[0x00, 0x0F, 0xF0, 0xD0, 0x10]),
    }
}

/// A data identifier, mostly of a long type.
pub fn identifier(rng: &mut Rng) -> u8 {
    let data_type = match rng.below(6) {
        0 => rng.pick(&EDGE_TYPES),
        1 => rng.between(0x10, 0x3F) as u8,
        _ => rng.pick(&[0x2B, 0x2C]),
    };
    (rng.below(4) as u8) << 6 | data_type
}

/// A width the format allows: mostly a short one, now and then any.
pub fn good_width(rng: &mut Rng, format: u8) -> u16 {
    let step: u16 = if format == 10 { 4 } else { 2 };
    let most = if rng.one_in(10) { 4096 / step } else { 16 };
    step * rng.between(1, u64::from(most)) as u16
}

pub fn good_pixel(rng: &mut Rng, format: u8) -> u16 {
    rng.word() & if format == 10 { 0x3FF } else { 0xFFF }
}
