//! The two formats of a frame's pixels, RAW10 and RAW12: what a line of each may be.

use super::refusal::Refusal;
use super::registers::{RegisterFile, RAW10_ID, RAW12_ID};

/// Pixels of the widest line.
pub const LARGEST_WIDTH: usize = 4096;

#[derive(Clone, Copy, Debug, PartialEq, Eq)]
pub enum Format {
    Raw10,
    Raw12,
}

impl Format {
    pub fn of_bits(bits: u8) -> Option<Format> {
        match bits {
            10 => Some(Format::Raw10),
            12 => Some(Format::Raw12),
            _ => None,
        }
    }

    /// The pixels of a group, and the bytes that they are packed into.
    pub fn group(self) -> (usize, usize) {
        match self {
            Format::Raw10 => (4, 5),
            Format::Raw12 => (2, 3),
        }
    }

    pub fn allows_width(self, width: usize) -> bool {
        let (pixels, _) = self.group();
        (1..=LARGEST_WIDTH).contains(&width) && width.is_multiple_of(pixels)
    }

    pub fn largest_pixel(self) -> u16 {
        match self {
            Format::Raw10 => 0x3FF,
            Format::Raw12 => 0xFFF,
        }
    }

    /// Refusals in order: 5, 6.
    pub fn check_line(self, pixels: &[u16]) -> Result<(), Refusal> {
        if !self.allows_width(pixels.len()) {
            return Err(Refusal::WidthNotAllowed);
        }
        if pixels.iter().any(|&pixel| pixel > self.largest_pixel()) {
            return Err(Refusal::PixelTooLarge);
        }
        Ok(())
    }

    /// The port's data identifier for this format.
    pub fn identifier(self, registers: &RegisterFile, port: usize) -> u8 {
        match self {
            Format::Raw10 => registers.on_port(port, RAW10_ID),
            Format::Raw12 => registers.on_port(port, RAW12_ID),
        }
    }
}
