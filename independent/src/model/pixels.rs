//! RAW10 and RAW12: how pixels lie in the payload of a line, and how they are read from it.

use super::format::Format;
use super::refusal::Refusal;

/// Bytes that a line of this many pixels takes; the width is one the format allows.
pub fn payload_length(format: Format, width: usize) -> usize {
    let (pixels, bytes) = format.group();
    width / pixels * bytes
}

/// Pixels in a payload of this many bytes, if it has whole groups, at least one, and is not wider
/// than the limit.
fn payload_width(format: Format, length: usize) -> Option<usize> {
    let (pixels, bytes) = format.group();
    let width = length / bytes * pixels;
    (length.is_multiple_of(bytes) && format.allows_width(width)).then_some(width)
}

/// Fills the payload, whose length is the one `payload_length` gives.
pub fn pack(format: Format, pixels: &[u16], payload: &mut [u8]) {
    match format {
        Format::Raw10 => pack_raw10(pixels, payload),
        Format::Raw12 => pack_raw12(pixels, payload),
    }
}

/// Four pixels in five bytes: the upper eight bits of each, then the low pairs.
fn pack_raw10(pixels: &[u16], payload: &mut [u8]) {
    for (four, bytes) in pixels.chunks_exact(4).zip(payload.chunks_exact_mut(5)) {
        let mut pairs = 0;
        for (i, &pixel) in four.iter().enumerate() {
            bytes[i] = (pixel >> 2) as u8;
            pairs |= ((pixel & 3) as u8) << (2 * i);
        }
        bytes[4] = pairs;
    }
}

/// Two pixels in three bytes: the upper eight bits of each, then the low halves.
fn pack_raw12(pixels: &[u16], payload: &mut [u8]) {
    for (two, bytes) in pixels.chunks_exact(2).zip(payload.chunks_exact_mut(3)) {
        bytes[0] = (two[0] >> 4) as u8;
        bytes[1] = (two[1] >> 4) as u8;
        bytes[2] = (two[0] & 0x0F) as u8 | ((two[1] & 0x0F) as u8) << 4;
    }
}

/// Puts the payload's pixels at the start of the slice, whose rest stays, and counts them. Refusals
/// in order: 3, 17, 8.
pub fn unpack(bits: u8, payload: &[u8], pixels: &mut [u16]) -> Result<usize, Refusal> {
    let format = Format::of_bits(bits).ok_or(Refusal::FormatUnknown)?;
    let width = payload_width(format, payload.len()).ok_or(Refusal::PayloadNotAllowed)?;
    let pixels = pixels.get_mut(..width).ok_or(Refusal::BufferTooSmall)?;
    match format {
        Format::Raw10 => unpack_raw10(payload, pixels),
        Format::Raw12 => unpack_raw12(payload, pixels),
    }
    Ok(width)
}

/// The first four bytes of a group are the upper bits; the last has the low pairs.
fn unpack_raw10(payload: &[u8], pixels: &mut [u16]) {
    for (bytes, four) in payload.chunks_exact(5).zip(pixels.chunks_exact_mut(4)) {
        for (i, pixel) in four.iter_mut().enumerate() {
            let pair = bytes[4] >> (2 * i) & 3;
            *pixel = u16::from(bytes[i]) << 2 | u16::from(pair);
        }
    }
}

/// The first two bytes of a group are the upper bits; the last has the low halves.
fn unpack_raw12(payload: &[u8], pixels: &mut [u16]) {
    for (bytes, two) in payload.chunks_exact(3).zip(pixels.chunks_exact_mut(2)) {
        two[0] = u16::from(bytes[0]) << 4 | u16::from(bytes[2] & 0x0F);
        two[1] = u16::from(bytes[1]) << 4 | u16::from(bytes[2] >> 4);
    }
}
