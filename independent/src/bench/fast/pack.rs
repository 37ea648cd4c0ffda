//! RAW10 and RAW12 packing: width, pixels and room are tested once, and the loop has no test. Once
//! pixel by pixel, once four pixels at a time in a word.

use crate::model::format::LARGEST_WIDTH;
use crate::model::packet::room;
use crate::model::refusal::Refusal;

#[inline(never)]
pub fn raw10(pixels: &[u16], buf: &mut [u8], place: usize) -> Result<usize, Refusal> {
    let payload = payload::<4, 5>(pixels, 0x3FF, buf, place)?;
    let (fives, _) = payload.as_chunks_mut::<5>();
    for (four, five) in pixels.as_chunks::<4>().0.iter().zip(fives) {
        let bytes = raw10_word(four).to_le_bytes();
        five.copy_from_slice(&bytes[..5]);
    }
    Ok(payload.len())
}

#[inline(never)]
pub fn raw10_by_pixels(pixels: &[u16], buf: &mut [u8], place: usize) -> Result<usize, Refusal> {
    let payload = payload::<4, 5>(pixels, 0x3FF, buf, place)?;
    let (fives, _) = payload.as_chunks_mut::<5>();
    for (four, five) in pixels.as_chunks::<4>().0.iter().zip(fives) {
        *five = raw10_bytes(*four);
    }
    Ok(payload.len())
}

#[inline(never)]
pub fn raw12(pixels: &[u16], buf: &mut [u8], place: usize) -> Result<usize, Refusal> {
    let payload = payload::<2, 3>(pixels, 0xFFF, buf, place)?;
    put_raw12(pixels, payload);
    Ok(payload.len())
}

#[inline(never)]
pub fn raw12_by_pixels(pixels: &[u16], buf: &mut [u8], place: usize) -> Result<usize, Refusal> {
    let payload = payload::<2, 3>(pixels, 0xFFF, buf, place)?;
    let (threes, _) = payload.as_chunks_mut::<3>();
    for (two, three) in pixels.as_chunks::<2>().0.iter().zip(threes) {
        *three = raw12_bytes(*two);
    }
    Ok(payload.len())
}

/// The part of the buffer that the payload goes to, once the pixels are tested; a group has so many
/// pixels and so many bytes.
#[inline]
fn payload<'a, const PIXELS: usize, const BYTES: usize>(
    pixels: &[u16],
    largest: u16,
    buf: &'a mut [u8],
    place: usize,
) -> Result<&'a mut [u8], Refusal> {
    test_pixels::<PIXELS>(pixels, largest)?;
    room(buf, place, pixels.len() / PIXELS * BYTES)
}

/// Four RAW10 pixels as five bytes.
#[inline]
fn raw10_bytes([a, b, c, d]: [u16; 4]) -> [u8; 5] {
    [
        (a >> 2) as u8,
        (b >> 2) as u8,
        (c >> 2) as u8,
        (d >> 2) as u8,
        (a & 3 | (b & 3) << 2 | (c & 3) << 4 | d << 6) as u8,
    ]
}

/// Two RAW12 pixels as three bytes.
#[inline]
fn raw12_bytes([a, b]: [u16; 2]) -> [u8; 3] {
    [(a >> 4) as u8, (b >> 4) as u8, (a & 0x0F | b << 4) as u8]
}

/// The width is a multiple of a group, and no pixel has a bit above the largest one's.
#[inline]
pub(super) fn test_pixels<const GROUP: usize>(pixels: &[u16], largest: u16) -> Result<(), Refusal> {
    let width = pixels.len();
    if width == 0 || width > LARGEST_WIDTH || !width.is_multiple_of(GROUP) {
        return Err(Refusal::WidthNotAllowed);
    }
    if pixels.iter().fold(0, |all, pixel| all | pixel) > largest {
        return Err(Refusal::PixelTooLarge);
    }
    Ok(())
}

fn word(pixels: &[u16; 4]) -> u64 {
    let [a, b, c, d] = pixels.map(u64::from);
    a | b << 16 | c << 32 | d << 48
}

/// Four RAW10 pixels as the 40 bits of their five bytes.
#[inline]
fn raw10_word(pixels: &[u16; 4]) -> u64 {
    let word = word(pixels);
    let upper = word >> 2 & 0x00FF_00FF_00FF_00FF;
    let upper = (upper | upper >> 8) & 0x0000_FFFF_0000_FFFF;
    let upper = (upper | upper >> 16) & 0xFFFF_FFFF;
    let low = word & 0x0003_0003_0003_0003;
    let low = (low | low >> 14 | low >> 28 | low >> 42) & 0xFF;
    upper | low << 32
}

/// Four RAW12 pixels as the 48 bits of their six bytes.
#[inline]
fn raw12_word(pixels: &[u16; 4]) -> u64 {
    let word = word(pixels);
    let upper = word >> 4 & 0x00FF_00FF_00FF_00FF;
    let upper = (upper | upper >> 8) & 0x0000_FFFF_0000_FFFF;
    let low = word & 0x000F_000F_000F_000F;
    let low = (low | low >> 12) & 0x0000_00FF_0000_00FF;
    let twice = upper | low << 16;
    twice & 0xFF_FFFF | twice >> 32 << 24
}

/// The pixels' groups are whole, and the payload has their length.
#[inline]
pub(super) fn put_raw12(pixels: &[u16], payload: &mut [u8]) {
    let (fours, rest) = pixels.as_chunks::<4>();
    let (sixes, last) = payload.as_chunks_mut::<6>();
    for (four, six) in fours.iter().zip(sixes) {
        let bytes = raw12_word(four).to_le_bytes();
        six.copy_from_slice(&bytes[..6]);
    }
    if let ([a, b], [_, _, _]) = (rest, &last) {
        last.copy_from_slice(&raw12_bytes([*a, *b]));
    }
}
