//! RAW10 and RAW12 unpacking: payload and room are tested once, and the loop has no test. Once
//! pixel by pixel; once RAW10 with a table of the low pairs, and RAW12 eight pixels at a time in a
//! vector of SSE2, which every x86-64 processor has (on another processor, left to the compiler).

#![allow(unsafe_code)]

use crate::model::format::LARGEST_WIDTH;
use crate::model::refusal::Refusal;
use std::array::from_fn;

/// The low pairs of four pixels, for every last byte of a RAW10 group.
static LOW_PAIRS: [[u16; 4]; 256] = low_pairs();

const fn low_pairs() -> [[u16; 4]; 256] {
    let mut table = [[0; 4]; 256];
    let mut last = 0;
    while last < table.len() {
        let pairs = last as u16;
        table[last] = [pairs & 3, pairs >> 2 & 3, pairs >> 4 & 3, pairs >> 6];
        last += 1;
    }
    table
}

#[inline(never)]
pub fn raw10(payload: &[u8], pixels: &mut [u16]) -> Result<usize, Refusal> {
    let pixels = room::<5, 4>(payload, pixels)?;
    let (tens, last) = payload.as_chunks::<10>();
    let (eights, rest) = pixels.as_chunks_mut::<8>();
    for (ten, eight) in tens.iter().zip(eights) {
        *eight = raw10_eight(ten);
    }
    put_raw10(last, rest);
    Ok(pixels.len())
}

#[inline(never)]
pub fn raw10_by_pixels(payload: &[u8], pixels: &mut [u16]) -> Result<usize, Refusal> {
    let pixels = room::<5, 4>(payload, pixels)?;
    put_raw10(payload, pixels);
    Ok(pixels.len())
}

#[inline(never)]
pub fn raw12(payload: &[u8], pixels: &mut [u16]) -> Result<usize, Refusal> {
    let pixels = room::<3, 2>(payload, pixels)?;
    let (steps, last) = payload.as_chunks::<24>();
    let (sixteens, rest) = pixels.as_chunks_mut::<16>();
    for (bytes, sixteen) in steps.iter().zip(sixteens) {
        let word =
            |at| u32::from_le_bytes([bytes[at], bytes[at + 1], bytes[at + 2], bytes[at + 3]]);
        let (eights, _) = sixteen.as_chunks_mut::<8>();
        eights[0] = raw12_eight([word(0), word(3), word(6), word(9)]);
        eights[1] = raw12_eight([word(12), word(15), word(18), word(20) >> 8]);
    }
    put_raw12(last, rest);
    Ok(pixels.len())
}

#[inline(never)]
pub fn raw12_by_pixels(payload: &[u8], pixels: &mut [u16]) -> Result<usize, Refusal> {
    let pixels = room::<3, 2>(payload, pixels)?;
    put_raw12(payload, pixels);
    Ok(pixels.len())
}

/// The part of the slice that the pixels go to; a group has so many bytes and so many pixels.
#[inline]
fn room<'a, const BYTES: usize, const PIXELS: usize>(
    payload: &[u8],
    pixels: &'a mut [u16],
) -> Result<&'a mut [u16], Refusal> {
    let length = payload.len();
    let width = length / BYTES * PIXELS;
    if length == 0 || width > LARGEST_WIDTH || !length.is_multiple_of(BYTES) {
        return Err(Refusal::PayloadNotAllowed);
    }
    pixels.get_mut(..width).ok_or(Refusal::BufferTooSmall)
}

/// The payload's groups are whole, and there is a pixel for each of theirs.
#[inline]
fn put_raw10(payload: &[u8], pixels: &mut [u16]) {
    let (fives, _) = payload.as_chunks::<5>();
    let (fours, _) = pixels.as_chunks_mut::<4>();
    for (five, four) in fives.iter().zip(fours) {
        *four = raw10_pixels(*five);
    }
}

/// The same for RAW12.
#[inline]
fn put_raw12(payload: &[u8], pixels: &mut [u16]) {
    let (threes, _) = payload.as_chunks::<3>();
    let (twos, _) = pixels.as_chunks_mut::<2>();
    for (three, two) in threes.iter().zip(twos) {
        *two = raw12_pixels(*three);
    }
}

/// Four RAW10 pixels from five bytes.
#[inline]
fn raw10_pixels(bytes: [u8; 5]) -> [u16; 4] {
    let [a, b, c, d, low] = bytes.map(u16::from);
    [
        a << 2 | low & 3,
        b << 2 | low >> 2 & 3,
        c << 2 | low >> 4 & 3,
        d << 2 | low >> 6,
    ]
}

/// Two RAW12 pixels from three bytes.
#[inline]
fn raw12_pixels([a, b, low]: [u8; 3]) -> [u16; 2] {
    [
        u16::from(a) << 4 | u16::from(low & 0x0F),
        u16::from(b) << 4 | u16::from(low >> 4),
    ]
}

/// Eight RAW10 pixels from two groups. The compiler makes vectors of it.
#[inline]
fn raw10_eight(bytes: &[u8; 10]) -> [u16; 8] {
    let [a, b, c, d, first, e, f, g, h, second] = *bytes;
    let low = [first, second].map(|last| LOW_PAIRS[usize::from(last)]);
    let upper = [a, b, c, d, e, f, g, h];
    from_fn(|i| u16::from(upper[i]) << 2 | low[i / 4][i % 4])
}

/// Eight RAW12 pixels from four groups, each in the low three bytes of its word. A product is that
/// of signed 16-bit numbers, and two neighbours are added: the first byte times 2^4 and the low
/// half; the second byte and the high half, moved down a bit so that no number is negative, both
/// times 2^13, which leaves them in the upper 16 bits.
#[cfg(target_arch = "x86_64")]
#[inline]
fn raw12_eight([a, b, c, d]: [u32; 4]) -> [u16; 8] {
    use std::arch::x86_64::{
        __m128i, _mm_and_si128, _mm_madd_epi16, _mm_or_si128, _mm_set1_epi32, _mm_set_epi32,
        _mm_srli_epi32,
    };
    // SAFETY: every x86-64 processor has SSE2, and any 128 bits are eight numbers of 16 bits.
    unsafe {
        let groups = _mm_set_epi32(d as i32, c as i32, b as i32, a as i32);
        let even = _mm_and_si128(groups, _mm_set1_epi32(0x000F_00FF));
        let even = _mm_madd_epi16(even, _mm_set1_epi32(0x0001_0010));
        let odd = _mm_and_si128(_mm_srli_epi32::<1>(groups), _mm_set1_epi32(0x0078_7F80));
        let odd = _mm_madd_epi16(odd, _mm_set1_epi32(0x2000_2000));
        std::mem::transmute::<__m128i, [u16; 8]>(_mm_or_si128(even, odd))
    }
}

#[cfg(not(target_arch = "x86_64"))]
#[inline]
fn raw12_eight(groups: [u32; 4]) -> [u16; 8] {
    from_fn(|i| {
        let [first, second, low, _] = groups[i / 2].to_le_bytes();
        raw12_pixels([first, second, low])[i % 2]
    })
}
