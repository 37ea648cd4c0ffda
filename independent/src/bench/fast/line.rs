//! A RAW12 line as a whole packet, from the fast parts: header, payload, checksum.

use super::{checksum, ecc, pack};
use crate::model::packet::{room, LARGEST_SHORT_TYPE};
use crate::model::refusal::Refusal;

/// Writes the packet from the place; the bytes written.
#[inline(never)]
pub fn write_raw12_line(
    pixels: &[u16],
    identifier: u8,
    buf: &mut [u8],
    place: usize,
) -> Result<usize, Refusal> {
    pack::test_pixels::<2>(pixels, 0xFFF)?;
    if identifier & 0x3F <= LARGEST_SHORT_TYPE {
        return Err(Refusal::TypeIsShort);
    }
    let count = pixels.len() / 2 * 3;
    let packet = room(buf, place, 4 + count + 2)?;
    let word = u32::from(identifier) | (count as u32) << 8;
    let header = word | u32::from(ecc::check_byte(word)) << 24;
    let (head, body) = packet.split_at_mut(4);
    let (payload, sum) = body.split_at_mut(count);
    head.copy_from_slice(&header.to_le_bytes());
    pack::put_raw12(pixels, payload);
    sum.copy_from_slice(&checksum::by_folding(payload).to_le_bytes());
    Ok(4 + count + 2)
}
