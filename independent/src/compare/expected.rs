//! What each proved function must answer, as one number, by the model: a refusal n
//! is n x 2^56, a corrected bit b is given as 1 + b, and none as 0.

use crate::model::format::Format;
use crate::model::frames::FIRST_LONG_TYPE;
use crate::model::header;
use crate::model::packet;
use crate::model::pixels;
use crate::model::refusal::Refusal;

/// The refusal's number in the top byte.
pub fn refused(refusal: Refusal) -> u64 {
    u64::from(refusal.number()) << 56
}

fn counted(count: Result<usize, Refusal>) -> u64 {
    count.map_or_else(refused, |count| count as u64)
}

fn corrected(bit: Option<u8>) -> u64 {
    bit.map_or(0, |bit| 1 + u64::from(bit))
}

pub fn check_byte(word: u32) -> u8 {
    let [first, second, third, _] = word.to_le_bytes();
    header::check_byte_counted(first, second, third)
}

/// The header, and above its 32 bits which one was corrected.
pub fn correct_header(header: u32) -> u64 {
    match header::repair(header.to_le_bytes()) {
        Some(mended) => u64::from(u32::from_le_bytes(mended.header)) | corrected(mended.bit) << 32,
        None => refused(Refusal::HeaderBeyondRepair),
    }
}

/// Refusals in order: 5, 6, 8.
pub fn pack(format: Format, pixels: &[u16], buffer: &mut [u8], place: usize) -> u64 {
    let packed = format.check_line(pixels).and_then(|()| {
        let length = pixels::payload_length(format, pixels.len());
        let payload = packet::room(buffer, place, length)?;
        pixels::pack(format, pixels, payload);
        Ok(length)
    });
    counted(packed)
}

/// Refusals in order: 3, 17, 8.
pub fn unpack(bits: u8, payload: &[u8], pixels: &mut [u16]) -> u64 {
    counted(pixels::unpack(bits, payload, pixels))
}

/// Refusals in order: 5, 6, 7, 8.
pub fn write_line(
    format: Format,
    pixels: &[u16],
    identifier: u8,
    buffer: &mut [u8],
    place: usize,
) -> u64 {
    let written = format.check_line(pixels).and_then(|()| {
        if identifier & 0x3F < FIRST_LONG_TYPE {
            return Err(Refusal::TypeIsShort);
        }
        packet::write_line(buffer, place, identifier, format, pixels)
    });
    counted(written.map(|written| written.length))
}

/// Data identifier, word count from bit 8, corrected bit from bit 24.
pub fn read_packet(bytes: &[u8]) -> u64 {
    packet::read(bytes).map_or_else(refused, |packet| {
        let (identifier, count) = (u64::from(packet.identifier), u64::from(packet.count));
        identifier | count << 8 | corrected(packet.mended) << 24
    })
}
