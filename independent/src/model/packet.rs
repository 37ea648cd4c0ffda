//! Packets: the writer into a place of the caller's buffer, and the reader with its repair.

use super::checksum;
use super::format::Format;
use super::header::{self, Mended};
use super::pixels;
use super::refusal::Refusal;

pub const LARGEST_SHORT_TYPE: u8 = 0x0F;

/// What was written: the four header bytes and the length of the whole packet.
#[derive(Clone, Copy, Debug, PartialEq, Eq)]
pub struct Written {
    pub header: [u8; 4],
    pub length: usize,
}

pub fn write_short(
    buffer: &mut [u8],
    place: usize,
    identifier: u8,
    number: u16,
) -> Result<Written, Refusal> {
    let header = header::header(identifier, number);
    room(buffer, place, 4)?.copy_from_slice(&header);
    Ok(Written { header, length: 4 })
}

/// Header, payload, checksum; the pixels are ones the format allows.
pub fn write_line(
    buffer: &mut [u8],
    place: usize,
    identifier: u8,
    format: Format,
    pixels: &[u16],
) -> Result<Written, Refusal> {
    let count = pixels::payload_length(format, pixels.len());
    let length = 4 + count + 2;
    let packet = room(buffer, place, length)?;
    let header = header::header(identifier, count as u16);
    packet[..4].copy_from_slice(&header);
    pixels::pack(format, pixels, &mut packet[4..4 + count]);
    let checksum = checksum::by_table(&packet[4..4 + count]);
    packet[4 + count..].copy_from_slice(&checksum.to_le_bytes());
    Ok(Written { header, length })
}

/// The part of the buffer the packet goes to, or refusal 8.
pub(crate) fn room(buffer: &mut [u8], place: usize, length: usize) -> Result<&mut [u8], Refusal> {
    let free = buffer.get_mut(place..).ok_or(Refusal::BufferTooSmall)?;
    free.get_mut(..length).ok_or(Refusal::BufferTooSmall)
}

/// A packet as it was read from the start of the caller's bytes.
#[derive(Clone, Copy, Debug, PartialEq, Eq)]
pub struct Packet<'a> {
    pub identifier: u8,
    /// The word count of a long packet, the data field of a short one.
    pub count: u16,
    /// The header bit that was mended, if one was.
    pub mended: Option<u8>,
    pub payload: &'a [u8],
    pub length: usize,
}

/// Refusals in order: 12 under four bytes, 10, 12, 11.
pub fn read(bytes: &[u8]) -> Result<Packet<'_>, Refusal> {
    let &[b0, b1, b2, b3, ..] = bytes else {
        return Err(Refusal::TooFewBytes);
    };
    let Mended { header, bit } =
        header::repair([b0, b1, b2, b3]).ok_or(Refusal::HeaderBeyondRepair)?;
    let count = u16::from_le_bytes([header[1], header[2]]);
    let (payload, length) = if header[0] & 0x3F <= LARGEST_SHORT_TYPE {
        (&bytes[..0], 4)
    } else {
        let payload = read_payload(&bytes[4..], usize::from(count))?;
        (payload, 4 + payload.len() + 2)
    };
    Ok(Packet {
        identifier: header[0],
        count,
        mended: bit,
        payload,
        length,
    })
}

fn read_payload(rest: &[u8], count: usize) -> Result<&[u8], Refusal> {
    let long = rest.get(..count + 2).ok_or(Refusal::TooFewBytes)?;
    let (payload, sent) = long.split_at(count);
    if checksum::bit_by_bit(payload).to_le_bytes() != sent {
        return Err(Refusal::ChecksumWrong);
    }
    Ok(payload)
}

/// The payload alone; empty on refusal.
pub fn payload(bytes: &[u8]) -> &[u8] {
    match read(bytes) {
        Ok(packet) => packet.payload,
        Err(_) => &[],
    }
}
