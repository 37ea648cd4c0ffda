//! The reader of a packet, from the fast parts.

use super::{checksum, ecc};
use crate::model::packet::LARGEST_SHORT_TYPE;
use crate::model::refusal::Refusal;

/// What the header of an accepted packet says.
#[derive(Clone, Copy, Debug, PartialEq, Eq)]
pub struct Accepted {
    pub data_identifier: u8,
    pub word_count: u16,
    pub corrected: Option<u8>,
}

#[inline(never)]
pub fn read_packet(bytes: &[u8]) -> Result<Accepted, Refusal> {
    let (head, body) = bytes.split_first_chunk().ok_or(Refusal::TooFewBytes)?;
    let (header, corrected) = ecc::correct_by_table(u32::from_le_bytes(*head))?;
    let accepted = Accepted {
        data_identifier: header as u8,
        word_count: (header >> 8) as u16,
        corrected,
    };
    if accepted.data_identifier & 0x3F <= LARGEST_SHORT_TYPE {
        return Ok(accepted);
    }
    let count = usize::from(accepted.word_count);
    let long = body.get(..count + 2).ok_or(Refusal::TooFewBytes)?;
    let (payload, sum) = long.split_at(count);
    if checksum::by_folding(payload).to_le_bytes() != sum {
        return Err(Refusal::ChecksumWrong);
    }
    Ok(accepted)
}
