//! The check byte (ECC) by counts of ones, by columns or by a table for each byte; header repair
//! by its syndrome, searched among 32 columns or looked up in a table.

use crate::model::header::MASKS;
use crate::model::refusal::Refusal;

/// The syndrome that each of the 32 bits makes when it is flipped.
static COLUMNS: [u8; 32] = columns();

/// The check byte of each of the three bytes alone.
static CHECKS: [[u8; 256]; 3] = checks();

/// For each syndrome the bit that makes it, or `NO_BIT`.
static BITS: [u8; 256] = bits();
const NO_BIT: u8 = 0xFF;

const fn columns() -> [u8; 32] {
    let mut columns = [0; 32];
    let mut bit = 0;
    while bit < 32 {
        columns[bit] = syndrome(1 << bit);
        bit += 1;
    }
    columns
}

const fn checks() -> [[u8; 256]; 3] {
    let mut checks = [[0; 256]; 3];
    let mut i = 0;
    while i < 3 * 256 {
        let (place, byte) = (i / 256, i % 256);
        checks[place][byte] = check_bits((byte as u32) << (8 * place));
        i += 1;
    }
    checks
}

const fn bits() -> [u8; 256] {
    let mut bits = [NO_BIT; 256];
    let mut bit = 0;
    while bit < 32 {
        bits[syndrome(1 << bit) as usize] = bit;
        bit += 1;
    }
    bits
}

const fn check_bits(word: u32) -> u8 {
    let mut check = 0;
    let mut k = 0;
    while k < 6 {
        check |= ((word & MASKS[k]).count_ones() % 2) << k;
        k += 1;
    }
    check as u8
}

/// How the check byte that the header has differs from the one that it should have.
const fn syndrome(header: u32) -> u8 {
    check_bits(header & 0xFF_FFFF) ^ (header >> 24) as u8
}

/// The check byte of a header whose first three bytes are the low 24 bits.
#[inline(never)]
pub fn check_byte(word: u32) -> u8 {
    check_bits(word)
}

#[inline(never)]
pub fn check_byte_by_columns(word: u32) -> u8 {
    let mut check = 0;
    for (place, column) in COLUMNS[..24].iter().enumerate() {
        let bit = (word >> place & 1) as u8;
        check ^= column & bit.wrapping_neg();
    }
    check
}

#[inline(never)]
pub fn check_byte_by_table(word: u32) -> u8 {
    let [first, second, third, _] = word.to_le_bytes();
    CHECKS[0][usize::from(first)] ^ CHECKS[1][usize::from(second)] ^ CHECKS[2][usize::from(third)]
}

/// A header as it is read: the right one, and the bit that was corrected if one was.
pub type Corrected = (u32, Option<u8>);

#[inline(never)]
pub fn correct_by_search(header: u32) -> Result<Corrected, Refusal> {
    let syndrome = syndrome(header);
    if syndrome == 0 {
        return Ok((header, None));
    }
    match COLUMNS.iter().position(|&column| column == syndrome) {
        Some(bit) => Ok((header ^ 1 << bit, Some(bit as u8))),
        None => Err(Refusal::HeaderBeyondRepair),
    }
}

#[inline(never)]
pub fn correct_by_table(header: u32) -> Result<Corrected, Refusal> {
    let syndrome = syndrome(header);
    if syndrome == 0 {
        return Ok((header, None));
    }
    match BITS[usize::from(syndrome)] {
        NO_BIT => Err(Refusal::HeaderBeyondRepair),
        bit => Ok((header ^ 1 << bit, Some(bit))),
    }
}
