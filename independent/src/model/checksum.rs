//! The CSI-2 16-bit checksum (CRC): bit by bit as the rule says, and by a byte table for speed.

/// x^16 + x^12 + x^5 + 1, low bit first: the coefficients of x^0 to x^15 from bit 15 down.
const POLYNOMIAL: u16 = 0x8408;
const START: u16 = 0xFFFF;

pub fn bit_by_bit(bytes: &[u8]) -> u16 {
    feed(START, bytes)
}

/// The running checksum after the next bytes.
pub fn feed(crc: u16, bytes: &[u8]) -> u16 {
    let mut crc = crc;
    for &byte in bytes {
        for place in 0..8 {
            let bit = u16::from(byte >> place & 1);
            let carry = (crc & 1) ^ bit;
            crc >>= 1;
            if carry == 1 {
                crc ^= POLYNOMIAL;
            }
        }
    }
    crc
}

const TABLE: [u16; 256] = table();

const fn table() -> [u16; 256] {
    let mut table = [0; 256];
    let mut index = 0;
    while index < 256 {
        let mut value = index as u16;
        let mut bit = 0;
        while bit < 8 {
            value = if value & 1 == 1 {
                value >> 1 ^ POLYNOMIAL
            } else {
                value >> 1
            };
            bit += 1;
        }
        table[index] = value;
        index += 1;
    }
    table
}

pub fn by_table(bytes: &[u8]) -> u16 {
    let mut crc = START;
    for &byte in bytes {
        crc = crc >> 8 ^ TABLE[usize::from(crc as u8 ^ byte)];
    }
    crc
}
