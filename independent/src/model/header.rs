//! Packet headers: the check byte (ECC) and the repair of one wrong bit.

/// The data bits D0 to D23 each check bit P0 to P5 counts.
pub const COUNTED: [&[u8]; 6] = [
    &[0, 1, 2, 4, 5, 7, 10, 11, 13, 16, 20, 21, 22, 23],
    &[0, 1, 3, 4, 6, 8, 10, 12, 14, 17, 20, 21, 22, 23],
    &[0, 2, 3, 5, 6, 9, 11, 12, 15, 18, 20, 21, 22],
    &[1, 2, 3, 7, 8, 9, 13, 14, 15, 19, 20, 21, 23],
    &[4, 5, 6, 7, 8, 9, 16, 17, 18, 19, 20, 22, 23],
    &[10, 11, 12, 13, 14, 15, 16, 17, 18, 19, 21, 22, 23],
];

/// The same lists as masks.
pub const MASKS: [u32; 6] = masks();

const fn masks() -> [u32; 6] {
    let mut masks = [0; 6];
    let mut k = 0;
    while k < 6 {
        let mut i = 0;
        while i < COUNTED[k].len() {
            masks[k] |= 1 << COUNTED[k][i];
            i += 1;
        }
        k += 1;
    }
    masks
}

fn data_word(first: u8, second: u8, third: u8) -> u32 {
    u32::from(first) | u32::from(second) << 8 | u32::from(third) << 16
}

/// The check byte, counting the ones in the listed bits one by one.
pub fn check_byte_counted(first: u8, second: u8, third: u8) -> u8 {
    let word = data_word(first, second, third);
    let mut check = 0;
    for (k, bits) in COUNTED.iter().enumerate() {
        let ones = bits.iter().filter(|&&bit| word >> bit & 1 == 1).count();
        if ones % 2 == 1 {
            check |= 1 << k;
        }
    }
    check
}

/// The check byte, counting under masks: the form that the packet writer uses.
pub fn check_byte(first: u8, second: u8, third: u8) -> u8 {
    let word = data_word(first, second, third);
    let mut check = 0;
    for (k, mask) in MASKS.iter().enumerate() {
        check |= ((word & mask).count_ones() as u8 & 1) << k;
    }
    check
}

/// Identifier, count or frame number low byte first, check byte.
pub fn header(identifier: u8, count: u16) -> [u8; 4] {
    let [low, high] = count.to_le_bytes();
    [identifier, low, high, check_byte(identifier, low, high)]
}

pub fn is_right(header: [u8; 4]) -> bool {
    header[3] == check_byte_counted(header[0], header[1], header[2])
}

/// A header as it is read: the right one, and the bit 0 to 31 that was mended if one was.
#[derive(Clone, Copy, Debug, PartialEq, Eq)]
pub struct Mended {
    pub header: [u8; 4],
    pub bit: Option<u8>,
}

/// Tries the header as it stands, then with each of its 32 bits turned over.
pub fn repair(header: [u8; 4]) -> Option<Mended> {
    if is_right(header) {
        return Some(Mended { header, bit: None });
    }
    for bit in 0..32u8 {
        let candidate = flipped(header, bit);
        if is_right(candidate) {
            return Some(Mended {
                header: candidate,
                bit: Some(bit),
            });
        }
    }
    None
}

pub fn flipped(header: [u8; 4], bit: u8) -> [u8; 4] {
    let mut other = header;
    other[usize::from(bit / 8)] ^= 1 << (bit % 8);
    other
}
