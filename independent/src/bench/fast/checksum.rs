//! The checksum (CRC) in two forms: by a table of bytes, which is the ordinary one, and by folding
//! words without a table, which is the proved code's own algorithm. The polynomial has four terms,
//! so the register's shifts by many bits are a few shifts and sums of words.

use crate::model::checksum::by_table;
use std::array::from_fn;

const START: u16 = 0xFFFF;

/// The model's table, as that of Linux's crc-ccitt.
#[inline(never)]
pub fn by_byte_table(payload: &[u8]) -> u16 {
    by_table(payload)
}

type Lane = [u64; 2];
const LANES: usize = 16;
const STEP: usize = 16 * LANES;

/// Below this length the window of lanes costs more than it saves, and words are folded.
const LEAST: usize = 4 * STEP;

/// The lanes that a lane is added to again, later: bits 512, 1408 and 2048. The polynomial to the
/// power 128 has its bits at whole lanes, so a step is sums alone, which become vector
/// instructions.
const LATER: [usize; 3] = [4, 11, 16];

/// Lanes of 128 bits, 256 bytes a step, and words of 64 bits for what is shorter.
#[inline(never)]
pub fn by_folding(payload: &[u8]) -> u16 {
    if payload.len() < LEAST {
        return feed(START, payload);
    }
    let (steps, rest) = payload.as_chunks::<STEP>();
    let Some((first, steps)) = steps.split_first() else {
        return feed(START, rest);
    };
    let mut window = lanes(first);
    window[0][0] ^= u64::from(START);
    for step in steps {
        window = slide_lanes(window, lanes(step));
    }
    let mut bytes = [0; STEP];
    let (words, _) = bytes.as_chunks_mut::<8>();
    for (bytes, word) in words.iter_mut().zip(window.as_flattened()) {
        *bytes = word.to_le_bytes();
    }
    feed(feed(0, &bytes), rest)
}

fn lanes(step: &[u8; STEP]) -> [Lane; LANES] {
    let (words, _) = step.as_chunks::<8>();
    from_fn(|i| from_fn(|j| u64::from_le_bytes(words[2 * i + j])))
}

/// Every lane of the window leaves it, in order, and is added to the later ones.
#[inline]
fn slide_lanes(window: [Lane; LANES], next: [Lane; LANES]) -> [Lane; LANES] {
    let mut all = [[0; 2]; 2 * LANES];
    all[..LANES].copy_from_slice(&window);
    all[LANES..].copy_from_slice(&next);
    for i in 0..LANES {
        let [a, b] = all[i];
        for later in LATER {
            let [c, d] = all[i + later];
            all[i + later] = [a ^ c, b ^ d];
        }
    }
    from_fn(|i| all[LANES + i])
}

/// The running checksum after the next bytes.
fn feed(crc: u16, bytes: &[u8]) -> u16 {
    let (crc, rest) = feed_blocks(crc, bytes);
    let (words, rest) = rest.as_chunks::<8>();
    let crc = words.iter().fold(crc, |crc, word| {
        shifted(u64::from(crc) ^ u64::from_le_bytes(*word))
    });
    feed_rest(crc, rest)
}

/// 64 shifts of a register of 64 bits. The polynomial, low bit first, is 1 + s with bits 4, 11 and
/// 16 in s; the division by it is a product with 1 + s, 1 + s^2, 1 + s^4 and 1 + s^8.
fn shifted(register: u64) -> u16 {
    let a = register ^ register << 4 ^ register << 11 ^ register << 16;
    let b = a ^ a << 8 ^ a << 22 ^ a << 32;
    let c = b ^ b << 16 ^ b << 44;
    let quotient = c ^ c << 32;
    (quotient >> 60 ^ quotient >> 53 ^ quotient >> 48) as u16
}

/// A window of four words stands for all bytes so far; sixteen bytes a step.
fn feed_blocks(crc: u16, bytes: &[u8]) -> (u16, &[u8]) {
    let Some((head, rest)) = bytes.split_first_chunk::<32>() else {
        return (crc, bytes);
    };
    let (head, _) = head.as_chunks::<8>();
    let mut window: [u64; 4] = from_fn(|i| u64::from_le_bytes(head[i]));
    window[0] ^= u64::from(crc);
    let (steps, rest) = rest.as_chunks::<16>();
    for step in steps {
        let (words, _) = step.as_chunks::<8>();
        window = slide(window, u64::from_le_bytes(words[0]));
        window = slide(window, u64::from_le_bytes(words[1]));
    }
    let settled = window
        .iter()
        .fold(0, |crc, word| shifted(u64::from(crc) ^ word));
    (settled, rest)
}

/// The polynomial to the power 16 has bits 0, 64, 176 and 256: the first word leaves the window
/// where it is added again 64, 176 and 256 bits later.
#[inline]
fn slide([first, second, third, fourth]: [u64; 4], next: u64) -> [u64; 4] {
    [
        second ^ first,
        third ^ first << 48,
        fourth ^ first >> 16,
        next ^ first,
    ]
}

/// Fewer than eight bytes, moved by the top bits of a word.
fn feed_rest(crc: u16, bytes: &[u8]) -> u16 {
    let mut last = [0; 8];
    match bytes.len() {
        0 => crc,
        n => {
            last[8 - n..].copy_from_slice(bytes);
            let word = u64::from_le_bytes(last) ^ u64::from(crc) << (64 - 8 * n);
            shifted(word) ^ (u64::from(crc) >> (8 * n)) as u16
        }
    }
}
