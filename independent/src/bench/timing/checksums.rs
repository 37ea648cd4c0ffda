//! The checksum (CRC): a payload of a whole line, of a short one, and of 64 bytes.

use super::measurement::Measurement;
use crate::bench::fast::checksum;
use crate::compare::proved;
use crate::generate::rng::Rng;
use std::hint::black_box;

const LENGTHS: [usize; 3] = [6144, 480, 64];

pub fn measurements() -> Vec<Measurement> {
    LENGTHS.map(measurement).into()
}

fn measurement(length: usize) -> Measurement {
    let payload = Rng::new(964).bytes(length);
    let form = |checksum: fn(&[u8]) -> u16| {
        let payload = payload.clone();
        move || checksum(black_box(&payload))
    };
    let bytes = payload.clone();
    Measurement::new(format!("checksum of {length} bytes"))
        .form("proved", move || proved::checksum(black_box(&bytes)))
        .form(
            "byte table, as Linux's crc-ccitt",
            form(checksum::by_byte_table),
        )
        .form("folding of 128-bit lanes", form(checksum::by_folding))
}
