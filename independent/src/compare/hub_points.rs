//! The points about the hub record: both starts, with a right address or not, and each way in which it
//! is none.

use super::coverage::Coverage;
use crate::model::hub::Hub;
use crate::model::start::Start;
use crate::model::trace::{HUB_ADDRESS, MARK};

pub const POINTS: &[&str] = &[
    "H at the board's start",
    "H at the sheet's start",
    "2 at the board's start",
    "2 at the sheet's start",
    "13 for the second byte 01",
    "13 for the second byte FF",
    "13 for a second byte with bit 7 clear",
    "13 for a second byte with bit 7 set",
    "13 for a second byte and an address that no hub has",
    "13 for a hub record without a byte",
    "13 for a hub record of 3 bytes",
    "13 for a hub record of 3 bytes, the others 0",
    "13 for a hub record of 4 bytes or more",
    "13 for a hub record too long and an address that no hub has",
    "13 for a hub record cut in its second byte",
];

/// What the first record of the trace reaches.
pub fn note(coverage: &mut Coverage, trace: &[u8]) {
    let [first, second, HUB_ADDRESS, length, data @ ..] = trace else {
        return;
    };
    if [*first, *second] != MARK {
        return;
    }
    let length = usize::from(*length);
    let Some(data) = data.get(..length) else {
        if let (2, [_]) = (length, data) {
            coverage.note("13 for a hub record cut in its second byte");
        }
        return;
    };
    let no_hub = |address: u8| Hub::new(address, Start::Board).is_err();
    match *data {
        [] => coverage.note("13 for a hub record without a byte"),
        [address] if no_hub(address) => coverage.note("2 at the board's start"),
        [_] => coverage.note("H at the board's start"),
        [address, 0] if no_hub(address) => coverage.note("2 at the sheet's start"),
        [_, 0] => coverage.note("H at the sheet's start"),
        [address, second] => note_second(coverage, second, no_hub(address)),
        [address, ref more @ ..] => note_length(coverage, more, no_hub(address)),
    }
}

fn note_second(coverage: &mut Coverage, second: u8, no_hub: bool) {
    coverage.note(&format!("13 for the second byte {second:02X}"));
    coverage.note(match second {
        0x00..=0x7F => "13 for a second byte with bit 7 clear",
        0x80..=0xFF => "13 for a second byte with bit 7 set",
    });
    if no_hub {
        coverage.note("13 for a second byte and an address that no hub has");
    }
}

/// With the bytes after the address, which are too many.
fn note_length(coverage: &mut Coverage, more: &[u8], no_hub: bool) {
    coverage.note(match more.len() {
        2 => "13 for a hub record of 3 bytes",
        _ => "13 for a hub record of 4 bytes or more",
    });
    if *more == [0, 0] {
        coverage.note("13 for a hub record of 3 bytes, the others 0");
    }
    if no_hub {
        coverage.note("13 for a hub record too long and an address that no hub has");
    }
}
