//! Single bytes changed, deleted and inserted, at every place in turn.

use crate::generate::rng::Rng;

/// Bytes that have a meaning in a line or in a record, and some next to them.
const SPECIAL: &[u8] = b" \t\n\r\x0B\x0C\0#(),;0129:/@afgAFG`xXWwC2\
    \x01\x02\x03\x10\x11\x12\x13\x64\x7F\x80\x9A\xA0\xFF";

fn byte(rng: &mut Rng) -> u8 {
    if rng.one_in(4) {
        rng.byte()
    } else {
        rng.pick(SPECIAL)
    }
}

pub fn changed(rng: &mut Rng, mut bytes: Vec<u8>, turn: usize) -> Vec<u8> {
    let place = turn % bytes.len().max(1);
    if let Some(old) = bytes.get_mut(place) {
        *old = byte(rng);
    }
    bytes
}

pub fn deleted(mut bytes: Vec<u8>, turn: usize) -> Vec<u8> {
    let place = turn % bytes.len().max(1);
    if place < bytes.len() {
        bytes.remove(place);
    }
    bytes
}

pub fn inserted(rng: &mut Rng, mut bytes: Vec<u8>, turn: usize) -> Vec<u8> {
    let place = turn % (bytes.len() + 1);
    bytes.insert(place, byte(rng));
    bytes
}
