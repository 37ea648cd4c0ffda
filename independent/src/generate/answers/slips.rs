//! What goes wrong in a list of writes: typing errors that leave good lines, lines left out, twice or
//! in another place, pages, aliases and bits that are not what was meant.

use super::setups::{shared, Writes};
use crate::generate::rng::Rng;
use crate::generate::values;
use crate::model::registers::{register, BCC_CONFIG, FPD3_PORT_SEL, FWD_CTL1, SER_ALIAS_ID};

/// Offsets that the model does not follow; those of the data sheet's scripts among them.
const UNMODELLED: [u8; 12] = [
    0x00, 0x02, 0x0C, 0x10, 0x18, 0x23, 0x32, 0x33, 0x6E, 0x6D, 0xB1, 0xFF,
];

fn is_alias(offset: u8) -> bool {
    offset == SER_ALIAS_ID || (0x65..=0x6C).contains(&offset)
}

/// A place in the list whose offset is such; the first place where there is none.
fn place(rng: &mut Rng, writes: &Writes, is_such: impl Fn(u8) -> bool) -> usize {
    let places = (0..writes.len()).filter(|&place| is_such(writes[place].0));
    let places: Vec<usize> = places.collect();
    if places.is_empty() {
        return 0;
    }
    rng.pick(&places)
}

fn any_place(rng: &mut Rng, writes: &Writes) -> usize {
    rng.index(writes.len())
}

/// Another digit in an offset or a value.
fn digit(rng: &mut Rng, byte: u8) -> u8 {
    let shift = rng.pick(&[0, 4]);
    byte ^ (rng.between(1, 15) as u8) << shift
}

/// One error of any sort; an empty list stays.
pub fn slip(rng: &mut Rng, writes: &mut Writes, hub: u8) {
    if writes.is_empty() {
        return;
    }
    let at = any_place(rng, writes);
    match rng.below(12) {
        0 => writes[at].0 = digit(rng, writes[at].0),
        1 | 2 => writes[at].1 = digit(rng, writes[at].1),
        3 => {
            writes.remove(at);
        }
        4 => writes.insert(at, writes[at]),
        5 => {
            let to = any_place(rng, writes);
            let write = writes.remove(at);
            writes.insert(to.min(writes.len()), write);
        }
        6 => writes[at] = (writes[at].1, writes[at].0),
        7 => page(rng, writes),
        8 => alias(rng, writes, hub),
        9 => insert_shared(rng, writes),
        10 => insert_unmodelled(rng, writes),
        _ => bits(rng, writes),
    }
}

/// A selection that is another block's, any other, or none at all.
pub fn page(rng: &mut Rng, writes: &mut Writes) {
    if writes.is_empty() {
        return;
    }
    let is_selection = |offset| offset == FPD3_PORT_SEL;
    let at = place(rng, writes, is_selection);
    match rng.below(6) {
        0 => writes[at] = (FPD3_PORT_SEL, values::selection(rng)),
        1 => writes[at] = (FPD3_PORT_SEL, writes[at].1 & 0x30),
        2 => {
            writes.remove(at);
        }
        _ => writes[at] = writes[place(rng, writes, is_selection)],
    }
}

/// An alias that is odd, off, the hub's own address, or another's; or no pass-through.
pub fn alias(rng: &mut Rng, writes: &mut Writes, hub: u8) {
    if writes.is_empty() {
        return;
    }
    let at = place(rng, writes, is_alias);
    let other = writes[place(rng, writes, is_alias)].1;
    match rng.below(8) {
        0 | 1 => writes[at].1 |= 1,
        2 => writes[at].1 = other,
        3 => writes[at].1 = other | 1,
        4 => writes[at].1 = hub << 1 | rng.below(2) as u8,
        5 => writes[at].1 = rng.below(2) as u8,
        6 => writes.insert(at + 1, (rng.pick(&[0x5C, 0x65, 0x66, 0x6C]), writes[at].1)),
        _ => {
            let at = place(rng, writes, |offset| offset == BCC_CONFIG);
            writes[at].1 &= !0x40;
        }
    }
}

pub fn insert_shared(rng: &mut Rng, writes: &mut Writes) {
    let at = rng.index(writes.len() + 1);
    writes.insert(at, shared(rng));
}

pub fn insert_unmodelled(rng: &mut Rng, writes: &mut Writes) {
    let at = rng.index(writes.len() + 1);
    writes.insert(at, (rng.pick(&UNMODELLED), rng.byte()));
}

/// Bits outside the mask, or a port's forwarding turned round.
fn bits(rng: &mut Rng, writes: &mut Writes) {
    if rng.one_in(3) {
        let at = place(rng, writes, |offset| offset == FWD_CTL1);
        writes[at].1 ^= 0x10 << rng.below(4);
        return;
    }
    let at = place(rng, writes, |offset| register(offset).mask != 0xFF);
    let outside = !register(writes[at].0).mask;
    writes[at].1 |= outside & rng.byte();
}
