//! Register writes as installers mean them: cameras in blocks of their own, broadcasts, ports whose
//! pictures share a channel, ports that are set up again. All are lists of offset and value.

use crate::generate::rng::Rng;
use crate::generate::values;
use crate::model::registers::{
    BCC_CONFIG, FPD3_PORT_SEL, FWD_CTL1, FWD_CTL2, RAW10_ID, RAW12_ID, SER_ALIAS_ID, SER_ID,
    TARGET_ALIAS_0, TARGET_ID_0,
};

pub type Writes = Vec<(u8, u8)>;

/// Shared registers that the model follows, the page selection left out.
pub const SHARED: [u8; 16] = [
    0x0A, 0x0B, 0x19, 0x1A, 0x1B, 0x1C, 0x1D, 0x1E, 0x1F, 0x20, 0x21, 0xB3, 0xB6, 0xB9, 0xBC, 0xBE,
];

/// Values of FWD_CTL2: both outputs round robin or synchronized, lines merged on one or on both.
const FORWARDING_MODES: [u8; 10] = [0x03, 0x14, 0x28, 0x3C, 0x08, 0x0C, 0x20, 0x30, 0x18, 0x24];

fn some_ports(rng: &mut Rng) -> Vec<u8> {
    let mut ports = vec![0, 1, 2, 3];
    rng.shuffle(&mut ports);
    ports.truncate(rng.pick(&[1, 2, 3, 4, 4, 4]));
    ports
}

/// Ticks one port, and mostly reads it too.
fn select(rng: &mut Rng, port: u8) -> (u8, u8) {
    let read = if rng.one_in(4) {
        rng.below(4) as u8
    } else {
        port
    };
    (FPD3_PORT_SEL, 1 << port | read << 4)
}

/// A camera behind a port: its alias is its own, and its channel the port's or one of two.
fn camera(rng: &mut Rng, port: u8) -> Writes {
    let mut writes = vec![(BCC_CONFIG, 0x58)];
    if rng.one_in(3) {
        writes.extend([(SER_ID, 0xB0), (SER_ALIAS_ID, 0x20 + 2 * port)]);
    }
    let number = if rng.one_in(4) { rng.below(8) as u8 } else { 0 };
    writes.push((TARGET_ID_0 + number, 0x60));
    writes.push((TARGET_ALIAS_0 + number, 0x62 + 2 * port));
    let channel = if rng.one_in(3) { port % 2 } else { port };
    writes.push((RAW10_ID, channel << 6 | 0x2B));
    if rng.one_in(3) {
        writes.push((RAW12_ID, channel << 6 | 0x2C));
    }
    writes
}

/// Which ports are forwarded, often those that were set up.
fn forwarding(rng: &mut Rng, ports: &[u8]) -> (u8, u8) {
    let off = ports.iter().fold(0xF0, |off, port| off & !(0x10 << port));
    let value = match rng.below(4) {
        0 => values::forwarding(rng),
        1 => rng.below(16) as u8,
        _ => off | rng.pick(&[0x00, 0x0C, 0x0F, 0x05]),
    };
    (FWD_CTL1, value)
}

pub fn shared(rng: &mut Rng) -> (u8, u8) {
    let offset = rng.pick(&SHARED);
    (offset, values::value(rng, offset))
}

/// A block for each camera, with shared registers before or after.
pub fn cameras(rng: &mut Rng) -> Writes {
    let mut writes = Writes::new();
    if rng.one_in(3) {
        writes.push(shared(rng));
    }
    let ports = some_ports(rng);
    let forwards_first = rng.one_in(4);
    if forwards_first {
        writes.push(forwarding(rng, &ports));
    }
    for &port in &ports {
        writes.push(select(rng, port));
        writes.extend(camera(rng, port));
    }
    if !forwards_first && !rng.one_in(5) {
        writes.push(forwarding(rng, &ports));
    }
    if rng.one_in(4) {
        writes.push((FWD_CTL2, rng.pick(&FORWARDING_MODES)));
    }
    writes
}

/// Several ports ticked at once; then perhaps blocks for single ones.
pub fn broadcast(rng: &mut Rng) -> Writes {
    let ticked = if rng.one_in(2) {
        0x0F
    } else {
        values::selection(rng) & 0x0F
    };
    let mut writes = vec![(FPD3_PORT_SEL, ticked | (rng.below(4) as u8) << 4)];
    writes.extend(camera(rng, 0));
    for port in some_ports(rng) {
        if rng.one_in(3) {
            writes.push(select(rng, port));
            let mut own = camera(rng, port);
            own.truncate(rng.index(own.len() + 1));
            writes.extend(own);
        }
    }
    writes.push(forwarding(rng, &[0, 1, 2, 3]));
    writes
}

/// Channels that meet, with every mode of forwarding.
pub fn merged(rng: &mut Rng) -> Writes {
    let mut writes = Writes::new();
    let channel = rng.below(4) as u8;
    let registers = rng.pick(&[&[RAW10_ID][..], &[RAW12_ID], &[RAW10_ID, RAW12_ID]]);
    for port in some_ports(rng) {
        let selection = if rng.one_in(6) {
            (FPD3_PORT_SEL, values::selection(rng))
        } else {
            select(rng, port)
        };
        writes.push(selection);
        for &register in registers {
            let channel = if rng.one_in(5) {
                rng.below(4) as u8
            } else {
                channel
            };
            writes.push((register, channel << 6 | rng.pick(&[0x2B, 0x2C, 0x1F])));
        }
    }
    writes.push((FWD_CTL2, rng.pick(&FORWARDING_MODES)));
    let value = if rng.one_in(2) {
        rng.pick(&[0x00, 0x0F, 0x0C])
    } else {
        values::forwarding(rng)
    };
    writes.push((FWD_CTL1, value));
    writes
}

/// A port is set up by two blocks or more, with the same values or with others.
pub fn again(rng: &mut Rng) -> Writes {
    let mut writes = cameras(rng);
    for _ in 0..rng.between(1, 2) {
        let port = rng.below(4) as u8;
        writes.push(select(rng, port));
        let own = if rng.one_in(2) {
            port
        } else {
            rng.below(4) as u8
        };
        let mut block = camera(rng, own);
        if rng.one_in(2) {
            block.extend(camera(rng, port));
        }
        writes.extend(block);
    }
    if rng.one_in(4) {
        writes.extend(unheard(rng));
    }
    if rng.one_in(2) {
        writes.push(forwarding(rng, &[0, 1, 2, 3]));
    }
    writes
}

/// A block after which nobody hears a camera's address, though not because its alias was replaced:
/// the alias has the other bit 0, or was hidden by the serializer's.
fn unheard(rng: &mut Rng) -> Writes {
    let port = rng.below(4) as u8;
    let alias = 0x62 + 2 * port;
    let mut writes = vec![select(rng, port)];
    if rng.one_in(2) {
        writes.extend([(TARGET_ALIAS_0, alias | 1), (BCC_CONFIG, 0x18)]);
    } else {
        writes.push((SER_ALIAS_ID, alias));
        writes.extend([(TARGET_ALIAS_0, 0x70), (SER_ALIAS_ID, 0x72)]);
    }
    writes
}
