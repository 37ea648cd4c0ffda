//! Point 3, may the blocks be run in any order? "Of the writes that the model follows: shared ones at
//! the start, then a block from each write to 0x4C on, then shared ones at the end", and "whether
//! these blocks are setup blocks with no port ticked twice". The decision stands here twice: by the
//! shape of the whole list, and by the writes that break it.

use super::given::Write;
use crate::model::registers::{register, FPD3_PORT_SEL, PORTS};

/// The writes that the model follows: some bit of the register is writable.
fn followed(writes: &[Write]) -> Vec<Write> {
    let is_followed = |write: &Write| register(write.offset).mask != 0;
    writes.iter().copied().filter(is_followed).collect()
}

fn is_selection(write: &Write) -> bool {
    write.offset == FPD3_PORT_SEL
}

fn is_per_port(write: &Write) -> bool {
    register(write.offset).per_port
}

/// A shared register other than 0x4C.
fn is_other_shared(write: &Write) -> bool {
    !is_selection(write) && !is_per_port(write)
}

/// Bits 3 to 0 tick the ports to be written.
fn ticks(selection: &Write, port: usize) -> bool {
    selection.value >> port & 1 == 1
}

/// The decision by the shape of the list.
pub fn any_order(writes: &[Write]) -> bool {
    let writes = followed(writes);
    let mut middle = &writes[..];
    while let [first, rest @ ..] = middle {
        if !is_other_shared(first) {
            break;
        }
        middle = rest;
    }
    while let [rest @ .., last] = middle {
        if !is_other_shared(last) {
            break;
        }
        middle = rest;
    }
    let blocks = blocks(middle);
    blocks.iter().all(|block| is_setup_block(block)) && disjoint(&blocks)
}

/// A block from each write to 0x4C on; what stands before the first is a block of its own.
pub fn blocks(writes: &[Write]) -> Vec<Vec<Write>> {
    let mut blocks: Vec<Vec<Write>> = Vec::new();
    for &write in writes {
        match blocks.last_mut() {
            Some(block) if !is_selection(&write) => block.push(write),
            _ => blocks.push(vec![write]),
        }
    }
    blocks
}

/// Document 01: "of its bytes, in order, the first goes to 0x4C and every later one to an offset
/// marked P".
fn is_setup_block(block: &[Write]) -> bool {
    match block {
        [first, rest @ ..] => is_selection(first) && rest.iter().all(is_per_port),
        [] => false,
    }
}

/// No port is ticked by two of the blocks.
fn disjoint(blocks: &[Vec<Write>]) -> bool {
    (0..PORTS).all(|port| {
        let ticking = blocks.iter().filter(|block| ticks(&block[0], port));
        ticking.count() <= 1
    })
}

/// "Else every write that breaks it and why (which two selections tick the port; a shared register
/// inside; no selection yet)."
#[derive(Clone, Copy, Debug, PartialEq, Eq)]
pub enum Why {
    /// The port, and the number of the latest earlier selection that ticked it.
    PortTwice {
        port: u8,
        earlier: u64,
    },
    /// "a shared register other than 0x4C is written after the first selection, and a selection or
    /// a per-port write follows"
    SharedInBlock,
    NoSelectionYet,
}

#[derive(Clone, Copy, Debug, PartialEq, Eq)]
pub struct Break {
    pub write: Write,
    pub why: Why,
}

pub fn breaks(writes: &[Write]) -> Vec<Break> {
    let writes = followed(writes);
    let last_of_a_block = writes.iter().rposition(|write| !is_other_shared(write));
    let mut breaks = Vec::new();
    let mut selected = false;
    let mut latest = [None; PORTS];
    for (place, write) in writes.iter().enumerate() {
        let mut add = |why| breaks.push(Break { write: *write, why });
        if is_selection(write) {
            selected = true;
            for port in (0..PORTS).filter(|&port| ticks(write, port)) {
                if let Some(earlier) = latest[port].replace(write.number) {
                    let port = port as u8;
                    add(Why::PortTwice { port, earlier });
                }
            }
        } else if is_per_port(write) {
            if !selected {
                add(Why::NoSelectionYet);
            }
        } else if selected && last_of_a_block.is_some_and(|last| place < last) {
            add(Why::SharedInBlock);
        }
    }
    breaks
}
