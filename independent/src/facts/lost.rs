//! The lost addresses of docs/SHOW.md: "An address that nobody hears at the end, that a device of a
//! port heard until a write gave an alias of the port another value, and that no later write gives to
//! an alias".

use super::findings::at_writes::{is_alias, replaced};
use super::given::Given;
use super::run::{Run, Step};
use crate::model::addresses::{Direction, Heard};
use crate::model::hub::Hub;
use std::collections::BTreeMap;

/// "the line that had set the alias, and that of the last such write", and whether it is a `replaced`.
#[derive(Clone, Copy, Debug, PartialEq, Eq)]
pub struct Lost {
    pub set: u64,
    pub changed: u64,
    pub is_replaced: bool,
}

/// By address; of the last such write "the highest port counts".
pub fn lost(given: &Given, run: &Run) -> BTreeMap<u8, Lost> {
    let mut lost = BTreeMap::new();
    let Ok(mut hub) = Hub::new(given.hub, given.start) else {
        return lost; // there would be no run
    };
    for step in run.steps.iter() {
        let before = hub.clone();
        hub.registers.write(step.write.offset, step.write.value);
        if !is_alias(step.write.offset) {
            continue;
        }
        for &port in step.effect.changed_ports() {
            let address = step.before[usize::from(port)] >> 1;
            if hears(&before, port, address) && !hears(&hub, port, address) {
                lost.insert(address, loss(step, port));
            }
        }
        if !step.effect.ports().is_empty() {
            lost.remove(&(step.write.value >> 1));
        }
    }
    let nobody = |address| run.hub.who_hears(address, Direction::Write) == Ok(Heard::Nobody);
    lost.retain(|&address, _| nobody(address));
    lost
}

fn loss(step: &Step, port: u8) -> Lost {
    let origin = step.earlier[usize::from(port)];
    let mut found = replaced(step).into_iter();
    Lost {
        set: origin.map_or(0, |origin| origin.number),
        changed: step.write.number,
        is_replaced: found.any(|finding| finding.ports == [port]),
    }
}

/// Whether a device of the port hears a write to the address.
fn hears(hub: &Hub, port: u8, address: u8) -> bool {
    match hub.who_hears(address, Direction::Write) {
        Ok(Heard::Devices(devices)) => devices.iter().flatten().any(|device| device.port == port),
        _ => false,
    }
}
