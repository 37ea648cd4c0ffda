//! The writes run one after the other on a hub as it starts, with what each did and the origins.

use super::effect::{Did, Effect};
use super::given::{Given, Write};
use super::origins::{Origin, Origins};
use crate::model::hub::Hub;
use crate::model::refusal::Refusal;
use crate::model::registers::{FPD3_PORT_SEL, PORTS};

/// A write in its place.
#[derive(Clone, Debug, PartialEq, Eq)]
pub struct Step {
    pub write: Write,
    /// "a block begins at each write to 0x4C": the count of these up to here, this one included; 0
    /// before the first. In a burst the bytes before 0x4C are still of the block before.
    pub block: u64,
    pub effect: Effect,
    /// The origin that the register had on each port before this write; a shared one has none here.
    pub earlier: [Option<Origin>; PORTS],
    /// What the register held on each port before this write and after it, likewise.
    pub before: [u8; PORTS],
    pub after: [u8; PORTS],
}

pub struct Run {
    pub steps: Vec<Step>,
    /// After the last write.
    pub hub: Hub,
    pub origins: Origins,
}

/// An address that no hub has is refused.
pub fn run(given: &Given) -> Result<Run, Refusal> {
    let mut hub = Hub::new(given.hub, given.start)?;
    let mut origins = Origins::default();
    let mut steps = Vec::new();
    let mut block = 0;
    for &write in &given.writes {
        if write.offset == FPD3_PORT_SEL {
            block += 1;
        }
        let before = hub.registers.clone();
        hub.registers.write(write.offset, write.value);
        let step = Step {
            write,
            block,
            effect: Effect::of(write, &before, &hub.registers),
            earlier: [0, 1, 2, 3].map(|port| origins.on_port(port, write.offset)),
            before: [0, 1, 2, 3].map(|port| before.on_port(port, write.offset)),
            after: [0, 1, 2, 3].map(|port| hub.registers.on_port(port, write.offset)),
        };
        note_origin(&mut origins, &step);
        steps.push(step);
    }
    Ok(Run {
        steps,
        hub,
        origins,
    })
}

fn note_origin(origins: &mut Origins, step: &Step) {
    let offset = step.write.offset;
    let origin = Origin {
        number: step.write.number,
        block: step.block,
    };
    match &step.effect.did {
        Did::Selected { .. } | Did::ReachedShared { .. } => origins.reach_shared(offset, origin),
        Did::ReachedPorts { ports, .. } => {
            for &port in ports {
                origins.reach_port(port, offset, origin);
            }
        }
        Did::NoPort | Did::NotFollowed => {}
    }
}
