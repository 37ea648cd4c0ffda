//! Point 2, what a write did: "selected these ports; reached these ports or the shared register, and
//! which of them changed; nothing, because no port was ticked; nothing, because no bit of the
//! register is writable (the model does not follow it); and whether it had bits that are not
//! writable."

use super::given::Write;
use crate::model::registers::{register, RegisterFile, FPD3_PORT_SEL, PORTS};

#[derive(Clone, Debug, PartialEq, Eq)]
pub enum Did {
    /// 0x4C was written: the ports that are ticked now, and whether the register changed.
    Selected {
        ports: Vec<u8>,
        changed: bool,
    },
    /// Another shared register was reached.
    ReachedShared {
        changed: bool,
    },
    /// The register of these ports was reached, and changed in those.
    ReachedPorts {
        ports: Vec<u8>,
        changed: Vec<u8>,
    },
    NoPort,
    NotFollowed,
}

#[derive(Clone, Debug, PartialEq, Eq)]
pub struct Effect {
    pub did: Did,
    /// Whether the value has bits that are not writable.
    pub bits_not_writable: bool,
}

impl Effect {
    /// What the write did that led from the one register file to the other.
    pub fn of(write: Write, before: &RegisterFile, after: &RegisterFile) -> Effect {
        let row = register(write.offset);
        Effect {
            did: did(write, before, after),
            bits_not_writable: write.value & !row.mask != 0,
        }
    }

    /// Whether some register was reached, the page selection included.
    pub fn reached(&self) -> bool {
        !matches!(self.did, Did::NoPort | Did::NotFollowed)
    }

    /// The ports whose register was reached; none where it is a shared one.
    pub fn ports(&self) -> &[u8] {
        match &self.did {
            Did::ReachedPorts { ports, .. } => ports,
            _ => &[],
        }
    }

    /// The ports whose register changed.
    pub fn changed_ports(&self) -> &[u8] {
        match &self.did {
            Did::ReachedPorts { changed, .. } => changed,
            _ => &[],
        }
    }

    /// Whether some register changed.
    pub fn changed(&self) -> bool {
        match &self.did {
            Did::Selected { changed, .. } | Did::ReachedShared { changed } => *changed,
            Did::ReachedPorts { changed, .. } => !changed.is_empty(),
            Did::NoPort | Did::NotFollowed => false,
        }
    }
}

fn did(write: Write, before: &RegisterFile, after: &RegisterFile) -> Did {
    let row = register(write.offset);
    if row.mask == 0 {
        return Did::NotFollowed;
    }
    if row.per_port {
        let ports = ticked(before);
        if ports.is_empty() {
            return Did::NoPort;
        }
        let differs = |&port: &u8| {
            let on = |file: &RegisterFile| file.on_port(usize::from(port), write.offset);
            on(before) != on(after)
        };
        let changed = ports.iter().copied().filter(differs).collect();
        return Did::ReachedPorts { ports, changed };
    }
    let changed = before.shared(write.offset) != after.shared(write.offset);
    if write.offset == FPD3_PORT_SEL {
        let ports = ticked(after);
        return Did::Selected { ports, changed };
    }
    Did::ReachedShared { changed }
}

/// The ports that bits 3 to 0 of 0x4C tick, rising.
pub fn ticked(registers: &RegisterFile) -> Vec<u8> {
    (0..PORTS)
        .filter(|&port| registers.is_ticked(port))
        .map(|port| port as u8)
        .collect()
}
