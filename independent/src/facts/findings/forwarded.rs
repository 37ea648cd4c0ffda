//! The findings about a forwarded port in the end state: `not-set-up` and `no-address`.

use super::finding::{About, Finding, Grade, Kind};
use crate::facts::end_state::{devices, ports};
use crate::facts::origins::lines;
use crate::facts::run::Run;
use crate::model::registers::{FWD_CTL1, PORTS};

fn forwarded(run: &Run) -> Vec<u8> {
    let on = ports(run).into_iter().filter(|port| port.output.is_some());
    on.map(|port| port.port).collect()
}

/// One finding a port. "Line: the origin of 0x20", the write that forwards it.
fn at(run: &Run, kind: Kind, grade: Grade, port: u8) -> Finding {
    Finding {
        kind,
        grade,
        lines: lines([run.origins.shared(FWD_CTL1)]),
        ports: vec![port],
        about: About::Nothing,
    }
}

/// "`not-set-up`, wrong: a forwarded port of which no per-port register was ever reached, while
/// another port's was."
pub fn not_set_up(run: &Run) -> Vec<Finding> {
    let another = (0..PORTS as u8).any(|port| run.origins.reached_port(port));
    let mut found = Vec::new();
    for port in forwarded(run) {
        if another && !run.origins.reached_port(port) {
            found.push(at(run, Kind::NotSetUp, Grade::Wrong, port));
        }
    }
    found
}

/// "`no-address` (a forwarded port of which no device hears a write to any address)"
pub fn no_address(run: &Run) -> Vec<Finding> {
    let mut found = Vec::new();
    for port in forwarded(run) {
        let hears = |address| devices(run, address).iter().any(|it| it.port == port);
        if !(0x00..=0x7F).any(hears) {
            found.push(at(run, Kind::NoAddress, Grade::Note, port));
        }
    }
    found
}
