//! The findings at single writes: `replaced`, `no-port`, `not-followed`, `bits-ignored`, `no-change`
//! and `odd-alias`. Each byte of a burst is a write of its own.

use super::finding::{About, Finding, Grade, Kind};
use crate::facts::effect::Did;
use crate::facts::run::{Run, Step};
use crate::model::registers::{SER_ALIAS_ID, TARGETS, TARGET_ALIAS_0};

pub fn all(run: &Run) -> Vec<Finding> {
    let mut found = Vec::new();
    for step in &run.steps {
        found.extend(replaced(step));
        found.extend(no_port(step));
        found.extend(not_followed(step));
        found.extend(bits_ignored(step));
        found.extend(no_change(step));
        found.extend(odd_alias(step));
    }
    found
}

/// A finding at this write, with the ports whose register it reached.
fn at(step: &Step, kind: Kind, grade: Grade) -> Finding {
    Finding {
        kind,
        grade,
        lines: vec![step.write.number],
        ports: step.effect.ports().to_vec(),
        about: About::Register(step.write.offset),
    }
}

/// "`replaced`, wrong: a write gives a register of a port another value than it had, and the
/// register's origin is a line of an earlier block. Both lines, the port, the offset; one finding a
/// port."
pub fn replaced(step: &Step) -> Vec<Finding> {
    let mut found = Vec::new();
    for &port in step.effect.changed_ports() {
        if let Some(origin) = step.earlier[usize::from(port)] {
            if origin.block < step.block {
                found.push(Finding {
                    lines: vec![origin.number, step.write.number],
                    ports: vec![port],
                    ..at(step, Kind::Replaced, Grade::Wrong)
                });
            }
        }
    }
    found
}

/// "`no-port`, wrong: a per-port register is written while no port is ticked."
pub fn no_port(step: &Step) -> Option<Finding> {
    let found = step.effect.did == Did::NoPort;
    found.then(|| at(step, Kind::NoPort, Grade::Wrong))
}

/// "`not-followed` (no bit of the register is writable)"
pub fn not_followed(step: &Step) -> Option<Finding> {
    let found = step.effect.did == Did::NotFollowed;
    found.then(|| at(step, Kind::NotFollowed, Grade::Note))
}

/// "`bits-ignored` (a register was reached and the value has bits that are not writable in it)"
pub fn bits_ignored(step: &Step) -> Option<Finding> {
    let found = step.effect.reached() && step.effect.bits_not_writable;
    found.then(|| at(step, Kind::BitsIgnored, Grade::Note))
}

/// "`no-change` (registers were reached and all keep their values)"
pub fn no_change(step: &Step) -> Option<Finding> {
    let found = step.effect.reached() && !step.effect.changed();
    found.then(|| at(step, Kind::NoChange, Grade::Note))
}

/// "`odd-alias` (0x5C or 0x65 to 0x6C of some port gets an odd value: the address is in bits 7 to
/// 1)"
pub fn odd_alias(step: &Step) -> Option<Finding> {
    let is_odd = is_alias(step.write.offset) && step.write.value % 2 == 1;
    let found = is_odd && !step.effect.ports().is_empty();
    found.then(|| at(step, Kind::OddAlias, Grade::Note))
}

/// "0x5C or 0x65 to 0x6C"
pub fn is_alias(offset: u8) -> bool {
    let is_target = (TARGET_ALIAS_0..TARGET_ALIAS_0 + TARGETS).contains(&offset);
    offset == SER_ALIAS_ID || is_target
}
