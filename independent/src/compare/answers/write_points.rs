//! The points about single writes: what they did, and what was found at them.

use crate::compare::coverage::Coverage;
use crate::facts::effect::Did;
use crate::facts::findings::finding::{About, Finding, Kind};
use crate::facts::run::{Run, Step};
use crate::model::registers::{FPD3_PORT_SEL, PORTS, SER_ALIAS_ID};
use std::collections::BTreeSet;

pub const POINTS: &[&str] = &[
    "replaced on several ports by one write",
    "replaced with several origins by one write",
    "replaced after a block between",
    "replaced where the origin's record began the block",
    "kept by a later block",
    "changed twice in one block",
    "reached in one port, kept in another",
    "no-port before the first selection",
    "no-port after a selection of none",
    "no-port with bits that are not writable",
    "no-port of an odd alias",
    "bits-ignored of 4C",
    "bits-ignored of another shared register",
    "bits-ignored of one port",
    "bits-ignored of several ports",
    "bits-ignored without a change",
    "no-change of 4C",
    "no-change of another shared register",
    "no-change of one port",
    "no-change of several ports",
    "odd-alias of a serializer",
    "odd-alias of a target",
    "odd-alias of several ports",
    "odd-alias 01",
    "odd-alias without a change",
];

pub fn note(coverage: &mut Coverage, run: &Run, findings: &[Finding]) {
    let selections = run
        .steps
        .iter()
        .filter(|it| it.write.offset == FPD3_PORT_SEL);
    let selections: Vec<u64> = selections.map(|it| it.write.number).collect();
    for step in &run.steps {
        note_replaced(coverage, &selections, step);
        note_no_port(coverage, step);
    }
    let kept = found(findings, |it| it.kind == Kind::NoChange);
    for finding in findings {
        note_finding(coverage, finding, &kept);
    }
    let at_writes = found(findings, |_| true);
    let at_writes: BTreeSet<u64> = at_writes.iter().map(|it| it.0).collect();
    for (place, step) in run.steps.iter().enumerate().skip(1) {
        let number = step.write.number;
        if run.steps[place - 1].write.number == number && at_writes.contains(&number) {
            coverage.note("a burst of several findings");
            break;
        }
    }
    let odd = found(findings, |it| it.kind == Kind::OddAlias);
    for step in run.steps.iter().filter(|step| step.write.value == 1) {
        if odd.contains(&(step.write.number, step.write.offset)) {
            coverage.note("odd-alias 01");
        }
    }
}

/// The writes at which such a finding is found: their numbers and registers.
fn found(findings: &[Finding], is_such: impl Fn(&Finding) -> bool) -> BTreeSet<(u64, u8)> {
    let such = findings.iter().filter(|it| is_such(it));
    such.filter_map(|it| match it.about {
        About::Register(offset) => it.lines.last().map(|&line| (line, offset)),
        _ => None,
    })
    .collect()
}

/// With the numbers of the writes that begin the blocks.
fn note_replaced(coverage: &mut Coverage, selections: &[u64], step: &Step) {
    let mut origins = Vec::new();
    let changed = step.effect.changed_ports();
    for port in 0..PORTS as u8 {
        let Some(origin) = step.earlier[usize::from(port)] else {
            continue;
        };
        let earlier_block = origin.block < step.block;
        if !changed.contains(&port) {
            if earlier_block && step.effect.ports().contains(&port) {
                coverage.note("kept by a later block");
            }
            continue;
        }
        if !earlier_block {
            coverage.note("changed twice in one block");
            continue;
        }
        origins.push(origin.number);
        if origin.block + 1 < step.block {
            coverage.note("replaced after a block between");
        }
        if selections[step.block as usize - 1] == origin.number {
            coverage.note("replaced where the origin's record began the block");
        }
    }
    if origins.len() > 1 {
        coverage.note("replaced on several ports by one write");
        if origins.iter().any(|&number| number != origins[0]) {
            coverage.note("replaced with several origins by one write");
        }
    }
    if !changed.is_empty() && changed.len() < step.effect.ports().len() {
        coverage.note("reached in one port, kept in another");
    }
}

fn note_no_port(coverage: &mut Coverage, step: &Step) {
    if step.effect.did != Did::NoPort {
        return;
    }
    coverage.note(match step.block {
        0 => "no-port before the first selection",
        _ => "no-port after a selection of none",
    });
    if step.effect.bits_not_writable {
        coverage.note("no-port with bits that are not writable");
    }
    let is_alias = matches!(step.write.offset, SER_ALIAS_ID | 0x65..=0x6C);
    if is_alias && step.write.value % 2 == 1 {
        coverage.note("no-port of an odd alias");
    }
}

fn note_finding(coverage: &mut Coverage, finding: &Finding, kept: &BTreeSet<(u64, u8)>) {
    let kind = finding.kind.name();
    let About::Register(offset) = finding.about else {
        return;
    };
    let whose = match (finding.ports.len(), offset) {
        (0, FPD3_PORT_SEL) => "of 4C",
        (0, _) => "of another shared register",
        (1, _) => "of one port",
        _ => "of several ports",
    };
    coverage.note(&format!("{kind} {whose}"));
    if finding.kind == Kind::OddAlias {
        coverage.note(match offset {
            SER_ALIAS_ID => "odd-alias of a serializer",
            _ => "odd-alias of a target",
        });
    }
    let is_interesting = matches!(finding.kind, Kind::BitsIgnored | Kind::OddAlias);
    if is_interesting && kept.contains(&(finding.lines[0], offset)) {
        coverage.note(&format!("{kind} without a change"));
    }
}
