//! The notes of check's screen: "Each kind with its count, and below it the numbers".

use super::names::{counted, ports};
use super::numbers::long;
use super::page::Page;
use super::things::{named, things, Thing};
use super::Subject;
use crate::facts::findings::at_writes::odd_alias;
use crate::facts::findings::finding::{Finding, Kind};
use crate::model::registers::FPD3_PORT_SEL;
use std::collections::BTreeSet;

/// "Of `odd-alias` each of the first ten is explained".
const MOST_EXPLAINED: usize = 10;

/// The kinds of which the numbers are listed, with the words for one write and for several.
const AT_WRITES: [(Kind, &str, &str); 4] = [
    (
        Kind::SharedInBlock,
        "write to a shared register between the blocks",
        "writes to shared registers between the blocks",
    ),
    (
        Kind::NotFollowed,
        "write to a register that this model does not follow",
        "writes to registers that this model does not follow",
    ),
    (
        Kind::BitsIgnored,
        "write with bits that cannot be written",
        "writes with bits that cannot be written",
    ),
    (
        Kind::NoChange,
        "write that changes nothing",
        "writes that change nothing",
    ),
];

pub fn print(page: &mut Page, subject: &Subject) {
    let mut notes = Page::default();
    print_selections(&mut notes, subject);
    for (kind, one, several) in AT_WRITES {
        print_numbers(
            &mut notes,
            subject,
            kind,
            &subject.numbers(kind),
            one,
            several,
        );
    }
    print_odd(&mut notes, subject);
    print_unreached(&mut notes, subject);
    let notes = notes.into_bytes();
    if !notes.is_empty() {
        page.empty_line();
        page.line("Notes");
        page.bytes(&notes);
    }
}

fn print_numbers(
    page: &mut Page,
    subject: &Subject,
    kind: Kind,
    writes: &[u64],
    one: &str,
    several: &str,
) {
    if !writes.is_empty() {
        let count = counted(writes.len(), one, several);
        page.line(named(format!("  {count}"), kind));
        page.lines(long("    ", subject.noun(), writes));
    }
}

/// "selections of a port that was selected before whose block replaced nothing (`port-twice`; counted
/// are selections, not ports)"
fn print_selections(page: &mut Page, subject: &Subject) {
    let things = things(subject);
    let blocks = things.iter().filter_map(|thing| match thing {
        Thing::Block(steps) => Some(steps[0].block),
        Thing::Other(_) => None,
    });
    let blocks: BTreeSet<u64> = blocks.collect();
    let twice: BTreeSet<u64> = subject.numbers(Kind::PortTwice).into_iter().collect();
    let steps = subject.run.steps.iter();
    let selections: Vec<u64> = steps
        .filter(|step| step.write.offset == FPD3_PORT_SEL && !blocks.contains(&step.block))
        .map(|step| step.write.number)
        .filter(|number| twice.contains(number))
        .collect();
    let one = "selection of a port that was selected before";
    let several = "selections of ports that were selected before";
    print_numbers(page, subject, Kind::PortTwice, &selections, one, several);
}

fn print_odd(page: &mut Page, subject: &Subject) {
    let steps = subject.run.steps.iter();
    let odd: Vec<(u64, u8)> = steps
        .filter(|step| odd_alias(step).is_some())
        .map(|step| (step.write.number, step.write.value))
        .collect();
    if odd.is_empty() {
        return;
    }
    let count = counted(odd.len(), "alias", "aliases");
    page.line(named(
        format!("  {count} with an odd value"),
        Kind::OddAlias,
    ));
    for &(number, value) in odd.iter().take(MOST_EXPLAINED) {
        page.line(explained(subject.noun(), number, value));
    }
    if odd.len() > MOST_EXPLAINED {
        page.line(format!("    and {} more", odd.len() - MOST_EXPLAINED));
    }
}

/// "without the second half where the value has no address of 7 bits, that is above 7F"
fn explained(noun: &str, number: u64, value: u8) -> String {
    let meaning = match value >> 1 {
        0 => "off".into(),
        address => format!("address {address:02X}"),
    };
    let means = format!("    {noun} {number}: 0x{value:02X} means {meaning}");
    match value {
        0x00..=0x7F => format!(
            "{means}; for address {value:02X} write 0x{:02X}",
            value << 1
        ),
        _ => means,
    }
}

/// "Last, `no-address`, one line for all its ports."
fn print_unreached(page: &mut Page, subject: &Subject) {
    let port = |finding: &Finding| finding.ports[0];
    let unreached: Vec<u8> = subject.findings(Kind::NoAddress).map(port).collect();
    if !unreached.is_empty() {
        let ports = ports(&unreached);
        let line = format!("  forwarded, but no address reaches {ports}");
        page.line(named(line, Kind::NoAddress));
    }
}
