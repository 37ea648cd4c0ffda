//! A block that replaced something, with what it replaced.

use super::names::capital;
use super::page::Page;
use super::things::named;
use super::Subject;
use crate::facts::findings::at_writes;
use crate::facts::findings::finding::{Kind, Pictures};
use crate::facts::run::Step;
use crate::model::registers::{
    BCC_CONFIG, FPD3_PORT_SEL, RAW10_ID, RAW12_ID, SER_ALIAS_ID, SER_ID,
};

/// "its selection and the earlier one of the port, then each replaced register in the order of the
/// writes, and at one write of the ports"; the ports "that it selects again and of which it replaces
/// nothing" last
pub fn print(page: &mut Page, subject: &Subject, number: usize, steps: &[&Step]) {
    let selection = selection(subject, steps[0].block);
    let mut told = Vec::new();
    for step in steps {
        for finding in at_writes::replaced(step) {
            let port = finding.ports[0];
            if !told.contains(&port) {
                let first = told.is_empty().then_some(number);
                print_selection(page, subject, first, selection, port);
                told.push(port);
            }
            let what = what(step, usize::from(port));
            let line = format!("  On port {port} it replaces {what}");
            page.line(named(line, Kind::Replaced));
            for line in finding.lines {
                subject.print_typed(page, line);
            }
        }
    }
    let twice = subject.findings(Kind::PortTwice);
    let here = twice.filter(|it| it.lines.last() == Some(&selection));
    for port in here.map(|it| it.ports[0]) {
        if !told.contains(&port) {
            print_selection(page, subject, None, selection, port);
        }
    }
}

/// The number of the write to 0x4C that the block begins with.
fn selection(subject: &Subject, block: u64) -> u64 {
    let mut steps = subject.run.steps.iter();
    let begins = |step: &&Step| step.block == block && step.write.offset == FPD3_PORT_SEL;
    steps.find(begins).map_or(0, |step| step.write.number)
}

/// The thing's number stands where the port is the first; else "`  It selects port 2 again too, as
/// line 12 did` and line 12".
fn print_selection(
    page: &mut Page,
    subject: &Subject,
    first: Option<usize>,
    selection: u64,
    port: u8,
) {
    let mut twice = subject.findings(Kind::PortTwice);
    let here = twice.find(|it| it.ports == [port] && it.lines[1] == selection);
    let earlier = here.map_or(0, |finding| finding.lines[0]);
    let (noun, capital) = (subject.noun(), capital(subject.noun()));
    let again = format!("as {noun} {earlier} did");
    let line = match first {
        Some(number) => {
            format!("{number} {capital} {selection} selects port {port} again, {again}")
        }
        None => format!("  It selects port {port} again too, {again}"),
    };
    page.line(named(line, Kind::PortTwice));
    subject.print_typed(page, earlier);
    if first.is_some() {
        subject.print_typed(page, selection);
    }
}

/// "What is replaced, by its register".
fn what(step: &Step, port: usize) -> String {
    let offset = step.write.offset;
    let (before, after) = (step.before[port], step.after[port]);
    let addresses = (before >> 1, after >> 1);
    let named = match offset {
        BCC_CONFIG => switched(before, after),
        SER_ID => renamed("the serializer's own address", addresses),
        SER_ALIAS_ID => moved("the serializer's address", addresses),
        0x5D..=0x64 => renamed("a camera's own address", addresses),
        0x65..=0x6C => moved("address", addresses),
        RAW10_ID => identified(Pictures::Raw10, before, after),
        RAW12_ID => identified(Pictures::Raw12, before, after),
        _ => None,
    };
    named.unwrap_or_else(|| format!("register {offset:02X}: {before:02X} by {after:02X}"))
}

fn switched(before: u8, after: u8) -> Option<String> {
    match (before >> 6 & 1, after >> 6 & 1) {
        (1, 0) => Some("pass-through on by off".into()),
        (0, 1) => Some("pass-through off by on".into()),
        _ => None,
    }
}

/// "and `off` for a 0 of 5C and of 65 to 6C"
fn moved(what: &str, (before, after): (u8, u8)) -> Option<String> {
    let name = |address: u8| match address {
        0 => "off".into(),
        _ => format!("{address:02X}"),
    };
    (before != after).then(|| format!("{what} {} by {}", name(before), name(after)))
}

fn renamed(what: &str, (before, after): (u8, u8)) -> Option<String> {
    (before != after).then(|| format!("{what} {before:02X} by {after:02X}"))
}

/// "`RAW10 channel 1 by 0`, or `RAW10 data type 2B by 1F` where the channel stays"
fn identified(format: Pictures, before: u8, after: u8) -> Option<String> {
    let format = super::names::format_name(format);
    if before >> 6 != after >> 6 {
        return Some(format!(
            "{format} channel {} by {}",
            before >> 6,
            after >> 6
        ));
    }
    renamed(
        &format!("{format} data type"),
        (before & 0x3F, after & 0x3F),
    )
}

pub fn register_of(format: Pictures) -> u8 {
    match format {
        Pictures::Raw10 => RAW10_ID,
        Pictures::Raw12 => RAW12_ID,
    }
}
