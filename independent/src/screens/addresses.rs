//! The part of show's screen on whom each address reaches.

use super::names::{device, ports};
use super::numbers::short;
use super::page::{in_column, mark, Page};
use super::Subject;
use crate::facts::end_state::{devices, registers_of};
use crate::facts::findings::finding::{About, Finding, Grade, Kind};
use crate::facts::lost::{lost, Lost};
use crate::facts::origins::lines;
use crate::model::addresses::{Device, Direction, Heard};
use crate::model::registers::BCC_CONFIG;

const DEVICE: usize = 7;
const LINES: usize = 34;

pub fn print(page: &mut Page, subject: &Subject) {
    page.line("Addresses on the bus");
    let lost = lost(&subject.given, &subject.run);
    for address in 0x00..=0x7F {
        match subject.run.hub.who_hears(address, Direction::Write) {
            Ok(Heard::Hub) => page.line(row(address, false, "the hub itself", "")),
            Ok(Heard::Devices(_)) => print_devices(page, subject, address),
            _ => {
                let gone = lost.get(&address);
                page.lines(gone.map(|lost| lost_row(subject, address, lost)));
            }
        }
    }
    page.line("  All other addresses reach nobody.");
    let unreached = |finding: &Finding| finding.ports[0];
    let unreached: Vec<u8> = subject.findings(Kind::NoAddress).map(unreached).collect();
    if !unreached.is_empty() {
        let ports = ports(&unreached);
        page.line(format!(
            "  No address reaches {ports}, whose pictures are forwarded."
        ));
    }
}

fn row(address: u8, wrong: bool, who: &str, set_by: &str) -> String {
    below(format!("{}{address:02X}", mark(wrong)), who, set_by)
}

/// The columns after the address.
fn below(start: String, who: &str, set_by: &str) -> String {
    let row = in_column(start, DEVICE, who);
    match set_by {
        "" => row,
        _ => in_column(row, LINES, set_by),
    }
}

fn print_devices(page: &mut Page, subject: &Subject, address: u8) {
    let shared = |finding: &Finding| {
        finding.grade == Grade::Wrong && finding.about == About::Address(address)
    };
    let wrong = subject.findings(Kind::SameAddress).any(shared);
    let devices = devices(&subject.run, address);
    for (place, it) in devices.iter().enumerate() {
        let (who, set_by) = (named(subject, it), set_by(subject, it));
        page.line(match place {
            0 => row(address, wrong, &who, &set_by),
            _ => below(String::new(), &who, &set_by),
        });
    }
    if devices.len() > 1 {
        page.line(below(String::new(), &read(subject, address), ""));
    }
}

/// "with its address on its own bus and ` (not set)` after it where no line sets that"
fn named(subject: &Subject, it: &Device) -> String {
    let (_, own) = registers_of(it.role);
    let set = subject.run.origins.on_port(it.port, own).is_some();
    device(it) + if set { "" } else { " (not set)" }
}

/// "the lines of its pass-through, alias and remote address"
fn set_by(subject: &Subject, device: &Device) -> String {
    let (alias, own) = registers_of(device.role);
    let origin = |offset| subject.run.origins.on_port(device.port, offset);
    short(subject.noun(), &lines([BCC_CONFIG, alias, own].map(origin)))
}

/// "who answers a read"
fn read(subject: &Subject, address: u8) -> String {
    let heard = subject.run.hub.who_hears(address, Direction::Read);
    let answering = match heard {
        Ok(Heard::Devices(devices)) => devices.into_iter().flatten().next(),
        _ => None,
    };
    match answering {
        Some(answering) => format!("a read is answered by {}", device(&answering)),
        None => "a read has no clear answer (refusal 9)".into(),
    }
}

fn lost_row(subject: &Subject, address: u8, lost: &Lost) -> String {
    let noun = subject.noun();
    let Lost {
        set,
        changed,
        is_replaced,
    } = lost;
    let set_by = format!("{noun} {set}, replaced by {noun} {changed}");
    row(address, *is_replaced, "nobody any more", &set_by)
}
