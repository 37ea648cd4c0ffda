//! Refusal conditions that hold at once, and aliases that are equal, apart from the order or the
//! choice that the rules make between them.

use super::points::letter;
use crate::compare::coverage::Coverage;
use crate::model::addresses::{Direction, Role};
use crate::model::format::Format;
use crate::model::hub::{route, Hub, Route};
use crate::model::registers::{TARGETS, TARGET_ALIAS_0};
use crate::model::trace::Record;

/// Every pair of conditions that the record meets; a port above 3 is also looked at by its two low
/// bits, an address above 7F by its low seven.
pub fn note_pairs(coverage: &mut Coverage, record: &Record, hub: &Hub) {
    let met = match *record {
        Record::Address { address, direction } => address_conditions(address, direction, hub),
        Record::FrameStart { port, format } => start_conditions(port, format, hub),
        Record::FrameEnd { port } => end_conditions(port, hub),
        Record::Line { port, width, pixel } => {
            note_dropped(coverage, port, width, pixel, hub);
            line_conditions(port, width, pixel, hub)
        }
        _ => return,
    };
    for (i, first) in met.iter().enumerate() {
        for second in &met[i + 1..] {
            coverage.note(&format!("{} with {first} and {second}", letter(record)));
        }
    }
}

/// The numbers whose condition holds, rising.
fn holding(conditions: &[(u8, bool)]) -> Vec<u8> {
    let met = conditions.iter().filter(|(_, holds)| *holds);
    met.map(|(number, _)| *number).collect()
}

fn address_conditions(address: u8, direction: Direction, hub: &Hub) -> Vec<u8> {
    let low = address & 0x7F;
    let matches = hub.matches(low);
    let unclear = direction == Direction::Read
        && low != hub.address
        && matches[hub.registers.read_port()].is_none()
        && matches.iter().flatten().count() > 1;
    holding(&[(2, address > 0x7F), (9, unclear)])
}

fn start_conditions(port: u8, format: u8, hub: &Hub) -> Vec<u8> {
    let kept = hub.frames.ports[usize::from(port & 3)];
    let unknown = Format::of_bits(format).is_none();
    holding(&[(1, port > 3), (3, unknown), (4, kept.open)])
}

fn end_conditions(port: u8, hub: &Hub) -> Vec<u8> {
    let kept = hub.frames.ports[usize::from(port & 3)];
    holding(&[(1, port > 3), (4, !kept.open)])
}

fn line_conditions(port: u8, width: u16, pixel: u16, hub: &Hub) -> Vec<u8> {
    let place = usize::from(port & 3);
    let kept = hub.frames.ports[place];
    let Some(format) = kept.format else {
        return holding(&[(1, port > 3), (4, !kept.open)]);
    };
    let forwarded = route(&hub.registers, place) != Route::Off;
    holding(&[
        (1, port > 3),
        (4, !kept.open),
        (5, !format.allows_width(usize::from(width))),
        (6, pixel > format.largest_pixel()),
        (7, forwarded && has_short_type(format, place, hub)),
    ])
}

fn has_short_type(format: Format, port: usize, hub: &Hub) -> bool {
    format.identifier(&hub.registers, port) & 0x3F < 0x10
}

/// What a line on an open port with forwarding off meets besides.
fn note_dropped(coverage: &mut Coverage, port: u8, width: u16, pixel: u16, hub: &Hub) {
    let place = usize::from(port & 3);
    let kept = hub.frames.ports[place];
    let Some(format) = kept.format else {
        return;
    };
    if port > 3 || !kept.open || route(&hub.registers, place) != Route::Off {
        return;
    }
    if !format.allows_width(usize::from(width)) {
        coverage.note("L dropped with 5");
    } else if pixel > format.largest_pixel() {
        coverage.note("L dropped with 6");
    } else if has_short_type(format, place, hub) {
        coverage.note("L dropped with a type below 10");
    }
}

/// Whether the devices that match were chosen among several aliases of their port.
pub fn note_equal_aliases(coverage: &mut Coverage, hub: &Hub, address: u8) {
    for device in hub.matches(address).iter().flatten() {
        let page = |offset: u8| hub.registers.on_port(usize::from(device.port), offset);
        let equal = |number: &u8| page(TARGET_ALIAS_0 + number) >> 1 == address;
        let targets = (0..TARGETS).filter(equal).count();
        match device.role {
            Role::Serializer if targets > 0 => coverage.note("A serializer before a target"),
            Role::Target(_) if targets > 1 => coverage.note("A lowest of equal target aliases"),
            _ => {}
        }
    }
}
