//! A list of writes as a script that somebody typed, or as a trace.

use super::setups::Writes;
use crate::generate::rng::Rng;
use crate::generate::scripts::lines;
use crate::generate::values;
use crate::model::start::Start;
use crate::model::trace::HUB_ADDRESS;
use crate::model::trace_builder::TraceBuilder;

/// The most values that a record of kind 01 has.
const LONGEST_BURST: usize = 254;

/// Blank lines that a script may have before a line, so that numbers above a byte and above two
/// are met.
const FAR: [usize; 4] = [250, 300, 65_530, 66_000];

/// One call a line, with blank lines and comments between.
pub fn script(rng: &mut Rng, writes: &Writes) -> Vec<u8> {
    let mut text = Vec::new();
    let tidy = rng.one_in(2);
    for &(offset, value) in writes {
        while !tidy && rng.one_in(4) {
            text.extend(blank_line(rng));
        }
        text.extend(call(rng, offset, value));
        if !tidy && rng.one_in(4) {
            text.extend(lines::blanks(rng));
            text.extend(comment(rng));
        }
        text.push(b'\n');
    }
    text
}

/// Now and then with bytes that are not shown as they are, and blanks after them.
fn comment(rng: &mut Rng) -> Vec<u8> {
    if rng.one_in(5) {
        let bytes = [
            &b"#\0 \t x"[..],
            b"#\xC2\x85\x85 \xC2\x9B",
            b"#\x1B \x1B[1m",
        ];
        return rng.pick(&bytes).to_vec();
    }
    lines::comment(rng)
}

/// The same with many empty lines at one place.
pub fn far_script(rng: &mut Rng, writes: &Writes) -> Vec<u8> {
    let at = rng.index(writes.len() + 1);
    let (before, after) = writes.split_at(at);
    let (before, after) = (script(rng, &before.to_vec()), script(rng, &after.to_vec()));
    [before, vec![b'\n'; rng.pick(&FAR)], after].concat()
}

fn blank_line(rng: &mut Rng) -> Vec<u8> {
    let mut line = lines::blanks(rng);
    if rng.one_in(2) {
        line.extend(lines::comment(rng));
    }
    line.push(b'\n');
    line
}

fn call(rng: &mut Rng, offset: u8, value: u8) -> Vec<u8> {
    let (offset, value) = (number(rng, offset), number(rng, value));
    let text = match rng.below(3) {
        0 => format!("WriteI2C({offset}, {value})"),
        1 => format!("\tWriteI2C ( {offset} ,{value} )"),
        _ => format!("WriteI2C({offset},{value})"),
    };
    text.into_bytes()
}

fn number(rng: &mut Rng, byte: u8) -> String {
    match rng.below(4) {
        0 => format!("0x{byte:x}"),
        1 => format!("0x{byte:02x}"),
        _ => format!("0x{byte:02X}"),
    }
}

/// The hub record and the writes; those to successive offsets are joined to bursts always, now and
/// then, or never. Records that change no register stand between.
pub fn trace(rng: &mut Rng, hub: u8, start: Start, writes: &Writes) -> Vec<u8> {
    let mut trace = TraceBuilder::with_hub(hub, start);
    if rng.one_in(30) {
        trace = no_hub(rng, hub);
    }
    let (joins, quiet) = (rng.pick(&[1, 1, 2, 1000]), rng.one_in(2));
    let mut rest = &writes[..];
    while let [(first, value), ..] = *rest {
        let mut values = vec![value];
        let mut next = first.wrapping_add(1);
        while let Some(&(offset, value)) = rest.get(values.len()) {
            if offset != next || values.len() == LONGEST_BURST || !rng.one_in(joins) {
                break;
            }
            values.push(value);
            next = next.wrapping_add(1);
        }
        while !quiet && rng.one_in(3) {
            beside(rng, &mut trace);
        }
        rest = &rest[values.len()..];
        trace.burst(first, &values);
    }
    if !quiet {
        beside(rng, &mut trace);
    }
    trace.into_bytes()
}

/// A first record that would be the hub's, but for another second byte than 0 or for a third one.
fn no_hub(rng: &mut Rng, hub: u8) -> TraceBuilder {
    let mut trace = TraceBuilder::default();
    match rng.below(3) {
        0 => trace.record(HUB_ADDRESS, &[hub, 0, 0]),
        1 => trace.record(HUB_ADDRESS, &[hub, rng.between(1, 255) as u8]),
        _ => trace.record(HUB_ADDRESS, &[hub, rng.pick(&values::BAD_SECOND_BYTES)]),
    }
    trace
}

/// A read, a question or a frame, some of them refused.
fn beside(rng: &mut Rng, trace: &mut TraceBuilder) {
    match rng.below(5) {
        0 => trace.read(values::offset(rng)),
        1 => trace.ask_both(rng.pick(&values::EDGE_ADDRESSES)),
        2 => trace.start(rng.below(5) as u8, rng.pick(&[10, 12, 11])),
        3 => trace.line(rng.below(5) as u8, rng.pick(&[0, 4, 8]), rng.word()),
        _ => trace.end(rng.below(5) as u8),
    }
}
