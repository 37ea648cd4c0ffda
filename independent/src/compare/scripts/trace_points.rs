//! The points that a trace reaches which is turned into text.

use super::outcome::Outcome;
use crate::compare::coverage::Coverage;
use crate::compare::players::points::malformed;
use crate::model::convert::{hub_of, to_text};
use crate::model::hub::Hub;
use crate::model::start::Start;
use crate::model::trace::{Malformed, Record, RecordReader, HUB_ADDRESS, WRITE};
use crate::model::trace_builder::TraceBuilder;

pub fn note(coverage: &mut Coverage, trace: &[u8], outcome: &Outcome) {
    if let Ok((_, start)) = hub_of(trace) {
        let start = start.name();
        coverage.note(&match outcome {
            Outcome::Refused(_) => format!("the {start}'s start of a trace with no text"),
            Outcome::Taken(text) if text.is_empty() => "the hub record alone".into(),
            Outcome::Taken(_) => format!("a trace's text read again at the {start}'s start"),
        });
    }
    note_records(coverage, trace);
}

/// The records up to the one that is refused.
fn note_records(coverage: &mut Coverage, trace: &[u8]) {
    if trace.is_empty() {
        return coverage.note("13 for an empty trace");
    }
    let mut reader = RecordReader::new(trace);
    let mut place = 0;
    while let Ok(Some(record)) = reader.next_record() {
        let size = 4 + usize::from(trace.get(place + 3).copied().unwrap_or(0));
        let rest = trace.get(place + size..).unwrap_or_default();
        match record {
            Err(why) => return note_malformed(coverage, &trace[place..], why),
            Ok(Record::HubAddress { address, start }) if Hub::new(address, start).is_err() => {
                coverage.note(&format!("2 in record 1 for {address:02X}"));
                return coverage.note(&format!("2 before {}", refusal_of(rest)));
            }
            Ok(Record::HubAddress { .. }) => {}
            Ok(Record::Write { offset, values }) => note_write(coverage, offset, values.len()),
            Ok(_) => {
                coverage.note(&format!("16 for kind {:02X}", trace[place + 2]));
                return coverage.note(&format!("16 before {}", refusal_of(rest)));
            }
        }
        place += size;
    }
}

/// What the records after a refused one would give.
fn refusal_of(rest: &[u8]) -> String {
    let mut trace = TraceBuilder::with_hub(0x3D, Start::Board);
    trace.raw(rest);
    match to_text(trace.as_bytes()) {
        Err(refused) => format!("a {} of a trace", refused.refusal.number()),
        Ok(text) if text.is_empty() => "nothing of a trace".into(),
        Ok(_) => "writes".into(),
    }
}

fn note_malformed(coverage: &mut Coverage, bytes: &[u8], why: Malformed) {
    coverage.note(malformed(why));
    let kind = bytes.get(2).copied().unwrap_or(WRITE);
    coverage.note(match (why, kind) {
        (Malformed::Length, WRITE) => "13 for a write without a value",
        (Malformed::HubNotFirst, WRITE) => "13 for a write as first record",
        (Malformed::HubNotFirst, _) => "13 for another first record",
        (_, HUB_ADDRESS | WRITE) => return,
        (Malformed::Length | Malformed::Cut | Malformed::Direction, _) => {
            "13 for a record of a kind without text"
        }
        _ => return,
    });
}

fn note_write(coverage: &mut Coverage, offset: u8, count: usize) {
    coverage.note(match count {
        1 => "a write of one value",
        254 => "a burst of 254 values",
        _ => "a burst",
    });
    if usize::from(offset) + count > 256 {
        coverage.note("a burst over FF to 00");
    }
}
