//! The points about the records of a trace, which `points` lists.

use crate::compare::coverage::Coverage;
use crate::model::answer::Answer;
use crate::model::hub::Hub;
use crate::model::player::Player;
use crate::model::start::Start;
use crate::model::trace::{Record, RecordReader, HUB_ADDRESS};

pub fn note(coverage: &mut Coverage, trace: &[u8], refused: bool) {
    note_hub(coverage, trace);
    let mut reader = RecordReader::new(trace);
    let mut player = Player::default();
    let (mut records, mut writes) = (0, 0);
    while let Ok(Some(Ok(record))) = reader.next_record() {
        records += 1;
        let answer = player.answer(&record);
        match record {
            Record::HubAddress { .. } => {}
            Record::Write { offset, values } => {
                writes += 1;
                note_burst(coverage, offset, values.len());
            }
            _ => coverage.note("a trace with records that change no register"),
        }
        if records > 1 && matches!(answer, Answer::Refused(_)) {
            coverage.note("a trace with a refused question or frame");
        }
    }
    if refused && writes > 0 {
        coverage.note("a trace refused 13 after writes");
    }
    if !refused && records == 1 {
        coverage.note("a trace of the hub record alone");
    }
}

/// A hub record that is refused because of its second byte or of a third.
fn note_hub(coverage: &mut Coverage, trace: &[u8]) {
    coverage.note(match *trace {
        [0x9A, 0x64, HUB_ADDRESS, 2, address, 0, ..] => match Hub::new(address, Start::Sheet) {
            Ok(_) => return,
            Err(_) => "a trace refused 2 at the sheet's start",
        },
        [0x9A, 0x64, HUB_ADDRESS, 2, _, _, ..] => "a trace refused 13 for its second byte",
        [0x9A, 0x64, HUB_ADDRESS, 3, _, _, _, ..] => {
            "a trace refused 13 for a hub record of 3 bytes"
        }
        _ => return,
    });
}

fn note_burst(coverage: &mut Coverage, first: u8, count: usize) {
    if usize::from(first) + count > 256 {
        coverage.note("a burst over FF to 00");
    }
    let place = usize::from(0x4Cu8.wrapping_sub(first));
    if place > 0 && place + 1 < count {
        coverage.note("a burst over 4C");
    }
}
