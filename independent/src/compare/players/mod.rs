//! The comparison of players: numbered traces of a seed, each played by the player under test and
//! by the model, byte for byte, until the first difference.

mod conditions;
pub(super) mod points;
mod tally;

use super::comparison::{Comparison, Findings, Settings};
use super::coverage::Coverage;
use super::difference::{what_is_wrong, Difference, ExpectedStderr};
use super::hub_points;
use super::run::{with_context, Program, Run};
use crate::generate::traces;
use crate::model::player::{text_of, Totals};
use points::POINTS;
use std::fs;
use std::io;
use std::path::Path;
use tally::Tally;

pub static PLAYERS: Comparison = Comparison {
    program: "a program that takes the word play and a trace file",
    cases: "traces",
    points: POINTS,
    refusals: "every refusal a trace can reach (1 to 7, 9, 13)",
    compare_one,
    compared: |found| format!("{} traces", found.traces),
    compared_in_full: |found| format!("{} traces, {} records", found.traces, found.records),
};

fn compare_one(settings: &Settings, folder: &Path, number: u64) -> io::Result<Findings> {
    let (kind, trace) = traces::numbered(settings.seed, number);
    let mut coverage = Coverage::new(POINTS);
    let (expected, totals) = play(&trace, &mut coverage);
    let run = run_player(settings, folder, &trace, expected.len() as u64)?;
    let words = if totals.ended || totals.records == 0 {
        ExpectedStderr::OneLine
    } else {
        ExpectedStderr::Nothing
    };
    let wrong = what_is_wrong(&run, &expected, &words);
    let difference = wrong.map(|what| Difference {
        noun: "trace",
        number,
        kind: kind.name(),
        what,
        files: vec![
            ("bin", trace),
            ("expected.txt", expected),
            ("actual.txt", run.stdout),
            ("stderr.txt", run.stderr),
        ],
    });
    Ok(Findings {
        traces: 1,
        records: totals.records,
        coverage,
        difference,
        ..Findings::default()
    })
}

/// What the model prints of a trace, and the points that the trace reaches.
pub fn play(trace: &[u8], coverage: &mut Coverage) -> (Vec<u8>, Totals) {
    if trace.is_empty() {
        coverage.note("an empty file");
    }
    hub_points::note(coverage, trace);
    text_of(trace, &mut Tally::new(coverage))
}

/// One run of the player on a trace whose right output has `expected` bytes.
fn run_player(settings: &Settings, folder: &Path, trace: &[u8], expected: u64) -> io::Result<Run> {
    let file = folder.join("trace.bin");
    fs::write(&file, trace).map_err(|error| with_context(error, "write", &file))?;
    let player = Program {
        path: &settings.program,
        role: "player",
        time_limit: settings.time_limit,
    };
    player.run(&["play".as_ref(), file.as_os_str()], None, expected)
}
