//! Seeded cases for the program that turns installers' scripts into traces and back.

mod borders;
mod edits;
mod kinds;
pub(super) mod lines;
mod texts;
mod traces;
mod wrong;

pub use borders::WINDOW;
pub use kinds::Kind;

use crate::generate::rng::Rng;
use crate::generate::samples::SCRIPTS;
use crate::generate::{scheduled, values};
use crate::model::start::{Start, STARTS};
use kinds::SCHEDULE;

/// What the program is asked for: the trace of a text, or the text of a trace. Of each trace its
/// address and start are asked for too, which is no case of its own.
#[derive(Clone, Debug, PartialEq, Eq)]
pub enum Job {
    Trace {
        address: u8,
        start: Start,
        text: Vec<u8>,
    },
    Text {
        trace: Vec<u8>,
    },
    Start {
        trace: Vec<u8>,
    },
}

/// How it is called; the address, the start and the trace's file are for a text alone.
#[derive(Clone, Debug, PartialEq, Eq)]
pub struct Way {
    /// Whether the text or the trace comes through standard input.
    pub piped: bool,
    /// Whether the address is written with capitals.
    pub capitals: bool,
    /// What the trace's file holds before, if it is there.
    pub old: Option<Vec<u8>>,
}

#[derive(Clone, Debug, PartialEq, Eq)]
pub struct Case {
    pub kind: Kind,
    pub job: Job,
    pub way: Way,
    /// The point that is reached where the text is refused 14.
    pub wrong: Option<&'static str>,
}

const SAMPLES: u64 = SCRIPTS.len() as u64;
const EMPTY_TRACE: u64 = SAMPLES + 1;
const EVERY_BYTE: u64 = SAMPLES + 2;
const BORDERS: u64 = SAMPLES + 3;
const REST: u64 = BORDERS + borders::TURNS as u64;

/// The case with this number in the comparison of a seed.
pub fn numbered(seed: u64, number: u64) -> Case {
    let mut rng = Rng::numbered(seed, number);
    let (kind, turn) = match number {
        0..SAMPLES => (Kind::Sample, number),
        SAMPLES | EMPTY_TRACE => (Kind::Empty, number - SAMPLES),
        EVERY_BYTE => (Kind::EveryByte, 0),
        BORDERS..REST => (Kind::Border, number - BORDERS),
        _ => scheduled(&SCHEDULE, number - REST),
    };
    let turn = turn as usize;
    let (job, wrong) = job(kind, &mut rng, turn);
    let mut way = way(&mut rng);
    if kind == Kind::Border {
        way.piped = borders::is_piped(turn);
    }
    Case {
        kind,
        job,
        way,
        wrong,
    }
}

fn way(rng: &mut Rng) -> Way {
    let length = rng.pick(&[0, 5, 40, 5000]);
    let old = rng.bytes(length);
    Way {
        piped: rng.one_in(4),
        capitals: rng.one_in(2),
        old: rng.one_in(2).then_some(old),
    }
}

fn job(kind: Kind, rng: &mut Rng, turn: usize) -> (Job, Option<&'static str>) {
    if kind == Kind::Border {
        return (borders::job(rng, turn), None);
    }
    if let Some(trace) = trace(kind, rng, turn) {
        return (Job::Text { trace }, None);
    }
    let (wrong, text) = match kind {
        Kind::Wrong => {
            let (wrong, text) = texts::wrong(rng, turn);
            (Some(wrong), text)
        }
        _ => (None, text(kind, rng, turn)),
    };
    let address = match kind {
        Kind::Address => rng.pick(&values::BAD_HUB_ADDRESSES),
        _ => values::hub_address(rng),
    };
    let start = match kind {
        Kind::Sample => STARTS[turn % 2],
        _ => values::start(rng),
    };
    let job = Job::Trace {
        address,
        start,
        text,
    };
    (job, wrong)
}

fn text(kind: Kind, rng: &mut Rng, turn: usize) -> Vec<u8> {
    match kind {
        Kind::Sample => SCRIPTS[turn % SCRIPTS.len()].1.to_vec(),
        Kind::Right => texts::right(rng, 12),
        Kind::Many => texts::many(rng, turn),
        Kind::Address => match turn % 3 {
            0 => texts::right(rng, 3),
            1 => texts::wrong(rng, turn / 3).1,
            _ => texts::long(rng, turn / 3),
        },
        Kind::Long => texts::long(rng, turn),
        Kind::Order => texts::order(rng, turn),
        Kind::Unended => texts::unended(rng, turn),
        Kind::Changed => texts::edited(rng, |rng, line| edits::changed(rng, line, turn)),
        Kind::Deleted => texts::edited(rng, |_, line| edits::deleted(line, turn)),
        Kind::Inserted => texts::edited(rng, |rng, line| edits::inserted(rng, line, turn)),
        Kind::Pieces => texts::pieces(rng),
        Kind::Noise => texts::noise(rng),
        _ => Vec::new(),
    }
}

fn trace(kind: Kind, rng: &mut Rng, turn: usize) -> Option<Vec<u8>> {
    Some(match kind {
        Kind::Empty if turn == 1 => Vec::new(),
        Kind::EveryByte => traces::every_byte(),
        Kind::Writes => traces::right(rng, 20),
        Kind::WithoutText => traces::without_text(rng, turn),
        Kind::First => traces::first(rng, turn),
        Kind::BadHub => traces::bad_hub(rng, turn),
        Kind::TraceChanged => edits::changed(rng, traces::short(), turn),
        Kind::TraceDeleted => edits::deleted(traces::short(), turn),
        Kind::TraceInserted => edits::inserted(rng, traces::short(), turn),
        Kind::TraceCut => traces::cut(turn),
        Kind::Other => traces::other(rng, turn),
        _ => return None,
    })
}
