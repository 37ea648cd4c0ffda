//! Texts and traces that end at the borders of what the program reads and writes at a time, or have
//! something across them.

mod texts;
mod traces;

use super::Job;
use crate::generate::rng::Rng;
use crate::generate::values;

/// The bytes that the program `convert` reads and writes at a time; no rule of the papers.
pub const WINDOW: usize = 65_536;

const ADDRESS: u8 = 0x3D;

/// Each text and each trace comes twice, the second time through standard input.
pub const TURNS: usize = 2 * (texts::COUNT + traces::COUNT);

pub fn is_piped(turn: usize) -> bool {
    !turn.is_multiple_of(2)
}

pub fn job(rng: &mut Rng, turn: usize) -> Job {
    let turn = turn / 2;
    if turn < texts::COUNT {
        let text = texts::text(rng, turn);
        return Job::Trace {
            address: ADDRESS,
            start: values::start(rng),
            text,
        };
    }
    let trace = traces::trace(rng, turn - texts::COUNT);
    Job::Text { trace }
}
