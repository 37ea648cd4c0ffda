//! Seeded cases for the program that answers what a script or a trace comes to.

mod bursts;
mod forms;
mod kinds;
mod names;
mod setups;
mod slips;

pub use kinds::Kind;

use super::rng::Rng;
use super::samples::{whole_case, SCRIPTS};
use super::{scheduled, scripts, traces, values};
use crate::model::start::{Start, STARTS};
use crate::model::trace_builder::TraceBuilder;
use kinds::SCHEDULE;
use setups::Writes;
use std::path::{Path, PathBuf};

/// What the program is asked about.
#[derive(Clone, Debug, PartialEq, Eq)]
pub enum Job {
    Script {
        address: u8,
        start: Start,
        text: Vec<u8>,
    },
    Trace {
        trace: Vec<u8>,
    },
}

impl Job {
    /// What stands in its file.
    pub fn bytes(&self) -> &[u8] {
        match self {
            Job::Script { text, .. } => text,
            Job::Trace { trace } => trace,
        }
    }
}

#[derive(Clone, Debug, PartialEq, Eq)]
pub struct Case {
    pub kind: Kind,
    pub job: Job,
    /// The name of its file; - is standard input.
    pub name: String,
}

impl Case {
    /// Its file in a folder, as the program is given it.
    pub fn file(&self, folder: &Path) -> PathBuf {
        match &self.name[..] {
            "-" => PathBuf::from("-"),
            name => folder.join(name),
        }
    }
}

/// The samples with a script of their own.
const WEIGHBRIDGES: [&[u8]; 2] = [
    include_bytes!("../../../../samples/weighbridge.script"),
    include_bytes!("../../../../samples/wrong_page.script"),
];

const HUB: u8 = 0x3D;
const SAMPLES: u64 = (SCRIPTS.len() + WEIGHBRIDGES.len()) as u64 + 1;
const EMPTY: u64 = SAMPLES + 5;

/// The case with this number in the comparison of a seed.
pub fn numbered(seed: u64, number: u64) -> Case {
    let mut rng = Rng::numbered(seed, number);
    let (kind, turn) = match number {
        0..SAMPLES => (Kind::Sample, number),
        SAMPLES..EMPTY => (Kind::Empty, number - SAMPLES),
        _ => scheduled(&SCHEDULE, number - EMPTY),
    };
    let job = match kind {
        Kind::Sample => sample(turn as usize),
        Kind::Empty => empty(turn),
        Kind::Read => match scripts::numbered(seed, turn).job {
            scripts::Job::Trace {
                address,
                start,
                text,
            } => Job::Script {
                address,
                start,
                text,
            },
            scripts::Job::Text { trace } | scripts::Job::Start { trace } => Job::Trace { trace },
        },
        Kind::Played => Job::Trace {
            trace: traces::numbered(seed, turn).1,
        },
        _ => written(kind, &mut rng),
    };
    let name = names::name(number);
    Case { kind, job, name }
}

fn sample(turn: usize) -> Job {
    let scripts = SCRIPTS.iter().map(|&(_, text)| text).chain(WEIGHBRIDGES);
    match scripts.into_iter().nth(turn) {
        Some(text) => Job::Script {
            address: HUB,
            start: Start::Board,
            text: text.to_vec(),
        },
        None => Job::Trace {
            trace: whole_case(),
        },
    }
}

fn empty(turn: u64) -> Job {
    let script = |start, text: &[u8]| Job::Script {
        address: HUB,
        start,
        text: text.to_vec(),
    };
    let trace = |start| TraceBuilder::with_hub(HUB, start).into_bytes();
    match turn {
        0 => script(Start::Board, b""),
        1 => Job::Trace { trace: Vec::new() },
        2 => script(Start::Sheet, b"# nothing yet\n\n"),
        _ => Job::Trace {
            trace: trace(STARTS[turn as usize % 2]),
        },
    }
}

/// A list of writes as a script or as a trace; now and then on a hub that is named like a camera, or
/// with an address that no hub has.
fn written(kind: Kind, rng: &mut Rng) -> Job {
    let address = match rng.below(60) {
        0..10 => rng.pick(&[0x30, 0x31, 0x32]),
        10 => rng.pick(&values::BAD_HUB_ADDRESSES),
        _ => values::hub_address(rng),
    };
    let start = values::start(rng);
    let writes = writes(kind, rng, address);
    if kind == Kind::Far {
        let text = forms::far_script(rng, &writes);
        return Job::Script {
            address,
            start,
            text,
        };
    }
    let is_trace = rng.one_in(3) || kind == Kind::Bursts && !rng.one_in(6);
    if is_trace {
        let trace = forms::trace(rng, address, start, &writes);
        return Job::Trace { trace };
    }
    let text = forms::script(rng, &writes);
    Job::Script {
        address,
        start,
        text,
    }
}

fn writes(kind: Kind, rng: &mut Rng, hub: u8) -> Writes {
    match kind {
        Kind::Broadcast => setups::broadcast(rng),
        Kind::Merged => setups::merged(rng),
        Kind::Again => setups::again(rng),
        Kind::Bursts => bursts::writes(rng),
        Kind::Any => any(rng),
        Kind::Mixed | Kind::Far => {
            let mut writes = match rng.below(5) {
                0 => setups::broadcast(rng),
                1 => setups::merged(rng),
                2 => setups::again(rng),
                3 => any(rng),
                _ => setups::cameras(rng),
            };
            for _ in 0..rng.below(6) {
                slips::slip(rng, &mut writes, hub);
            }
            writes
        }
        _ => {
            let mut writes = setups::cameras(rng);
            for _ in 0..rng.between(1, 2) {
                spoil(kind, rng, &mut writes, hub);
            }
            writes
        }
    }
}

/// What the kind is named after; `Cameras` stay as they are.
fn spoil(kind: Kind, rng: &mut Rng, writes: &mut Writes, hub: u8) {
    match kind {
        Kind::WrongPage => slips::page(rng, writes),
        Kind::Slips => slips::slip(rng, writes, hub),
        Kind::Shared => slips::insert_shared(rng, writes),
        Kind::Unmodelled => slips::insert_unmodelled(rng, writes),
        Kind::Aliases => slips::alias(rng, writes, hub),
        _ => {}
    }
}

fn any(rng: &mut Rng) -> Writes {
    let mut writes = Writes::new();
    for _ in 0..rng.between(1, 40) {
        let offset = values::offset(rng);
        writes.push((offset, values::value(rng, offset)));
    }
    writes
}
