//! Seeded traces: the kinds there are, and which kind each numbered trace of a comparison is.

mod addresses;
mod bursts;
mod cameras;
mod damage;
mod edges;
pub mod large;
mod numbers;
mod orders;
mod shapes;
mod starts;
mod traffic;

use super::rng::Rng;
use super::samples::whole_case;
use super::scheduled;
use starts::EVERY_SECOND_BYTE;

#[derive(Clone, Copy, Debug, PartialEq, Eq)]
pub enum Kind {
    Case,
    Cameras,
    Traffic,
    Edges,
    Orders,
    Numbers,
    Addresses,
    Bursts,
    ChangedByte,
    Cut,
    Inserted,
    BrokenMark,
    Trailing,
    Shapes,
    Starts,
    SecondByte,
    HubLength,
    Noise,
    Empty,
    OneByte,
    Long,
    Wrap,
}

const NAMES: [(Kind, &str); 22] = [
    (Kind::Case, "case"),
    (Kind::Cameras, "cameras"),
    (Kind::Traffic, "traffic"),
    (Kind::Edges, "edges"),
    (Kind::Orders, "orders"),
    (Kind::Numbers, "numbers"),
    (Kind::Addresses, "addresses"),
    (Kind::Bursts, "bursts"),
    (Kind::ChangedByte, "changed-byte"),
    (Kind::Cut, "cut"),
    (Kind::Inserted, "inserted"),
    (Kind::BrokenMark, "broken-mark"),
    (Kind::Trailing, "trailing"),
    (Kind::Shapes, "shapes"),
    (Kind::Starts, "starts"),
    (Kind::SecondByte, "second-byte"),
    (Kind::HubLength, "hub-length"),
    (Kind::Noise, "noise"),
    (Kind::Empty, "empty"),
    (Kind::OneByte, "one-byte"),
    (Kind::Long, "long"),
    (Kind::Wrap, "wrap"),
];

/// The many short traces of a comparison go round this list.
const SCHEDULE: [Kind; 24] = [
    Kind::Cameras,
    Kind::Traffic,
    Kind::ChangedByte,
    Kind::Edges,
    Kind::Orders,
    Kind::Addresses,
    Kind::Cut,
    Kind::Traffic,
    Kind::Numbers,
    Kind::Starts,
    Kind::Shapes,
    Kind::SecondByte,
    Kind::Bursts,
    Kind::Inserted,
    Kind::Cameras,
    Kind::ChangedByte,
    Kind::BrokenMark,
    Kind::Traffic,
    Kind::Orders,
    Kind::Trailing,
    Kind::Addresses,
    Kind::Starts,
    Kind::HubLength,
    Kind::Noise,
];

/// Here each second byte of a hub record comes, whatever the schedule.
const SECOND_BYTES: u64 = 1000;
const REST: u64 = SECOND_BYTES + 256;

/// The records of a `long` trace.
const LONG: u64 = 100_000;

impl Kind {
    pub fn name(self) -> &'static str {
        let found = NAMES.iter().find(|(kind, _)| *kind == self);
        found.map_or("", |(_, name)| name)
    }

    pub fn of_name(name: &str) -> Option<Kind> {
        let found = NAMES.iter().find(|(_, known)| *known == name);
        found.map(|(kind, _)| *kind)
    }

    pub fn names() -> Vec<&'static str> {
        NAMES.iter().map(|(_, name)| *name).collect()
    }
}

/// One trace of a kind; `turn` counts through what the kind enumerates.
pub fn trace(kind: Kind, rng: &mut Rng, turn: u64) -> Vec<u8> {
    match kind {
        Kind::Case => whole_case(),
        Kind::Cameras => cameras::trace(rng),
        Kind::Traffic => traffic::trace(rng),
        Kind::Edges => edges::trace(rng, turn),
        Kind::Orders => orders::trace(rng, turn),
        Kind::Numbers => numbers::trace(rng),
        Kind::Addresses => addresses::trace(rng),
        Kind::Bursts => bursts::trace(rng),
        Kind::ChangedByte => damage::changed_byte(rng, turn),
        Kind::Cut => damage::cut(rng, turn),
        Kind::Inserted => damage::inserted(rng, turn),
        Kind::BrokenMark => damage::broken_mark(rng, turn),
        Kind::Trailing => damage::trailing(rng, turn),
        Kind::Shapes => shapes::trace(rng, turn),
        Kind::Starts => starts::trace(rng, turn),
        Kind::SecondByte => starts::second_byte(rng, turn),
        Kind::HubLength => starts::hub_length(rng, turn),
        Kind::Noise => damage::noise(rng, turn),
        Kind::Empty => Vec::new(),
        Kind::OneByte => vec![if turn.is_multiple_of(2) {
            0x9A
        } else {
            rng.byte()
        }],
        Kind::Long => large::in_memory(rng, LONG),
        Kind::Wrap => numbers::wrap_at_65535(rng),
    }
}

/// The trace with this number in the comparison of a seed.
pub fn numbered(seed: u64, number: u64) -> (Kind, Vec<u8>) {
    let mut rng = Rng::numbered(seed, number);
    let (kind, turn) = match number {
        0 => (Kind::Case, 0),
        1 => (Kind::Empty, 0),
        2..=5 => (Kind::OneByte, number),
        200 => (Kind::Wrap, 0),
        400 | 600 | 800 => (Kind::Long, 0),
        SECOND_BYTES..REST => (Kind::SecondByte, number - SECOND_BYTES + EVERY_SECOND_BYTE),
        _ => scheduled(&SCHEDULE, number),
    };
    (kind, trace(kind, &mut rng, turn))
}
