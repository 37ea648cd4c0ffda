//! The "notes on the order (point 3)": `port-twice` and `shared-in-block`.

use super::finding::{About, Finding, Grade, Kind};
use crate::facts::given::Given;
use crate::facts::order::{breaks, Why};

pub fn all(given: &Given) -> Vec<Finding> {
    let mut found = Vec::new();
    for broken in breaks(&given.writes) {
        let this = broken.write.number;
        let (kind, lines, ports) = match broken.why {
            // "a write to 0x4C ticks a port that an earlier one ticked: the latest such line and
            // this one, one finding a port"
            Why::PortTwice { port, earlier } => (Kind::PortTwice, vec![earlier, this], vec![port]),
            // "a shared register other than 0x4C is written after the first selection, and a
            // selection or a per-port write follows"
            Why::SharedInBlock => (Kind::SharedInBlock, vec![this], vec![]),
            // The first selection is still to come, so no port is ticked: this is `no-port`.
            Why::NoSelectionYet => continue,
        };
        found.push(Finding {
            kind,
            grade: Grade::Note,
            lines,
            ports,
            about: About::Register(broken.write.offset),
        });
    }
    found
}
