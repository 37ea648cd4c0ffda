//! All facts of a script or of a trace together.

use super::end_state::{addresses, ports, AddressEnd, PortEnd};
use super::findings;
use super::findings::finding::{Finding, Grade};
use super::given::{of_script, of_trace, Given};
use super::order::any_order;
use super::run::{run, Run};
use crate::model::convert::Refused;
use crate::model::start::Start;

#[derive(Clone, Debug, PartialEq, Eq)]
pub struct Answer {
    /// The hub's own address.
    pub hub: u8,
    pub start: Start,
    /// How many register writes there were; each byte of a burst is one.
    pub writes: u64,
    pub any_order: bool,
    pub ports: Vec<PortEnd>,
    pub addresses: Vec<AddressEnd>,
    pub findings: Vec<Finding>,
}

impl Answer {
    pub fn of(given: &Given) -> Result<Answer, Refused> {
        Ok(Answer::of_run(given, &run(given)?))
    }

    pub fn of_run(given: &Given, run: &Run) -> Answer {
        Answer {
            hub: given.hub,
            start: given.start,
            writes: given.writes.len() as u64,
            any_order: any_order(&given.writes),
            ports: ports(run),
            addresses: addresses(run),
            findings: findings::all(given, run),
        }
    }

    pub fn of_script(address: u8, start: Start, text: &[u8]) -> Result<Answer, Refused> {
        Answer::of(&of_script(address, start, text)?)
    }

    pub fn of_trace(trace: &[u8]) -> Result<Answer, Refused> {
        Answer::of(&of_trace(trace)?)
    }

    /// Whether something looks wrong.
    pub fn is_wrong(&self) -> bool {
        let is_wrong = |finding: &Finding| finding.grade == Grade::Wrong;
        self.findings.iter().any(is_wrong)
    }
}
