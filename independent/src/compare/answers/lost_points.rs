//! The points about addresses that nobody hears in the end, lost by a replaced alias or not.

use crate::compare::coverage::Coverage;
use crate::facts::end_state::registers_of;
use crate::facts::findings::at_writes::replaced;
use crate::facts::lost::lost;
use crate::facts::run::Step;
use crate::model::addresses::{Direction, Heard};
use crate::model::hub::Hub;
use crate::model::registers::SER_ALIAS_ID;
use crate::screens::Subject;

pub const POINTS: &[&str] = &[
    "an address lost on several ports at one write",
    "an address lost by a serializer's alias",
    "not lost: replaced while no device heard",
    "not lost: replaced by the same address",
    "not lost: replaced while another alias was heard",
    "not lost: given to an alias again",
    "not lost: heard in the end",
];

pub fn note(coverage: &mut Coverage, subject: &Subject) {
    let Ok(mut hub) = Hub::new(subject.given.hub, subject.given.start) else {
        return; // there would be no subject
    };
    let lost = lost(&subject.given, &subject.run);
    for step in &subject.run.steps {
        let mut addresses = Vec::new();
        let is_alias = matches!(step.write.offset, SER_ALIAS_ID | 0x65..=0x6C);
        for finding in replaced(step).iter().filter(|_| is_alias) {
            let port = usize::from(finding.ports[0]);
            let address = step.before[port] >> 1;
            match lost.get(&address) {
                Some(_) if step.write.offset == SER_ALIAS_ID => {
                    coverage.note("an address lost by a serializer's alias");
                }
                Some(_) if addresses.contains(&address) => {
                    coverage.note("an address lost on several ports at one write");
                }
                Some(_) => {}
                None => note_not_lost(coverage, subject, &hub, step, port),
            }
            addresses.push(address);
        }
        hub.registers.write(step.write.offset, step.write.value);
    }
}

/// Why the address of a replaced alias is no lost one, with the hub before the write.
fn note_not_lost(coverage: &mut Coverage, subject: &Subject, hub: &Hub, step: &Step, port: usize) {
    let address = step.before[port] >> 1;
    let end = subject.run.hub.who_hears(address, Direction::Write);
    let heard_by = hub.matches(address)[port].map(|device| registers_of(device.role).0);
    let nobody = end == Ok(Heard::Nobody) && address != 0;
    coverage.note(match heard_by {
        _ if !nobody => "not lost: heard in the end",
        None => "not lost: replaced while no device heard",
        Some(alias) if alias != step.write.offset => {
            "not lost: replaced while another alias was heard"
        }
        Some(_) if step.after[port] >> 1 == address => "not lost: replaced by the same address",
        Some(_) => "not lost: given to an alias again",
    });
}
