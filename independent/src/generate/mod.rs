//! Generators: seeded traces and scripts for the comparisons, and the samples.

pub mod answers;
pub mod rng;
pub mod samples;
pub mod scripts;
pub mod traces;
mod values;

/// What the schedule gives for a number, and how often it gave that before.
fn scheduled<K: Copy + PartialEq>(schedule: &[K], number: u64) -> (K, u64) {
    let length = schedule.len() as u64;
    let place = (number % length) as usize;
    let kind = schedule[place];
    let times = |part: &[K]| part.iter().filter(|&&other| other == kind).count() as u64;
    let turn = number / length * times(schedule) + times(&schedule[..place]);
    (kind, turn)
}
