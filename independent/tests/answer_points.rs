//! The points of the comparison of answers: they are reached whatever the seed, and have one name each.

use independent::compare::answers::{note_points, ANSWERS};
use independent::compare::coverage::Coverage;
use std::collections::BTreeSet;

#[test]
fn every_point_is_reached_whatever_the_seed() {
    for seed in [964, 0, 1, u64::MAX] {
        let mut coverage = Coverage::new(ANSWERS.points);
        for number in 0..2000 {
            note_points(&mut coverage, seed, number);
        }
        assert_eq!(coverage.missing(ANSWERS.points), [""; 0], "seed {seed}");
    }
}

#[test]
fn no_point_has_the_name_of_another() {
    let names: BTreeSet<&str> = ANSWERS.points.iter().copied().collect();
    assert_eq!(names.len(), ANSWERS.points.len());
}
