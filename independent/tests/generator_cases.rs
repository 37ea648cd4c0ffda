//! The generator: same seed, same traces; every point reached; large traces as long as asked.

use independent::compare::coverage::Coverage;
use independent::compare::players::{play, PLAYERS};
use independent::generate::rng::Rng;
use independent::generate::traces::{large, numbered, trace, Kind};
use independent::model::player::{text_of, Unwatched};

#[test]
fn the_same_seed_gives_the_same_traces() {
    for number in [0, 1, 2, 17, 399, 3999] {
        assert_eq!(numbered(5, number), numbered(5, number));
    }
    assert_ne!(numbered(5, 21), numbered(6, 21));
}

#[test]
fn every_point_is_reached_whatever_the_seed() {
    for seed in [964, 0, 1, u64::MAX] {
        let mut coverage = Coverage::new(PLAYERS.points);
        for number in 0..1000 {
            let (_, trace) = numbered(seed, number);
            play(&trace, &mut coverage);
        }
        assert_eq!(coverage.missing(PLAYERS.points), [""; 0], "seed {seed}");
    }
}

#[test]
fn every_kind_has_a_name_and_traces() {
    for name in Kind::names() {
        let kind = Kind::of_name(name).unwrap();
        assert_eq!(kind.name(), name);
        for turn in [0, 1, 77, u64::MAX] {
            trace(kind, &mut Rng::new(turn), turn);
        }
    }
    for number in (0..40).chain([200, 400]) {
        let (kind, _) = numbered(1, number);
        assert_eq!(Kind::of_name(kind.name()), Some(kind));
    }
    assert_eq!(Kind::of_name("none such"), None);
}

#[test]
fn large_traces_are_as_long_as_asked_and_mostly_answered() {
    for records in [0, 1, 5, 1000, 30_000] {
        let bytes = large::in_memory(&mut Rng::new(8), records);
        let (_, totals) = text_of(&bytes, &mut Unwatched);
        assert_eq!(totals.records, records);
        assert!(totals.refused * 10 <= records);
    }
}
