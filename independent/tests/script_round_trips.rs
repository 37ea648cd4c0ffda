//! Scripts there and back, and what the generator of scripts gives.

use independent::compare::coverage::Coverage;
use independent::compare::scripts::{note_points, CONVERTERS};
use independent::generate::scripts::{numbered, Case, Job, Kind};
use independent::model::convert::{hub_of, to_text, to_trace};
use independent::model::player::end_state;
use independent::model::refusal::Refusal;
use independent::model::script_line::LONGEST_LINE;

fn cases(seed: u64) -> impl Iterator<Item = Case> {
    (0..2500).map(move |number| numbered(seed, number))
}

#[test]
fn the_text_of_a_trace_plays_to_the_same_end_state() {
    let mut turned = 0;
    for case in cases(3) {
        let Job::Text { trace } = case.job else {
            continue;
        };
        let Ok(text) = to_text(&trace) else {
            continue;
        };
        let end = end_state(&trace).unwrap();
        let (address, start) = hub_of(&trace).unwrap();
        assert_eq!(address, end.address);
        let again = to_trace(address, start, &text).unwrap();
        assert_eq!(hub_of(&again).unwrap(), (address, start));
        assert_eq!(end_state(&again).unwrap(), end);
        assert_eq!(to_text(&again).unwrap(), text);
        turned += 1;
    }
    assert!(turned > 150);
}

#[test]
fn the_trace_of_a_text_is_the_one_of_its_own_text() {
    let mut turned = 0;
    for case in cases(4) {
        let Job::Trace {
            address,
            start,
            text,
        } = case.job
        else {
            continue;
        };
        let Ok(trace) = to_trace(address, start, &text) else {
            continue;
        };
        let plain = to_text(&trace).unwrap();
        assert_eq!(hub_of(&trace).unwrap(), (address, start));
        assert_eq!(to_trace(address, start, &plain).unwrap(), trace);
        turned += 1;
    }
    assert!(turned > 250);
}

#[test]
fn wrong_lines_are_refused_14() {
    let mut refusals = 0;
    for case in cases(5).filter(|case| case.wrong.is_some()) {
        let Job::Trace {
            address,
            start,
            text,
        } = case.job
        else {
            panic!("a wrong line is a text");
        };
        let refused = to_trace(address, start, &text).unwrap_err();
        assert_eq!(refused.refusal, Refusal::LineShape, "{:?}", case.wrong);
        refusals += 1;
    }
    assert!(refusals > 200, "{refusals} wrong lines");
}

#[test]
fn right_lines_are_taken() {
    let is_right = |case: &Case| matches!(case.kind, Kind::Right | Kind::Sample);
    let mut taken = 0;
    for case in cases(6).filter(is_right) {
        let Job::Trace {
            address,
            start,
            text,
        } = case.job
        else {
            panic!("right lines are a text");
        };
        let longest = text.split(|&byte| byte == b'\n').map(<[u8]>::len).max();
        assert!(longest <= Some(LONGEST_LINE));
        assert!(to_trace(address, start, &text).is_ok());
        taken += 1;
    }
    assert!(taken > 150, "{taken} right texts");
}

#[test]
fn the_same_seed_gives_the_same_cases() {
    for number in [0, 10, 11, 20, 33, 400, 3999] {
        assert_eq!(numbered(5, number), numbered(5, number));
    }
    assert_ne!(numbered(5, 401), numbered(6, 401));
}

#[test]
fn every_point_is_reached_whatever_the_seed() {
    for seed in [964, 0, 1, u64::MAX] {
        let mut coverage = Coverage::new(CONVERTERS.points);
        for number in 0..2500 {
            note_points(&mut coverage, seed, number);
        }
        assert_eq!(coverage.missing(CONVERTERS.points), [""; 0], "seed {seed}");
    }
}
