//! The player: refusal 13 in all its forms, the end of the run, the last line, single answers.

use independent::generate::rng::Rng;
use independent::generate::samples::whole_case;
use independent::model::player::{text_of, Unwatched};
use independent::model::start::{Start, STARTS};
use independent::model::trace_builder::TraceBuilder;

fn text(trace: &[u8]) -> String {
    let (text, _) = text_of(trace, &mut Unwatched);
    String::from_utf8(text).unwrap()
}

fn played(trace: TraceBuilder) -> String {
    text(trace.as_bytes())
}

const REFUSED_AT_ONCE: &str = "1 ! 13\nrecords 1 refused 1\n";
const REFUSED_SECOND: &str = "1 H 3D\n2 ! 13\nrecords 2 refused 1\n";

#[test]
fn an_empty_file_gives_the_last_line_alone() {
    assert_eq!(text(&[]), "records 0 refused 0\n");
}

#[test]
fn files_that_begin_wrongly() {
    let beginnings: [&[u8]; 11] = [
        &[0x9A],
        &[0x00],
        &[0x9A, 0x64],
        &[0x9A, 0x64, 0x00],
        &[0x9A, 0x64, 0x00, 0x01],
        &[0x64, 0x9A, 0x00, 0x01, 0x3D],
        &[0x9A, 0x64, 0x00, 0x02, 0x3D],
        &[0x9A, 0x64, 0x00, 0x02, 0x3D, 0x3D],
        &[0x9A, 0x64, 0x00, 0x03, 0x3D, 0x00, 0x00],
        &[0x9A, 0x64, 0x00, 0x00, 0x3D],
        &[0x9A, 0x64, 0x02, 0x01, 0x4C],
    ];
    for beginning in beginnings {
        assert_eq!(text(beginning), REFUSED_AT_ONCE);
    }
}

#[test]
fn refusal_2_in_record_1_ends_the_run() {
    for address in [0x00, 0x07, 0x78, 0x80, 0xFF] {
        for start in STARTS {
            let mut trace = TraceBuilder::with_hub(address, start);
            trace.read(0x4C);
            assert_eq!(played(trace), "1 ! 2\nrecords 1 refused 1\n");
        }
    }
}

#[test]
fn refusal_2_later_does_not() {
    let mut trace = TraceBuilder::with_hub(0x3D, Start::Sheet);
    trace.ask_both(0x80);
    trace.read(0x0A);
    let expected = "1 H 3D\n2 ! 2\n3 ! 2\n4 R 0A 79\nrecords 4 refused 2\n";
    assert_eq!(played(trace), expected);
}

#[test]
fn refusal_13_comes_before_all_others_and_ends_the_run() {
    let wrong: [(u8, &[u8]); 15] = [
        (0x00, &[0x3D]),
        (0x00, &[0x3D, 0x00]),
        (0x00, &[0xFF]),
        (0x01, &[0x4C]),
        (0x01, &[]),
        (0x02, &[]),
        (0x02, &[0x4C, 0x00]),
        (0x03, &[0xFF, 0x02]),
        (0x03, &[0x80]),
        (0x04, &[0x00]),
        (0x10, &[0x04]),
        (0x10, &[0x04, 0x00, 0x00]),
        (0x11, &[]),
        (0x12, &[0x04, 0x00, 0x00, 0x00]),
        (0x12, &[0x04, 0x00, 0x00, 0x00, 0x00, 0x00]),
    ];
    for (kind, data) in wrong {
        let mut trace = TraceBuilder::with_hub(0x3D, Start::Sheet);
        trace.record(kind, data);
        trace.read(0x4C);
        assert_eq!(played(trace), REFUSED_SECOND, "{kind:02X} {data:02X?}");
    }
}

#[test]
fn every_cut_of_the_whole_case_prints_a_part_of_it() {
    let trace = whole_case();
    let whole = text(&trace);
    let lines: Vec<&str> = whole.lines().collect();
    let mut ends = vec![0];
    while *ends.last().unwrap() < trace.len() {
        let begin = *ends.last().unwrap();
        ends.push(begin + 4 + usize::from(trace[begin + 3]));
    }
    for length in 0..trace.len() {
        let complete = ends.iter().filter(|&&end| end <= length).count() - 1;
        let mut expected: Vec<String> = lines[..complete].iter().map(|l| l.to_string()).collect();
        let is_cut = !ends.contains(&length);
        if is_cut {
            expected.push(format!("{} ! 13", complete + 1));
        }
        let refused = usize::from(is_cut) + usize::from(complete >= 12);
        expected.push(format!(
            "records {} refused {refused}",
            complete + usize::from(is_cut)
        ));
        assert_eq!(text(&trace[..length]).lines().collect::<Vec<_>>(), expected);
    }
}

#[test]
fn answers_of_every_form() {
    let mut trace = TraceBuilder::with_hub(0x3D, Start::Sheet);
    trace.burst(0x4C, &[0x0F]);
    trace.write(0x58, 0x58);
    trace.burst(0x5B, &[0xB0, 0x18]);
    trace.ask_both(0x0C);
    trace.ask_both(0x3D);
    trace.ask_both(0x11);
    trace.start(2, 12);
    trace.line(2, 2, 0xFFF);
    trace.end(2);
    trace.write(0x20, 0x04);
    trace.start(2, 12);
    let expected = "\
1 H 3D
2 W 4C 1
3 W 58 1
4 W 5B 2
5 A 0C w 0:s58 1:s58 2:s58 3:s58
6 A 0C r 0:s58
7 A 3D w hub
8 A 3D r hub
9 A 11 w none
10 A 11 r none
11 S 2 drop
12 L 2 drop
13 E 2 drop
14 W 20 1
15 S 2 1 80020005
records 15 refused 0
";
    assert_eq!(played(trace), expected);
}

#[test]
fn a_full_burst_counts_254_values() {
    let mut trace = TraceBuilder::with_hub(0x3D, Start::Sheet);
    trace.burst(0x00, &[0xFF; 254]);
    let expected = "1 H 3D\n2 W 00 254\nrecords 2 refused 0\n";
    assert_eq!(played(trace), expected);
}

#[test]
fn no_bytes_make_it_fall() {
    let mut rng = Rng::new(7);
    for _ in 0..20_000 {
        let length = rng.index(200);
        let mut bytes = rng.bytes(length);
        if rng.one_in(2) {
            bytes.splice(0..0, whole_case());
        }
        assert!(text(&bytes).lines().last().unwrap().starts_with("records "));
    }
}
