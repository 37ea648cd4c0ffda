//! Answers about traces with bursts, and what is refused of scripts and of traces.

mod facts;

use facts::of_kind;
use independent::facts::answer::Answer;
use independent::model::start::Start;
use independent::model::trace_builder::TraceBuilder;

#[test]
fn each_byte_of_a_burst_is_a_write() {
    let mut trace = TraceBuilder::with_hub(0x3D, Start::Board);
    trace.burst(0x4C, &[0x02]);
    trace.burst(0x5B, &[0xB0, 0x19, 0x61]);
    trace.read(0x4C);
    trace.burst(0x1F, &[0xFE, 0xF0, 0x03]);
    let answer = Answer::of_trace(&trace.into_bytes()).unwrap();
    assert_eq!(answer.writes, 7);
    assert_eq!(of_kind(&answer, "odd-alias"), ["note 3 p1 5C"]);
    let expected = ["note 3 p1 5D", "note 5 p 1F"];
    assert_eq!(of_kind(&answer, "bits-ignored"), expected);
    let expected = ["note 5 p 1F", "note 5 p 20", "note 5 p 21"];
    assert_eq!(of_kind(&answer, "no-change"), expected);
}

/// Record 3 writes 70 of port 0 in the first block, goes round, selects port 0 again, and then
/// writes 65 in the second block.
fn round(last: &[(u8, u8)]) -> Answer {
    let mut values = [0; 254];
    values[0] = 0x6B;
    values[0x4C + 256 - 0x70] = 0x01;
    values[0x58 + 256 - 0x70] = 0x58;
    values[0x65 + 256 - 0x70] = 0x62;
    let mut trace = TraceBuilder::with_hub(0x3D, Start::Board);
    trace.write(0x4C, 0x01);
    trace.burst(0x70, &values);
    for &(offset, value) in last {
        trace.write(offset, value);
    }
    Answer::of_trace(&trace.into_bytes()).unwrap()
}

#[test]
fn a_block_begins_at_the_byte_for_4c() {
    let answer = round(&[(0x70, 0x2B), (0x65, 0x64)]);
    assert_eq!(of_kind(&answer, "replaced"), ["wrong 3,4 p0 70"]);
    let answer = round(&[(0x4C, 0x01), (0x70, 0x2B), (0x65, 0x64)]);
    let expected = ["wrong 3,5 p0 70", "wrong 3,6 p0 65"];
    assert_eq!(of_kind(&answer, "replaced"), expected);
    let expected = ["note 2,3 p0 4C", "note 3,4 p0 4C"];
    assert_eq!(of_kind(&answer, "port-twice"), expected);
}

#[test]
fn a_refusal_has_the_number_that_convert_and_the_player_print() {
    let script =
        |address, text: &str| match Answer::of_script(address, Start::Board, text.as_bytes()) {
            Ok(_) => "taken".into(),
            Err(refused) => refused.to_string(),
        };
    assert_eq!(script(0x3D, ""), "taken");
    assert_eq!(script(0x78, "x"), "! 2");
    assert_eq!(script(0x3D, "\nWriteI2C(0x58 0x58)\n"), "2 ! 14");
    assert_eq!(script(0x3D, &" ".repeat(201)), "1 ! 15");
    assert_eq!(script(0x3D, "WriteI2C(0x58,0x58)"), "1 ! 14");
    let trace = |records: &[(u8, &[u8])]| {
        let mut trace = TraceBuilder::default();
        for (kind, data) in records {
            trace.record(*kind, data);
        }
        match Answer::of_trace(trace.as_bytes()) {
            Ok(_) => "taken".into(),
            Err(refused) => refused.to_string(),
        }
    };
    let hub: (u8, &[u8]) = (0x00, &[0x3D]);
    assert_eq!(trace(&[]), "! 13");
    assert_eq!(trace(&[hub]), "taken");
    assert_eq!(trace(&[(0x00, &[0x3D, 0x00])]), "taken");
    assert_eq!(trace(&[(0x00, &[0x07])]), "1 ! 2");
    assert_eq!(trace(&[(0x00, &[0x07, 0x00])]), "1 ! 2");
    assert_eq!(trace(&[(0x00, &[0x07, 0x01])]), "1 ! 13");
    assert_eq!(trace(&[(0x01, &[0x4C, 0x0F])]), "1 ! 13");
    assert_eq!(trace(&[hub, (0x01, &[0x4C, 0x0F]), hub]), "3 ! 13");
    assert_eq!(trace(&[hub, (0x03, &[0x30, 0x02])]), "2 ! 13");
    let refused_by_the_player: [(u8, &[u8]); 3] =
        [(0x03, &[0x80, 0]), (0x10, &[4, 10]), (0x11, &[0])];
    for record in refused_by_the_player {
        assert_eq!(trace(&[hub, record]), "taken");
    }
}
