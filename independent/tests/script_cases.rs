//! Request L1 by hand: scripts to traces and back, and every refusal in its order.

use independent::model::convert::{to_text, to_trace, Refused};
use independent::model::refusal::Refusal;
use independent::model::start::{Start, STARTS};
use independent::model::trace_builder::TraceBuilder;

/// What the program would print of a refusal.
fn refused<T>(answer: Result<T, Refused>) -> String {
    answer
        .err()
        .map_or("taken".into(), |refused| refused.to_string())
}

/// Of a script, with a hub address that is right.
fn refusal(text: &str) -> String {
    refused(to_trace(0x3D, Start::Board, text.as_bytes()))
}

fn text_of(trace: TraceBuilder) -> Result<String, Refused> {
    to_text(trace.as_bytes()).map(|text| String::from_utf8(text).unwrap())
}

const CALL: &str = "WriteI2C(0x4c,0x0f)";

#[test]
fn a_script_gives_the_hub_record_and_a_write_for_each_call() {
    let text = "\
#  \"FPD3_PORT_SEL Broadcast RX0/1/2/3\"
WriteI2C(0x4c,0x0f) # RX_PORT0 read; RX0/1/2/3 write

\tWriteI2C ( 0x58 ,\t0x58 ) #WriteI2C(0x00,0x00)
 \t
WriteI2C(0xB0,0x2)
WriteI2C(0xf,0xaB)#
";
    let trace = [
        0x9A, 0x64, 0x00, 1, 0x3D, //
        0x9A, 0x64, 0x01, 2, 0x4C, 0x0F, //
        0x9A, 0x64, 0x01, 2, 0x58, 0x58, //
        0x9A, 0x64, 0x01, 2, 0xB0, 0x02, //
        0x9A, 0x64, 0x01, 2, 0x0F, 0xAB,
    ];
    assert_eq!(
        to_trace(0x3D, Start::Board, text.as_bytes()).unwrap(),
        trace
    );
}

#[test]
fn texts_without_a_call_give_the_hub_record_alone() {
    for text in [
        "",
        "\n",
        "\n\n",
        " \n",
        "#\n",
        "\t# \r\0\u{B5}\n",
        "# x\n\n",
    ] {
        let trace = to_trace(0x77, Start::Board, text.as_bytes()).unwrap();
        assert_eq!(trace, [0x9A, 0x64, 0x00, 1, 0x77], "{text:?}");
        let trace = to_trace(0x77, Start::Sheet, text.as_bytes()).unwrap();
        assert_eq!(trace, [0x9A, 0x64, 0x00, 2, 0x77, 0x00], "{text:?}");
    }
}

#[test]
fn a_line_has_200_bytes_at_most() {
    for length in [200, 201, 456, 65_736] {
        let expected = if length == 200 { "taken" } else { "2 ! 15" };
        let blanks = " ".repeat(length - CALL.len());
        let lines = [
            format!("{CALL}{blanks}"),
            format!("{blanks}{CALL}"),
            format!("WriteI2C(0x4c,{blanks}0x0f)"),
            format!("{CALL}#{}", "-".repeat(length - CALL.len() - 1)),
            format!("#{}", "x".repeat(length - 1)),
            "\t".repeat(length),
        ];
        for line in lines {
            assert_eq!(line.len(), length);
            assert_eq!(refusal(&format!("\n{line}\n{CALL}\n")), expected, "{line}");
        }
    }
}

#[test]
fn the_first_line_that_is_refused_decides_and_15_comes_before_14() {
    let (long, wrong) = (" ".repeat(201), "x");
    assert_eq!(refusal(&format!("{CALL}\n{wrong}\n{long}\n")), "2 ! 14");
    assert_eq!(refusal(&format!("{CALL}\n{long}\n{wrong}\n")), "2 ! 15");
    assert_eq!(refusal(&format!("{}\n", wrong.repeat(201))), "1 ! 15");
    assert_eq!(refusal(&format!("{}\n", wrong.repeat(200))), "1 ! 14");
    let far = "\n".repeat(70_000);
    assert_eq!(refusal(&format!("{far}{wrong}\n")), "70001 ! 14");
}

#[test]
fn a_last_line_without_a_line_feed_is_none() {
    for last in [CALL, "#", " ", "x", &" ".repeat(200)] {
        assert_eq!(refusal(&format!("{CALL}\n{last}")), "2 ! 14");
    }
    for last in [" ".repeat(201), "x".repeat(201)] {
        assert_eq!(refusal(&format!("{CALL}\n\n{last}")), "3 ! 15");
    }
}

#[test]
fn the_hub_address_comes_before_any_line() {
    for address in [0x00, 0x07, 0x78, 0x7F, 0x80, 0xFF] {
        for text in ["", "x", &" ".repeat(300)] {
            for start in STARTS {
                assert_eq!(refused(to_trace(address, start, text.as_bytes())), "! 2");
            }
        }
    }
    for address in [0x08, 0x77] {
        assert_eq!(refused(to_trace(address, Start::Sheet, b"x\n")), "1 ! 14");
    }
}

#[test]
fn a_trace_gives_a_line_for_each_byte() {
    let mut trace = TraceBuilder::with_hub(0x3D, Start::Sheet);
    trace.write(0x4C, 0x0F);
    trace.burst(0xFE, &[0x01, 0xAB, 0x00, 0xF0]);
    let text = "\
WriteI2C(0x4c,0x0f)
WriteI2C(0xfe,0x01)
WriteI2C(0xff,0xab)
WriteI2C(0x00,0x00)
WriteI2C(0x01,0xf0)
";
    assert_eq!(text_of(trace).unwrap(), text);
    assert_eq!(
        text_of(TraceBuilder::with_hub(0x08, Start::Board)).unwrap(),
        ""
    );
    let mut trace = TraceBuilder::with_hub(0x3D, Start::Sheet);
    trace.burst(0x80, &[0x55; 254]);
    let text = text_of(trace).unwrap();
    assert_eq!(text.lines().count(), 254);
    assert!(text.ends_with("WriteI2C(0x7c,0x55)\nWriteI2C(0x7d,0x55)\n"));
}

#[test]
fn traces_are_refused_record_by_record() {
    let with = |address: u8, records: &[(u8, &[u8])]| {
        let mut trace = TraceBuilder::with_hub(address, Start::Board);
        for (kind, data) in records {
            trace.record(*kind, data);
        }
        refused(text_of(trace))
    };
    assert_eq!(refused(to_text(&[])), "! 13");
    assert_eq!(refused(to_text(&[0x9A])), "! 13");
    assert_eq!(refused(text_of(TraceBuilder::default())), "! 13");
    let right: [(u8, &[u8]); 5] = [
        (0x02, &[0x4C]),
        (0x03, &[0x30, 0x00]),
        (0x10, &[0x00, 0x0A]),
        (0x11, &[0x00]),
        (0x12, &[0x00, 0x04, 0x00, 0x00, 0x00]),
    ];
    for (kind, data) in right {
        assert_eq!(with(0x3D, &[(kind, data)]), "! 16");
        assert_eq!(with(0x3D, &[(0x01, &[0x4C, 0x0F]), (kind, data)]), "! 16");
        assert_eq!(with(0x3D, &[(kind, data), (0x13, &[])]), "! 16");
        assert_eq!(with(0x3D, &[(0x13, &[]), (kind, data)]), "! 13");
        assert_eq!(with(0x3D, &[(kind, &data[1..])]), "! 13");
        assert_eq!(with(0x78, &[(kind, data)]), "! 2");
    }
    assert_eq!(with(0x3D, &[(0x03, &[0x30, 0x02])]), "! 13");
    assert_eq!(with(0x3D, &[(0x00, &[0x3D])]), "! 13");
    assert_eq!(with(0x3D, &[(0x01, &[0x4C])]), "! 13");
    assert_eq!(with(0x07, &[(0x13, &[])]), "! 2");
    let mut first = TraceBuilder::default();
    first.write(0x4C, 0x0F);
    assert_eq!(refused(text_of(first)), "! 13");
    let mut first = TraceBuilder::default();
    first.record(0x00, &[0xFF, 0xFF]);
    assert_eq!(refused(text_of(first)), "! 13");
}

#[test]
fn refusals_have_the_numbers_of_the_paper() {
    let numbers = [
        (Refusal::LineShape, 14),
        (Refusal::LineTooLong, 15),
        (Refusal::NoTextForm, 16),
    ];
    for (refusal, number) in numbers {
        assert_eq!(refusal.number(), number);
    }
}
