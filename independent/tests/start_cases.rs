//! Request L5: the two starts in the registers, in the hub record, in frames, scripts and answers, and
//! in the commands.

mod facts;

use facts::of_kind;
use independent::facts::answer::Answer;
use independent::facts::object::object;
use independent::model::convert::{hub_of, to_text, to_trace};
use independent::model::hub::Hub;
use independent::model::player::{end_state, text_of, Unwatched};
use independent::model::registers::RegisterFile;
use independent::model::start::{Start, STARTS};
use independent::model::trace_builder::TraceBuilder;
use std::path::Path;
use std::process::Command;

/// A trace with a first record of this data, then five frames of port 0.
fn framed(hub: &[u8], largest: Option<u8>) -> Vec<u8> {
    let mut trace = TraceBuilder::default();
    trace.record(0x00, hub);
    trace.write(0x20, 0xE0);
    if let Some(largest) = largest {
        trace.write(0x1E, largest);
    }
    for _ in 0..5 {
        trace.start(0, 10);
        trace.end(0);
    }
    trace.into_bytes()
}

fn printed(trace: &[u8]) -> String {
    String::from_utf8(text_of(trace, &mut Unwatched).0).unwrap()
}

/// The numbers that the frame starts and ends of a trace carry.
fn numbers(trace: &[u8]) -> Vec<u16> {
    let text = printed(trace);
    let lines = text.lines().map(|line| line.split(' ').collect::<Vec<_>>());
    let frames = lines.filter(|fields| matches!(fields[1], "S" | "E"));
    frames
        .map(|fields| {
            let bytes = u32::from_str_radix(fields[4], 16).unwrap().to_be_bytes();
            u16::from_le_bytes([bytes[1], bytes[2]])
        })
        .collect()
}

#[test]
fn the_starts_differ_in_1e_alone() {
    let [board, sheet] = STARTS.map(RegisterFile::at_start);
    assert_eq!(sheet, RegisterFile::after_reset());
    for offset in 0..=255u8 {
        let expected = match offset {
            0x1E => (0x00, 0x04),
            _ => (sheet.shared(offset), sheet.shared(offset)),
        };
        assert_eq!((board.shared(offset), sheet.shared(offset)), expected);
        for port in 0..4 {
            assert_eq!(board.on_port(port, offset), sheet.on_port(port, offset));
        }
    }
    assert_eq!(board.largest_frame_number(), 0);
    assert_eq!(sheet.largest_frame_number(), 4);
    let [board, sheet] = STARTS.map(|start| Hub::new(0x3D, start).unwrap());
    assert_eq!((board.address, board.frames), (sheet.address, sheet.frames));
}

#[test]
fn frames_carry_0_at_the_boards_start_and_1_2_3_4_1_at_the_sheets() {
    assert_eq!(numbers(&framed(&[0x3D], None)), [0; 10]);
    let counted = [1, 1, 2, 2, 3, 3, 4, 4, 1, 1];
    assert_eq!(numbers(&framed(&[0x3D, 0], None)), counted);
    for hub in [&[0x3D][..], &[0x3D, 0]] {
        assert_eq!(numbers(&framed(hub, Some(4))), counted);
        assert_eq!(numbers(&framed(hub, Some(0))), [0; 10]);
    }
}

#[test]
fn h_prints_the_address_alone() {
    for start in STARTS {
        let trace = TraceBuilder::with_hub(0x3D, start).into_bytes();
        assert_eq!(printed(&trace), "1 H 3D\nrecords 1 refused 0\n");
    }
}

#[test]
fn another_second_byte_or_a_third_is_13_before_2() {
    let first = |data: &[u8]| {
        printed(&framed(data, None))
            .lines()
            .next()
            .unwrap()
            .to_string()
    };
    for address in 0..=255u8 {
        let is_right = (0x08..=0x77).contains(&address);
        let expected = match is_right {
            true => format!("1 H {address:02X}"),
            false => "1 ! 2".into(),
        };
        assert_eq!(first(&[address]), expected);
        assert_eq!(first(&[address, 0]), expected);
        for length in [3, 4, 16, 254, 255] {
            let mut data = vec![0; length];
            data[0] = address;
            assert_eq!(first(&data), "1 ! 13", "{length} bytes");
        }
    }
    for second in 1..=255u8 {
        for address in [0x3D, 0x08, 0x77, 0x00, 0x07, 0x78, 0xFF, second] {
            assert_eq!(first(&[address, second]), "1 ! 13", "{second:02X}");
        }
    }
    assert_eq!(first(&[]), "1 ! 13");
}

#[test]
fn a_text_is_read_again_with_the_traces_own_start() {
    for start in STARTS {
        let mut trace = TraceBuilder::with_hub(0x3D, start);
        trace.burst(0x1F, &[0x01, 0xE0]);
        let trace = trace.into_bytes();
        assert_eq!(hub_of(&trace), Ok((0x3D, start)));
        let text = to_text(&trace).unwrap();
        for other in STARTS {
            let again = to_trace(0x3D, other, &text).unwrap();
            assert_eq!(hub_of(&again), Ok((0x3D, other)));
            assert_eq!(end_state(&again) == end_state(&trace), other == start);
        }
    }
}

#[test]
fn a_traces_start_is_told_by_its_first_record() {
    let told = |bytes: &[u8]| match hub_of(bytes) {
        Ok((address, start)) => format!("{address:02X} {}", start.name()),
        Err(refused) => refused.to_string(),
    };
    assert_eq!(told(&framed(&[0x3D], None)), "3D board");
    assert_eq!(told(&framed(&[0x77, 0], None)), "77 sheet");
    assert_eq!(told(&framed(&[0x78, 0], None)), "! 2");
    assert_eq!(told(&framed(&[0x78, 1], None)), "! 13");
    assert_eq!(told(&framed(&[0x3D, 1], None)), "! 13");
    assert_eq!(told(&[]), "! 13");
    assert_eq!(told(&[0x9A, 0x64, 0x01, 0x02, 0x4C, 0x0F]), "! 13");
    let mut damaged = framed(&[0x3D, 0], None);
    damaged.push(0x9A);
    assert_eq!(told(&damaged), "3D sheet");
}

#[test]
fn a_write_of_what_1e_starts_with_changes_nothing() {
    let found = |start, value: u8| {
        let text = format!("WriteI2C(0x1e,0x{value:02x})\n");
        let answer = Answer::of_script(0x3D, start, text.as_bytes()).unwrap();
        of_kind(&answer, "no-change")
    };
    assert_eq!(found(Start::Board, 0x00), ["note 1 p 1E"]);
    assert_eq!(found(Start::Board, 0x04), facts::NONE);
    assert_eq!(found(Start::Sheet, 0x00), facts::NONE);
    assert_eq!(found(Start::Sheet, 0x04), ["note 1 p 1E"]);
}

#[test]
fn the_object_has_the_start_after_the_hub() {
    for start in STARTS {
        let expected = format!(
            "{{\"hub\":\"3D\",\"start\":\"{}\",\"writes\":0,",
            start.name()
        );
        let of_script = Answer::of_script(0x3D, start, b"").unwrap();
        assert!(object(&of_script).starts_with(&expected));
        let trace = TraceBuilder::with_hub(0x3D, start).into_bytes();
        assert_eq!(Answer::of_trace(&trace).unwrap(), of_script);
    }
}

/// Standard output and the status.
fn call(arguments: &[&str]) -> (String, i32) {
    let root = Path::new(env!("CARGO_MANIFEST_DIR")).join("..");
    let output = Command::new(env!("CARGO_BIN_EXE_independent"))
        .args(arguments)
        .current_dir(root)
        .output()
        .unwrap();
    let text = String::from_utf8(output.stdout).unwrap();
    (text, output.status.code().unwrap())
}

#[test]
fn the_commands_take_and_tell_the_start() {
    let told = |trace| call(&["convert", "start", trace]);
    assert_eq!(told("samples/whole_case.trace"), ("3D sheet\n".into(), 0));
    assert_eq!(told("samples/weighbridge.trace"), ("3D board\n".into(), 0));
    assert_eq!(told("samples/weighbridge.script"), ("! 13\n".into(), 0));
    assert_eq!(told("/dev/null"), ("! 13\n".into(), 0));
    let script = "samples/weighbridge.script";
    let out = Path::new(env!("CARGO_TARGET_TMPDIR")).join("start.trace");
    let out = out.to_str().unwrap();
    for start in STARTS {
        let name = start.name();
        let made = call(&["convert", "trace", name, "3D", script, out, "-"]);
        assert_eq!(made, (String::new(), 0));
        assert_eq!(told(out), (format!("3D {name}\n"), 0));
    }
    let wrong = call(&["convert", "trace", "reset", "3D", script, out, "-"]);
    assert_eq!(wrong, (String::new(), 2));
    let head = |arguments: &[&str]| call(arguments).0.lines().next().unwrap().to_string();
    for command in ["show", "check"] {
        let board = format!("{script} on hub 3D, as the board starts");
        assert_eq!(head(&[command, "3D", script]), board);
        let sheet = format!("{script} on hub 3D, as the data sheet starts");
        assert_eq!(head(&[command, "--sheet", "3D", script]), sheet);
        let object = head(&[command, "--sheet", "--json", "3D", script]);
        assert_eq!(head(&[command, "--json", "--sheet", "3D", script]), object);
        assert!(object.starts_with("{\"hub\":\"3D\",\"start\":\"sheet\",\"writes\":21,"));
        let trace = "samples/whole_case.trace";
        let own = format!("{trace} on hub 3D, as the data sheet starts");
        assert_eq!(head(&[command, trace]), own);
    }
}
