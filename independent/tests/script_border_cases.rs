//! Converters that are right but for the borders of what is read and written at a time: found.
#![cfg(unix)]

mod common;

use common::TestFolder;
use independent::compare::difference::Difference;
use independent::compare::scripts::CONVERTERS;

/// The cases at the borders come first.
const CASES: u64 = 140;

/// What is found in a converter that does this with these calls, and otherwise what it should.
fn found(name: &str, calls: &str, wrong: &str) -> Difference {
    let script = format!("if {calls}; then {wrong}; else exec OWN convert \"$@\"; fi");
    let settings = TestFolder::new(name).settings(&script, CASES);
    let difference = CONVERTERS.run(&settings).unwrap().difference;
    let difference = difference.unwrap_or_else(|| panic!("nothing is found in: {script}"));
    assert_eq!(difference.kind, "border", "{script}: {}", difference.what);
    difference
}

/// The call that showed the difference.
fn call(difference: &Difference) -> String {
    let (_, call) = &difference.files[0];
    String::from_utf8_lossy(call).trim_end().to_string()
}

#[test]
fn a_script_of_which_too_little_is_read_is_found() {
    for border in [65_536, 131_072, 262_144] {
        let wrong = format!("cat $4 | head -c {border} | OWN convert trace $2 $3 - \"$5\" -");
        let file = found("script-file", "[ $1 = trace ] && [ $4 != - ]", &wrong);
        assert!(call(&file).ends_with(" SCRIPT OUT PART"), "{}", call(&file));
        let pipe = found("script-pipe", "[ $1 = trace ] && [ $4 = - ]", &wrong);
        assert!(call(&pipe).ends_with(" - OUT PART"), "{}", call(&pipe));
    }
}

#[test]
fn a_trace_of_which_too_little_is_read_is_found() {
    for border in [65_536, 262_144] {
        let wrong = format!("cat $2 | head -c {border} | OWN convert text -");
        let file = found("trace-file", "[ $1 = text ] && [ $2 != - ]", &wrong);
        assert_eq!(call(&file), "convert text TRACE");
        let pipe = found("trace-pipe", "[ $1 = text ] && [ $2 = - ]", &wrong);
        assert_eq!(call(&pipe), "convert text -");
    }
}

#[test]
fn a_text_or_trace_of_which_too_little_is_written_is_found() {
    for border in [65_536, 262_144] {
        let wrong = format!("OWN convert text $2 | head -c {border}");
        let what = found("text-cut", "[ $1 = text ]", &wrong).what;
        assert!(what.contains("should be \"WriteI2C(0x"), "{what}");
    }
    let wrong = "OWN convert trace $2 $3 $4 \"$5\" -; truncate -c -s '<65536' \"$5\"";
    let what = found("trace-cut", "[ $1 = trace ]", wrong).what;
    assert!(what.ends_with("which differ from byte 65536 on"), "{what}");
}

#[test]
fn a_byte_that_is_left_out_at_a_border_is_found() {
    let left_out = |file: &str| format!("{{ head -c 65535 {file}; tail -c +65537 {file}; }}");
    let wrong = format!("{} | OWN convert trace $2 $3 - \"$5\" -", left_out("$4"));
    found("script-byte", "[ $1 = trace ] && [ $4 != - ]", &wrong);
    let wrong = format!("{} | OWN convert text -", left_out("$2"));
    found("trace-byte", "[ $1 = text ] && [ $2 != - ]", &wrong);
}

/// Of a trace of 65536 bytes whose last record lacks its last byte, the lines that one buffer holds.
#[test]
fn a_text_that_is_printed_before_a_refusal_is_found() {
    let before = 65_536 - 258;
    let wrong = format!(
        "head -c {before} $2 | OWN convert text - 2>/dev/null | grep -v ! | head -n 3276
OWN convert text $2"
    );
    let calls = "[ $1 = text ] && [ $2 != - ] && OWN convert text $2 2>/dev/null | grep -q !";
    let what = found("early-text", calls, &wrong).what;
    let expected = "line 1 should be \"! 13\\n\" and is \"WriteI2C(0x";
    assert!(what.starts_with(expected), "{what}");
}
