//! The comparison of converters: it passes a right one, and finds and keeps what a wrong one does.
#![cfg(unix)]

mod common;

use common::TestFolder;
use independent::compare::comparison::{Findings, Settings};
use independent::compare::scripts::CONVERTERS;
use independent::generate::samples::SCRIPTS;
use independent::model::start::{Start, STARTS};
use std::fs;
use std::path::PathBuf;
use std::time::Duration;

const RIGHT: &str = "exec OWN convert \"$@\"";

impl TestFolder {
    fn findings(&self, script: &str, count: u64) -> Findings {
        CONVERTERS.run(&self.settings(script, count)).unwrap()
    }
}

/// What is found in a converter that does this, among the first cases.
fn found(name: &str, script: &str) -> String {
    let findings = TestFolder::new(name).findings(script, 400);
    findings.difference.map_or("nothing".into(), |it| it.what)
}

#[test]
fn a_right_converter_passes_and_too_few_cases_do_not() {
    let findings = TestFolder::new("right-converter").findings(RIGHT, 60);
    assert!(findings.difference.is_none());
    assert_eq!(findings.texts + findings.traces, 60);
    assert!(CONVERTERS
        .summary(&findings)
        .unwrap_err()
        .contains("raise --count"));
}

#[test]
fn a_right_converter_reaches_every_point() {
    let findings = TestFolder::new("whole-comparison").findings(RIGHT, 2500);
    assert!(findings.difference.is_none());
    assert!(CONVERTERS
        .summary(&findings)
        .unwrap()
        .ends_with("0 differences"));
}

#[test]
fn a_changed_byte_of_the_trace_is_found_and_kept() {
    let folder = TestFolder::new("changed-trace");
    let script = "OWN convert \"$@\"; [ $1 != trace ] || printf X | dd of=\"$5\" bs=1 seek=4 conv=notrunc 2>/dev/null";
    let difference = folder.findings(script, 60).difference.unwrap();
    assert_eq!((difference.number, difference.kind), (0, "sample"));
    let expected = "the trace's file should have 65 bytes and has 65, which differ from byte 4 on";
    assert_eq!(difference.what, expected);
    let kept = folder.path.join("kept");
    let name = difference.keep(&kept, 964).unwrap();
    assert_eq!(name, "seed-964-case-0");
    let file = |ending: &str| fs::read(kept.join(format!("{name}.{ending}"))).unwrap();
    assert_eq!(file("script"), SCRIPTS[0].1);
    assert!(file("call.txt").starts_with(b"convert trace "));
    assert!(file("expected.txt").is_empty() && file("actual.txt").is_empty());
    assert!(file("stderr.txt").is_empty());
    assert_ne!(file("expected.out.trace"), file("actual.out.trace"));
}

#[test]
fn another_refusal_or_line_number_is_found() {
    let what = found(
        "another-refusal",
        "OWN convert \"$@\" | sed 's/! 14$/! 15/'",
    );
    assert!(what.contains("! 14\\n\" and is"), "{what}");
    let what = found(
        "no-line-number",
        "OWN convert \"$@\" | sed 's/^[0-9]* !/!/'",
    );
    assert!(what.contains("should be \"65537 ! 14"), "{what}");
}

#[test]
fn a_refusal_that_touches_the_trace_file_is_found() {
    let what = found(
        "emptied",
        "[ $1 != trace ] || : >\"$5\"; OWN convert \"$@\"",
    );
    assert!(what.starts_with("the trace's file should"), "{what}");
    let script = "[ $1 != trace ] || [ -e \"$5\" ] || : >\"$5\"; OWN convert \"$@\"";
    let what = found("made", script);
    assert_eq!(what, "the trace's file should not be there");
    let script = "[ $1 != trace ] || rm -f \"$5\"; OWN convert \"$@\"";
    assert_eq!(found("removed", script), "the trace's file is not there");
}

#[test]
fn a_trace_file_that_is_not_made_or_not_cut_is_found() {
    let script =
        "[ $1 != trace ] && exec OWN convert \"$@\"; OWN convert trace $2 $3 $4 /dev/null -";
    let what = found("not-made", script);
    assert!(what.starts_with("the trace's file"), "{what}");
    let script = "[ $1 != trace ] && exec OWN convert \"$@\"
OWN convert trace $2 $3 $4 \"$5.new\" -
[ ! -e \"$5.new\" ] || dd if=\"$5.new\" of=\"$5\" conv=notrunc 2>/dev/null; rm -f \"$5.new\"";
    let what = found("not-cut", script);
    assert!(what.contains("bytes and has 5000"), "{what}");
}

#[test]
fn a_file_that_is_left_behind_is_found() {
    let script = "OWN convert \"$@\"; [ $1 != trace ] || : >\"$5.part\"";
    let expected = "the file out.trace.part was left behind";
    assert_eq!(found("part-left", script), expected);
    let script = "[ $1 != trace ] && exec OWN convert \"$@\"
OWN convert trace $2 $3 $4 \"$5.part\" -; [ -e \"$5.part\" ] && exec mv \"$5.part\" \"$5\"; : >\"$5.part\"";
    assert_eq!(found("part-left-by-a-refusal", script), expected);
}

#[test]
fn wrong_streams_are_found() {
    let what = found("silent-refusal", "OWN convert \"$@\" 2>/dev/null");
    assert_eq!(what, "its standard error is not one line: missing");
    let what = found("words", "echo hm >&2; exec OWN convert \"$@\"");
    assert_eq!(what, "its standard error is not empty: \"hm\"");
    let twice = "e=$0.$$; OWN convert \"$@\" 2>$e; sed p $e >&2; rm $e";
    let what = found("words-twice", twice);
    assert!(
        what.starts_with("its standard error is not one line"),
        "{what}"
    );
    let first_only = "e=$0.$$; OWN convert \"$@\" 2>$e; head -n 1 $e >&2; rm $e";
    let what = found("first-line-only", first_only);
    let missing = "should begin with \"loopcinder trace: line";
    assert!(
        what.contains(missing) && what.ends_with("and is missing"),
        "{what}"
    );
    let what = found("done", "OWN convert \"$@\"; [ $1 != trace ] || echo done");
    assert_eq!(what, "line 1 should be missing and is \"done\\n\"");
    let what = found("status", "OWN convert \"$@\"; exit 1");
    assert!(what.contains("exit status: 1"), "{what}");
}

#[test]
fn a_converter_that_takes_too_much_is_found() {
    let taken = "! 14\\n\" and is"; // nothing, or a later refusal
    let changes = [
        ("carriage-returns", "tr '\\r' ' '", taken),
        ("last-line", "sed '$a\\'", taken),
        ("form-feeds", "tr '\\f' ' '", taken),
        ("capital-x", "sed 's/0X/0x/'", taken),
    ];
    for (name, change, expected) in changes {
        let script = format!(
            "[ $1 != trace ] && exec OWN convert \"$@\"
cat $4 | {change} | OWN convert trace $2 $3 - \"$5\" -"
        );
        let findings = TestFolder::new(name).findings(&script, 2500);
        let what = findings.difference.unwrap().what;
        assert!(what.contains(expected), "{name}: {what}");
    }
}

#[test]
fn another_text_is_found() {
    let otherwise = "[ $1 = trace ] && exec OWN convert \"$@\"; OWN convert \"$@\"";
    let what = found("capitals", &format!("{otherwise} | sed 's/,0xa/,0xA/'"));
    assert!(what.contains("and is \"WriteI2C(0x"), "{what}");
    let what = found("no-wrap", &format!("{otherwise} | sed /0x00,/d"));
    assert!(what.contains("should be \"WriteI2C(0x00,"), "{what}");
    let what = found("hub-line", "[ $1 = text ] && echo; exec OWN convert \"$@\"");
    assert!(what.starts_with("line 1 should be"), "{what}");
}

#[test]
fn another_start_is_found() {
    for start in STARTS {
        let (name, other) = (
            start.name(),
            STARTS[usize::from(start == Start::Board)].name(),
        );
        let script = format!(
            "[ $1 = trace ] || exec OWN convert \"$@\"; exec OWN convert trace {name} $3 $4 \"$5\" -"
        );
        let what = found(&format!("always-{name}"), &script);
        assert!(what.ends_with("which differ from byte 3 on"), "{what}");
        let said = format!("OWN convert \"$@\" | sed 's/^\\(..\\) {name}$/\\1 {other}/'");
        let what = found(&format!("says-{other}"), &said);
        let expected = format!(" {name}\\n\" and is \"");
        assert!(what.contains(&expected) && what.contains(other), "{what}");
    }
    let what = found(
        "silent",
        "[ $1 != start ] || exit 0; exec OWN convert \"$@\"",
    );
    assert!(what.ends_with("and is missing"), "{what}");
}

#[test]
fn a_hub_record_that_is_none_has_to_be_refused() {
    let taken = |second: &str| {
        format!(
            "[ $1 = text ] && [ $2 != - ] || exec OWN convert \"$@\"
case $(head -c 6 $2 | od -An -tx1 | tr -d ' ') in
    9a640002??{second}) printf '\\232d\\0\\1='; tail -c +7 $2 ;;
    *) cat $2 ;;
esac | OWN convert text -"
        )
    };
    for second in ["01", "ff", "[1-9a-f]?"] {
        let findings = TestFolder::new("second-byte").findings(&taken(second), 2500);
        let what = findings.difference.unwrap().what;
        assert!(what.starts_with("line 1 should be \"! 13\\n\""), "{what}");
    }
}

#[test]
fn a_converter_that_takes_too_long_is_ended() {
    let folder = TestFolder::new("endless-converter");
    let mut settings = folder.settings("exec sleep 3", 60);
    settings.time_limit = Duration::from_millis(300);
    let difference = CONVERTERS.run(&settings).unwrap().difference.unwrap();
    assert!(difference.what.contains("did not come to an end"));
}

#[test]
fn a_converter_that_is_not_there_is_reported() {
    let settings = Settings::new(PathBuf::from("/no/such/convert"));
    let error = CONVERTERS.run(&settings).err().unwrap().to_string();
    assert!(error.starts_with("cannot run the converter /no/such/convert"));
}
