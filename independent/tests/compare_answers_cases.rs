//! The comparison of answers: it passes a right program, and finds and keeps what a wrong one says.
#![cfg(unix)]

mod answers;
mod common;

use answers::{changed, found, RIGHT};
use common::TestFolder;
use independent::compare::answers::ANSWERS;
use independent::compare::comparison::Settings;
use independent::generate::samples::SCRIPTS;
use std::fs;
use std::path::PathBuf;
use std::time::Duration;

#[test]
fn a_right_program_passes_and_too_few_cases_do_not() {
    let findings = TestFolder::new("right-answers").findings(RIGHT, 200);
    assert!(findings.difference.is_none());
    assert_eq!(findings.texts + findings.traces, 200);
    let summary = ANSWERS.summary(&findings).unwrap_err();
    assert!(summary.contains("raise --count"), "{summary}");
    assert_eq!(found("unchanged", &changed("show", "cat")), "nothing");
}

#[test]
fn another_word_is_found_and_kept() {
    for (word, ending) in [
        ("json", "json"),
        ("show", "txt"),
        ("check", "txt"),
        ("check-json", "json"),
    ] {
        let folder = TestFolder::new(&format!("another-{word}"));
        let script = changed(word, "sed 's/not.follow/ignored/'");
        let difference = folder.findings(&script, 60).difference.unwrap();
        assert_eq!((difference.number, difference.kind), (0, "sample"));
        let kept = folder.path.join("kept");
        let name = difference.keep(&kept, 964).unwrap();
        assert_eq!(name, "seed-964-case-0");
        let file = |ending: &str| fs::read(kept.join(format!("{name}.{ending}"))).unwrap();
        assert_eq!(file("script"), SCRIPTS[0].1);
        let call = String::from_utf8(file("call.txt")).unwrap();
        assert!(
            call.starts_with(&format!("{word} board 3D SCRIPT\nSCRIPT is /")),
            "{call}"
        );
        assert_ne!(
            file(&format!("expected.{ending}")),
            file(&format!("actual.{ending}"))
        );
        assert!(file("stderr.txt").is_empty());
    }
}

#[test]
fn each_part_of_the_object_is_compared() {
    let changes = [
        ("hub", "s/\"hub\":\"0/\"hub\":\"/"),
        ("start", "s/\"start\":\"sheet\"/\"start\":\"board\"/"),
        ("writes", "s/\"writes\":21/\"writes\":20/"),
        ("any-order", "s/\"any_order\":false/\"any_order\":true/"),
        ("output", "s/\"output\":null/\"output\":0/"),
        ("raw12-line", "s/\"raw12\":null/\"raw12\":0/"),
        ("unclear", "s/! 9/none/"),
        ("serializer", "s/:s/:/"),
        ("address-lines", "s/\\(hub\",\"lines\":\\)\\[\\]/\\1null/"),
        ("grade", "s/\"meant\"/\"wrong\"/"),
        ("ports", "s/\"ports\":\\[0,1\\]/\"ports\":[1,0]/"),
        ("format", "s/\"raw12\"}/\"raw10\"}/"),
        ("register", "s/,\"register\":\"4C\"//"),
        ("blank", "s/},{\"kind\"/}, {\"kind\"/"),
    ];
    for (name, change) in changes {
        let what = found(name, &changed("json", &format!("sed '{change}'")));
        assert!(what.starts_with("line 1"), "{name}: {what}");
    }
}

#[test]
fn another_start_is_found() {
    let board = RIGHT.replace("set -- --sheet \"$@\"", ":");
    let sheet = RIGHT.replace("board) shift ;;", "board) shift; set -- --sheet \"$@\" ;;");
    for (name, script) in [("always-board", board), ("always-sheet", sheet)] {
        let what = found(name, &script);
        assert!(what.contains("\"start\\\":"), "{name}: {what}");
    }
}

/// A program that says the start it is given, and runs the script from the other.
#[test]
fn a_start_that_is_only_said_is_found() {
    let script = format!(
        "case \"$1 $2\" in
    'json board') OWN show --json --sheet $3 \"$4\" | sed 's/:\"sheet\"/:\"board\"/'; exit ;;
    'json sheet') OWN show --json $3 \"$4\" | sed 's/:\"board\"/:\"sheet\"/'; exit ;;
esac
{RIGHT}"
    );
    let folder = TestFolder::new("only-said");
    let what = folder.findings(&script, 800).difference.unwrap().what;
    assert!(what.contains("no-change"), "{what}");
}

#[test]
fn a_finding_left_out_is_found() {
    for kind in [
        "replaced",
        "same-channel",
        "same-address",
        "no-port",
        "not-set-up",
        "port-twice",
        "shared-in-block",
        "not-followed",
        "bits-ignored",
        "no-change",
        "odd-alias",
        "no-address",
    ] {
        let change = format!("sed 's/,{{\"kind\":\"{kind}\"[^}}]*}}//'");
        let what = found(&format!("no-{kind}"), &changed("json", &change));
        assert!(what.starts_with("line 1, from byte "), "{kind}: {what}");
        let change = format!("sed 's/ *\\[{kind}\\]//'");
        let what = found(&format!("unnamed-{kind}"), &changed("check", &change));
        assert!(what.contains(&format!("[{kind}]")), "{kind}: {what}");
    }
}

#[test]
fn another_refusal_and_a_missing_line_feed_are_found() {
    for word in ["json", "show", "check"] {
        let what = found("refusal", &changed(word, "sed 's/! 13$/! 12/'"));
        let right = "line 1 should be \"! 13\\n\" and is \"! 12\\n\"";
        assert_eq!(what, right, "the empty trace");
    }
    let what = found("no-line-feed", &changed("json", "tr -d '\\n'"));
    assert!(what.ends_with("]}\""), "{what}");
}

#[test]
fn wrong_streams_and_statuses_are_found() {
    let what = found("answer-words", &format!("echo hm >&2\n{RIGHT}"));
    assert_eq!(what, "its standard error is not empty: \"hm\"");
    let after = changed("json", "cat; exit 3");
    let what = found("answer-status", &after);
    assert!(what.contains("exit status: 3"), "{what}");
    let what = found("answer-silent", &format!("exec 2>/dev/null\n{RIGHT}"));
    assert!(
        what.contains("standard error") && what.ends_with("missing"),
        "{what}"
    );
    let other = RIGHT.replacen("printf $?", "printf 0", 1);
    let what = found("answer-said", &other);
    let right = "its status on descriptor 3 should be \"2\" and is \"0\"";
    assert!(what == right || what == right.replace('2', "1"), "{what}");
    let what = found("answer-unsaid", &RIGHT.replace("printf $? >&3", "true"));
    assert_eq!(
        what,
        "its status on descriptor 3 should be \"0\" and is \"\""
    );
}

#[test]
fn a_program_that_takes_too_long_or_is_not_there_is_reported() {
    let folder = TestFolder::new("endless-answers");
    let mut settings = folder.settings("exec sleep 3", 60);
    settings.time_limit = Duration::from_millis(300);
    let difference = ANSWERS.run(&settings).unwrap().difference.unwrap();
    assert!(difference.what.contains("did not come to an end"));
    let settings = Settings::new(PathBuf::from("/no/such/show"));
    let error = ANSWERS.run(&settings).err().unwrap().to_string();
    assert!(error.starts_with("cannot run the program /no/such/show"));
}
