//! The comparison: it passes a right player, and finds and keeps what a wrong one does.
#![cfg(unix)]

mod common;

use common::TestFolder;
use independent::compare::comparison::{Findings, Settings};
use independent::compare::players::PLAYERS;
use std::fs;
use std::path::PathBuf;
use std::time::Duration;

impl TestFolder {
    fn findings(&self, script: &str) -> Findings {
        PLAYERS.run(&self.settings(script, 60)).unwrap()
    }
}

fn what(findings: &Findings) -> &str {
    &findings.difference.as_ref().unwrap().what
}

#[test]
fn a_right_player_passes_and_too_few_traces_do_not() {
    let findings = TestFolder::new("right").findings("exec OWN \"$@\"");
    assert!(findings.difference.is_none());
    assert_eq!(findings.traces, 60);
    assert!(PLAYERS
        .summary(&findings)
        .unwrap_err()
        .contains("raise --count"));
}

#[test]
fn a_changed_line_is_found_and_kept() {
    let folder = TestFolder::new("changed");
    let findings = folder.findings("OWN \"$@\" | sed 's/^12 ! 1$/12 ! 3/'");
    let difference = findings.difference.unwrap();
    assert_eq!((difference.number, difference.kind), (0, "case"));
    let expected = r#"line 12 should be "12 ! 1\n" and is "12 ! 3\n""#;
    assert_eq!(difference.what, expected);
    let kept = folder.path.join("kept");
    let name = difference.keep(&kept, 964).unwrap();
    let file = |ending: &str| fs::read(kept.join(format!("{name}.{ending}"))).unwrap();
    assert_eq!(file("bin"), independent::generate::samples::whole_case());
    assert!(file("expected.txt").ends_with(b"records 13 refused 1\n"));
    assert_ne!(file("expected.txt"), file("actual.txt"));
    assert!(file("stderr.txt").is_empty());
}

#[test]
fn a_missing_last_newline_is_found() {
    let findings = TestFolder::new("newline").findings("printf %s \"$(OWN \"$@\")\"");
    assert!(what(&findings).starts_with("line 14 should be"));
}

#[test]
fn missing_output_is_found() {
    let findings = TestFolder::new("silent").findings("exit 0");
    assert!(what(&findings).ends_with("and is missing"));
}

#[test]
fn words_on_standard_error_are_found() {
    let findings = TestFolder::new("words").findings("echo hm >&2; exec OWN \"$@\"");
    assert!(what(&findings).contains("standard error is not empty: \"hm\""));
}

#[test]
fn a_failing_exit_is_found() {
    let findings = TestFolder::new("exit").findings("OWN \"$@\"; exit 3");
    assert!(what(&findings).contains("exit status: 3"));
}

#[test]
fn a_player_that_takes_too_long_is_ended() {
    let folder = TestFolder::new("endless");
    let mut settings = folder.settings("exec sleep 3", 60);
    settings.time_limit = Duration::from_millis(300);
    let findings = PLAYERS.run(&settings).unwrap();
    assert!(what(&findings).contains("did not come to an end"));
}

#[test]
fn a_player_that_closes_its_outputs_and_stays_is_ended() {
    let folder = TestFolder::new("staying");
    let mut settings = folder.settings("OWN \"$@\"; exec sleep 3 >&- 2>&-", 60);
    settings.time_limit = Duration::from_millis(300);
    let findings = PLAYERS.run(&settings).unwrap();
    assert!(what(&findings).contains("did not come to an end"));
}

#[test]
fn a_player_that_prints_far_too_much_is_ended() {
    let too_much = "head -c 300000 /dev/zero";
    let findings = TestFolder::new("chatty").findings(too_much);
    assert!(what(&findings).contains("did not stop printing"));
    let findings = TestFolder::new("chatty-stderr").findings(&format!("{too_much} >&2"));
    assert!(what(&findings).contains("did not stop printing"));
}

#[test]
fn a_player_that_is_not_there_is_reported() {
    let settings = Settings::new(PathBuf::from("/no/such/player"));
    let error = PLAYERS.run(&settings).err().unwrap().to_string();
    assert!(error.starts_with("cannot run the player /no/such/player"));
}
