//! Shell scripts that stand in for the program that answers, and what is found in them.
#![allow(dead_code)] // each test file uses some of these

use crate::common::TestFolder;
use independent::compare::answers::ANSWERS;
use independent::compare::comparison::Findings;

/// The program's words in those of the independent program, the start among them; check says its
/// status on descriptor 3.
pub const RIGHT: &str = "word=$1; shift
case $1 in
    board) shift ;;
    sheet) shift; set -- --sheet \"$@\" ;;
esac
case $word in
    json) exec OWN show --json \"$@\" ;;
    show) exec OWN show \"$@\" ;;
    check) OWN check \"$@\"; printf $? >&3 ;;
    check-json) OWN check --json \"$@\"; printf $? >&3 ;;
esac";

/// A program that does this with what a right one prints for the word.
pub fn changed(word: &str, change: &str) -> String {
    let change = format!("if [ $word = {word} ]; then {change}; else cat; fi");
    let right = RIGHT.replace("exec ", "");
    format!("right() {{\n{right}\n}}\nword=$1; right \"$@\" | {change}")
}

impl TestFolder {
    pub fn findings(&self, script: &str, count: u64) -> Findings {
        ANSWERS.run(&self.settings(script, count)).unwrap()
    }
}

/// What is found in the program.
pub fn found(name: &str, script: &str) -> String {
    let findings = TestFolder::new(name).findings(script, 400);
    findings.difference.map_or("nothing".into(), |it| it.what)
}
