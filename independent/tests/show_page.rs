//! docs/SHOW.md held to the program: its examples are the sample's screens and object, and its table
//! has the kinds with their grades and fields.

use independent::compare::json::is_json;
use independent::facts::answer::Answer;
use independent::facts::findings::finding::KINDS;
use independent::facts::object::object;
use independent::generate::answers::{numbered, Job};
use independent::model::start::Start;
use std::collections::{BTreeMap, BTreeSet};
use std::fs;
use std::path::Path;

fn text(file: &str) -> String {
    let root = Path::new(env!("CARGO_MANIFEST_DIR")).join("..");
    fs::read_to_string(root.join(file)).unwrap()
}

#[test]
fn the_screens_are_the_stored_ones() {
    let page = text("docs/SHOW.md");
    for command in ["show", "check"] {
        let screen = text(&format!("samples/wrong_page.{command}.txt"));
        assert!(page.contains(&format!("```\n{screen}```\n")), "{command}");
    }
}

#[test]
fn the_example_is_the_object_of_the_sample() {
    let page = text("docs/SHOW.md");
    let example = page.rsplit("```\n").nth(1).unwrap().replace('\n', "");
    let script = text("samples/wrong_page.script");
    let answer = Answer::of_script(0x3D, Start::Board, script.as_bytes()).unwrap();
    assert_eq!(example, object(&answer));
    assert!(is_json(example.as_bytes()) && !is_json(&example.as_bytes()[1..]));
}

/// Kind, grades and the fields after the ports, as the page's table has them.
fn table() -> Vec<(String, String, String)> {
    let page = text("docs/SHOW.md");
    let table = page.split("| Kind |").nth(1).unwrap().lines().skip(2);
    let rows = table.take_while(|line| line.starts_with("| "));
    rows.map(|line| {
        let fields: Vec<&str> = line.trim_matches('|').split(" | ").collect();
        let field = |place: usize| fields[place].trim().replace('`', "");
        let more = field(4).replace(", always 4C", "");
        (field(0), field(1), more)
    })
    .collect()
}

/// The names in one finding's text that come after its ports.
fn more(finding: &str) -> String {
    let after = finding.split("],").nth(2).unwrap_or_default();
    let names = after.split(',').filter_map(|field| field.split('"').nth(1));
    names.collect::<Vec<&str>>().join(", ")
}

#[test]
fn the_table_has_every_kind_with_its_grades_and_fields() {
    let table = table();
    let kinds: Vec<&str> = table.iter().map(|(kind, ..)| kind.as_str()).collect();
    assert_eq!(kinds, KINDS.map(|kind| kind.name()));
    let mut seen: BTreeMap<String, (BTreeSet<String>, BTreeSet<String>)> = BTreeMap::new();
    for number in 0..600 {
        let answer = match numbered(20, number).job {
            Job::Script {
                address,
                start,
                text,
            } => Answer::of_script(address, start, &text),
            Job::Trace { trace } => Answer::of_trace(&trace),
        };
        let Ok(answer) = answer else { continue };
        let text = object(&answer);
        let findings = text.split("{\"kind\":\"").skip(1);
        for finding in findings {
            let names: Vec<&str> = finding.split('"').collect();
            let entry = seen.entry(names[0].into()).or_default();
            entry.0.insert(names[4].into());
            entry.1.insert(more(finding));
        }
    }
    for (kind, grades, fields) in table {
        let (seen_grades, seen_fields) = &seen[&kind];
        let mut listed: Vec<&str> = grades.split(", ").collect();
        listed.sort_unstable();
        assert!(seen_grades.iter().eq(listed.iter()), "{kind}");
        assert_eq!(seen_fields.iter().collect::<Vec<_>>(), [&fields], "{kind}");
    }
}

#[test]
fn the_lines_of_the_page_are_not_too_long() {
    for line in text("docs/SHOW.md").lines() {
        assert!(line.len() <= 120, "{line}");
    }
}
