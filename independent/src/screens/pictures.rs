//! The part of show's screen on where pictures leave.

use super::page::{in_column, mark, Page};
use super::Subject;
use crate::facts::end_state::PortEnd;
use crate::facts::findings::finding::{Finding, Grade, Kind};

/// "in columns 11, 34 and 58"
const OUTPUT: usize = 11;
const RAW10: usize = 34;
const RAW12: usize = 58;

pub fn print(page: &mut Page, subject: &Subject) {
    let heading = in_column("Pictures leave on".into(), RAW10, "RAW10");
    page.line(in_column(heading, RAW12, "RAW12"));
    let rows: Vec<String> = subject
        .answer
        .ports
        .iter()
        .map(|port| row(subject, port))
        .collect();
    let starred = rows.iter().any(|row| row.contains('*'));
    page.lines(rows);
    if starred {
        let noun = subject.noun();
        page.line(format!("  * as the chip starts: no {noun} sets it"));
    }
}

fn row(subject: &Subject, port: &PortEnd) -> String {
    let shares =
        |finding: &Finding| finding.grade == Grade::Wrong && finding.ports.contains(&port.port);
    let wrong = subject.findings(Kind::SameChannel).any(shares)
        || subject.findings(Kind::NotSetUp).any(shares);
    let start = format!("{}port {}", mark(wrong), port.port);
    let set = |what: String, line: Option<u64>| match line {
        Some(line) => format!("{what} ({} {line})", subject.noun()),
        None => format!("{what} *"),
    };
    let Some(output) = port.output else {
        let off = set("not forwarded".into(), port.forwarding_line);
        return in_column(start, OUTPUT, &off);
    };
    let output = set(format!("output {output}"), port.forwarding_line);
    let raw10 = set(format!("channel {}", port.raw10), port.raw10_line);
    let raw12 = set(format!("channel {}", port.raw12), port.raw12_line);
    let row = in_column(start, OUTPUT, &output);
    in_column(in_column(row, RAW10, &raw10), RAW12, &raw12)
}
