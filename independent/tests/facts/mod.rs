//! Lists of writes, numbered from 1 as lines are, and what is found in them, in short.
#![allow(dead_code)] // each test file uses some of these

use independent::facts::answer::Answer;
use independent::facts::findings::finding::{About, Finding};
use independent::facts::given::{Given, Write};
use independent::model::start::Start;

pub type Writes<'a> = &'a [(u8, u8)];

pub fn given(writes: Writes) -> Given {
    let numbered = (1..).zip(writes);
    Given {
        hub: 0x3D,
        start: Start::Sheet,
        writes: numbered
            .map(|(number, &(offset, value))| Write {
                number,
                offset,
                value,
            })
            .collect(),
    }
}

pub fn answer(writes: Writes) -> Answer {
    Answer::of(&given(writes)).unwrap()
}

/// As in "wrong 2,4 p0 65": grade, lines, ports, and what else is named.
fn short(finding: &Finding) -> String {
    let lines: Vec<String> = finding.lines.iter().map(u64::to_string).collect();
    let ports: String = finding.ports.iter().map(u8::to_string).collect();
    let about = match finding.about {
        About::Register(offset) => format!(" {offset:02X}"),
        About::Address(address) => format!(" @{address:02X}"),
        About::Channel {
            output,
            channel,
            format,
        } => format!(" {output}/{channel} {}", format.name()),
        About::Nothing => String::new(),
    };
    let grade = finding.grade.name();
    format!("{grade} {} p{ports}{about}", lines.join(","))
}

/// The findings of one kind.
pub fn of_kind(answer: &Answer, kind: &str) -> Vec<String> {
    let findings = answer.findings.iter();
    let of_kind = findings.filter(|finding| finding.kind.name() == kind);
    of_kind.map(short).collect()
}

pub fn found(kind: &str, writes: Writes) -> Vec<String> {
    of_kind(&answer(writes), kind)
}

pub const NONE: [&str; 0] = [];
