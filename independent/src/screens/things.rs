//! The things that look wrong: "A block that `replaced` something" is one of them, with all that it
//! replaced, and so is each other finding that is wrong.

use super::names::{capital, clash};
use super::page::{in_column, Page};
use super::{replaced, Subject};
use crate::facts::findings::at_writes;
use crate::facts::findings::finding::{About, Finding, Grade, Kind};
use crate::facts::run::Step;
use crate::model::registers::FPD3_PORT_SEL;

/// "The name of a finding stands in column 62."
const NAME: usize = 62;

pub enum Thing<'a> {
    /// The writes of one block that replaced something.
    Block(Vec<&'a Step>),
    Other(&'a Finding),
}

pub fn things<'a>(subject: &'a Subject) -> Vec<Thing<'a>> {
    let mut things: Vec<Thing> = Vec::new();
    for step in &subject.run.steps {
        if at_writes::replaced(step).is_empty() {
            continue;
        }
        match things.last_mut() {
            Some(Thing::Block(steps)) if steps[0].block == step.block => steps.push(step),
            _ => things.push(Thing::Block(vec![step])),
        }
    }
    let others = subject.answer.findings.iter();
    let is_wrong = |it: &&Finding| it.grade == Grade::Wrong && it.kind != Kind::Replaced;
    things.extend(others.filter(is_wrong).map(Thing::Other));
    things
}

/// A line with the name of a finding.
pub fn named(line: String, kind: Kind) -> String {
    in_column(line, NAME, &format!("[{}]", kind.name()))
}

impl Thing<'_> {
    pub fn print(&self, page: &mut Page, subject: &Subject, number: usize) {
        match self {
            Thing::Block(steps) => replaced::print(page, subject, number, steps),
            Thing::Other(finding) => print_finding(page, subject, number, finding),
        }
    }
}

fn print_finding(page: &mut Page, subject: &Subject, number: usize, finding: &Finding) {
    let noun = capital(subject.noun());
    let what = match (finding.kind, finding.about) {
        (Kind::NoPort, About::Register(offset)) => {
            let line = finding.lines[0];
            format!("{noun} {line} writes register {offset:02X} while no port is selected")
        }
        (Kind::NotSetUp, _) => {
            let port = finding.ports[0];
            format!("Port {port} is forwarded, but nothing sets it up")
        }
        _ => capital(&clash(finding)),
    };
    page.line(named(format!("{number} {what}"), finding.kind));
    print_lines(page, subject, finding);
    if finding.kind == Kind::NotSetUp {
        let port = finding.ports[0];
        page.line(selection(subject, port));
        let bit = 4 + port;
        page.line(format!(
            "  If no camera is there, it need not be forwarded: bit {bit} of register 20."
        ));
    }
}

/// "with the lines of the finding"
pub fn print_lines(page: &mut Page, subject: &Subject, finding: &Finding) {
    for &line in &finding.lines {
        subject.print_typed(page, line);
    }
    if finding.kind == Kind::SameChannel {
        print_started(page, subject, finding);
    }
}

/// "A port that has its channel as the chip starts has no line".
fn print_started(page: &mut Page, subject: &Subject, finding: &Finding) {
    let About::Channel { format, .. } = finding.about else {
        return;
    };
    let register = replaced::register_of(format);
    for &port in &finding.ports {
        if subject.run.origins.on_port(port, register).is_none() {
            page.line(format!(
                "        port {port} has that channel as the chip starts"
            ));
        }
    }
}

/// "what selects it: nothing, and the call that would (with the read port, too), or [..] the last
/// such line."
fn selection(subject: &Subject, port: u8) -> String {
    let noun = subject.noun();
    let mut writes = subject.given.writes.iter().rev();
    let ticks = |value: u8| value >> port & 1 == 1;
    match writes.find(|write| write.offset == FPD3_PORT_SEL && ticks(write.value)) {
        Some(write) => {
            let (noun, line) = (capital(noun), write.number);
            format!("  {noun} {line} selects port {port}, but none of its registers is set.")
        }
        None => {
            let value = port << 4 | 1 << port;
            format!("  No {noun} selects port {port}; WriteI2C(0x4C,0x{value:02X}) would.")
        }
    }
}
