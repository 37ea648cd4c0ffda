//! The points about the end state: clashes, addresses, and forwarded ports.

use crate::compare::coverage::Coverage;
use crate::facts::answer::Answer;
use crate::facts::end_state::{devices, registers_of};
use crate::facts::findings::finding::{About, Finding, Grade, Kind, Pictures};
use crate::facts::run::Run;
use crate::model::addresses::Role;
use crate::model::registers::{FWD_CTL2, PORTS, RAW10_ID, RAW12_ID, SER_ALIAS_ID, TARGET_ALIAS_0};

pub const POINTS: &[&str] = &[
    "same-channel of two ports",
    "same-channel of three ports",
    "same-channel of four ports",
    "same-channel on output 0",
    "same-channel on output 1",
    "same-channel of raw10",
    "same-channel of raw12",
    "same-channel meant by one line alone",
    "same-channel meant by output 0's lines alone",
    "same-channel meant by output 1's lines alone",
    "same-channel wrong with the other output's lines merged",
    "same-channel wrong with a start value among one line",
    "one channel of two outputs",
    "one channel of a port that is not forwarded",
    "same-address of two ports",
    "same-address of three ports",
    "same-address of four ports",
    "same-address of serializers",
    "same-address of a serializer and a target",
    "same-address of targets of different numbers",
    "an address passed over on one port",
    "an alias of two ports that the hub takes",
    "an unclear read",
    "a read answered among several",
    "a serializer that hears",
    "a remote address that was never written",
    "not-set-up of several ports",
    "forwarded ports and none ever reached",
    "no-address of a port that was set up",
    "no-address for want of pass-through",
    "no-address for the hub's own address",
];

pub fn note(coverage: &mut Coverage, run: &Run, answer: &Answer) {
    for finding in &answer.findings {
        match finding.about {
            About::Channel {
                output,
                channel: _,
                format,
            } => note_channel(coverage, run, finding, output, format),
            About::Address(address) => note_address(coverage, run, finding, address),
            _ => {}
        }
    }
    note_no_clash(coverage, answer);
    note_addresses(coverage, run, answer);
    note_forwarded(coverage, run, answer);
}

fn count(finding: &Finding) -> &'static str {
    match finding.ports.len() {
        2 => "two",
        3 => "three",
        _ => "four",
    }
}

fn note_channel(
    coverage: &mut Coverage,
    run: &Run,
    finding: &Finding,
    output: u8,
    format: Pictures,
) {
    coverage.note(&format!("same-channel of {} ports", count(finding)));
    coverage.note(&format!("same-channel on output {output}"));
    coverage.note(&format!("same-channel of {}", format.name()));
    let register = match format {
        Pictures::Raw10 => RAW10_ID,
        Pictures::Raw12 => RAW12_ID,
    };
    let modes = run.hub.registers.shared(FWD_CTL2);
    let [this, other] = [output, 1 - output].map(|output| modes >> (3 + 2 * output) & 1 == 1);
    let written = |port: &u8| run.origins.on_port(*port, register).is_some();
    let one_line = finding.lines.len() == 1;
    let all_written = finding.ports.iter().all(written);
    match finding.grade {
        Grade::Meant if !this => coverage.note("same-channel meant by one line alone"),
        Grade::Meant if !(one_line && all_written) => {
            coverage.note(&format!(
                "same-channel meant by output {output}'s lines alone"
            ));
        }
        Grade::Wrong if other => {
            coverage.note("same-channel wrong with the other output's lines merged");
        }
        _ => {}
    }
    if finding.grade == Grade::Wrong && one_line && !all_written {
        coverage.note("same-channel wrong with a start value among one line");
    }
}

fn note_no_clash(coverage: &mut Coverage, answer: &Answer) {
    for one in &answer.ports {
        for other in answer.ports.iter().filter(|it| it.raw10 == one.raw10) {
            match (one.output, other.output) {
                (Some(0), Some(1)) => coverage.note("one channel of two outputs"),
                (Some(_), None) => coverage.note("one channel of a port that is not forwarded"),
                _ => {}
            }
        }
    }
}

fn note_address(coverage: &mut Coverage, run: &Run, finding: &Finding, address: u8) {
    coverage.note(&format!("same-address of {} ports", count(finding)));
    let roles: Vec<Role> = devices(run, address).iter().map(|it| it.role).collect();
    let serializers = roles
        .iter()
        .filter(|&&role| role == Role::Serializer)
        .count();
    if serializers == roles.len() {
        coverage.note("same-address of serializers");
    } else if serializers > 0 {
        coverage.note("same-address of a serializer and a target");
    } else if roles.iter().any(|&role| role != roles[0]) {
        coverage.note("same-address of targets of different numbers");
    }
}

fn note_addresses(coverage: &mut Coverage, run: &Run, answer: &Answer) {
    let matching = run.hub.matches(run.hub.address);
    if matching.iter().flatten().count() > 1 {
        coverage.note("an alias of two ports that the hub takes");
    }
    for address in &answer.addresses {
        let devices = devices(run, address.address);
        if address.read == "! 9" {
            coverage.note("an unclear read");
        } else if devices.len() > 1 {
            coverage.note("a read answered among several");
        }
        for device in &devices {
            let (_, own) = registers_of(device.role);
            if run.origins.on_port(device.port, own).is_none() {
                coverage.note("a remote address that was never written");
            }
            if device.role == Role::Serializer {
                coverage.note("a serializer that hears");
            }
            let page = |offset| run.hub.registers.on_port(usize::from(device.port), offset);
            let aliases = (TARGET_ALIAS_0..=0x6C).chain([SER_ALIAS_ID]);
            let same = aliases.filter(|&alias| page(alias) >> 1 == address.address);
            if same.count() > 1 {
                coverage.note("an address passed over on one port");
            }
        }
    }
}

fn note_forwarded(coverage: &mut Coverage, run: &Run, answer: &Answer) {
    let of = |kind| answer.findings.iter().filter(move |it| it.kind == kind);
    if of(Kind::NotSetUp).count() > 1 {
        coverage.note("not-set-up of several ports");
    }
    let reached = (0..PORTS as u8).any(|port| run.origins.reached_port(port));
    if !reached && answer.ports.iter().any(|port| port.output.is_some()) {
        coverage.note("forwarded ports and none ever reached");
    }
    for finding in of(Kind::NoAddress) {
        let port = finding.ports[0];
        if !run.origins.reached_port(port) {
            continue;
        }
        coverage.note("no-address of a port that was set up");
        let page = |offset| run.hub.registers.on_port(usize::from(port), offset);
        let mut aliases = (TARGET_ALIAS_0..=0x6C).chain([SER_ALIAS_ID]);
        if aliases.any(|alias| page(alias) >> 1 != 0) {
            coverage.note(match page(0x58) >> 6 & 1 {
                0 => "no-address for want of pass-through",
                _ => "no-address for the hub's own address",
            });
        }
    }
}
