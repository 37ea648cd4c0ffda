//! The clashes in the end state: `same-channel` and `same-address`.

use super::finding::{About, Finding, Grade, Kind, Pictures};
use crate::facts::end_state::{devices, ports, registers_of, PortEnd};
use crate::facts::origins::{lines, one_and_the_same_line, Origin};
use crate::facts::run::Run;
use crate::model::addresses::Device;
use crate::model::registers::{FWD_CTL2, RAW10_ID, RAW12_ID};

/// "`same-channel`: two or more forwarded ports share an output and a RAW10 channel, or an output
/// and a RAW12 channel. Lines: the origins of their 0x70 or 0x71."
pub fn same_channel(run: &Run) -> Vec<Finding> {
    let mut found = Vec::new();
    for format in [Pictures::Raw10, Pictures::Raw12] {
        for output in 0..2 {
            for channel in 0..4 {
                found.extend(sharing(run, output, channel, format));
            }
        }
    }
    found
}

fn sharing(run: &Run, output: u8, channel: u8, format: Pictures) -> Option<Finding> {
    let is_there = |port: &PortEnd| {
        let its_channel = match format {
            Pictures::Raw10 => port.raw10,
            Pictures::Raw12 => port.raw12,
        };
        port.output == Some(output) && its_channel == channel
    };
    let all = ports(run).into_iter();
    let ports: Vec<u8> = all.filter(is_there).map(|port| port.port).collect();
    if ports.len() < 2 {
        return None;
    }
    let register = match format {
        Pictures::Raw10 => RAW10_ID,
        Pictures::Raw12 => RAW12_ID,
    };
    let origin = |&port: &u8| run.origins.on_port(port, register);
    let origins: Vec<Option<Origin>> = ports.iter().map(origin).collect();
    Some(Finding {
        kind: Kind::SameChannel,
        grade: meant_if(one_and_the_same_line(&origins) || lines_are_merged(run, output)),
        lines: lines(origins),
        ports,
        about: About::Channel {
            output,
            channel,
            format,
        },
    })
}

/// "FWD_CTL2 asks for line interleaving or line concatenation on that output (CSI0_SYNC_FWD in bits
/// 3:2, CSI1_SYNC_FWD in 5:4, 10 or 11)"
fn lines_are_merged(run: &Run, output: u8) -> bool {
    let mode = run.hub.registers.shared(FWD_CTL2) >> (2 + 2 * output) & 0b11;
    mode == 0b10 || mode == 0b11
}

fn meant_if(meant: bool) -> Grade {
    if meant {
        Grade::Meant
    } else {
        Grade::Wrong
    }
}

/// "`same-address`: a write to an address reaches two or more ports. Lines: the origins of the alias
/// registers that match. Meant, where all have one and the same line as origin (a broadcast); else
/// wrong."
pub fn same_address(run: &Run) -> Vec<Finding> {
    let mut found = Vec::new();
    for address in 0x00..=0x7F {
        let devices = devices(run, address);
        if devices.len() < 2 {
            continue;
        }
        let alias = |device: &Device| {
            let (alias, _) = registers_of(device.role);
            run.origins.on_port(device.port, alias)
        };
        let origins: Vec<Option<Origin>> = devices.iter().map(alias).collect();
        found.push(Finding {
            kind: Kind::SameAddress,
            grade: meant_if(one_and_the_same_line(&origins)),
            lines: lines(origins),
            ports: devices.iter().map(|device| device.port).collect(),
            about: About::Address(address),
        });
    }
    found
}
