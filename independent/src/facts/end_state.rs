//! Point 4, the end state: "Each port's route with the lines that set 0x20, 0x70 and 0x71. Each
//! address that is not answered none: who hears a write, who answers a read, with the lines that set
//! pass-through, alias and remote address of each device."

use super::origins::{lines, Origin};
use super::run::Run;
use crate::model::addresses::{Device, Direction, Heard, Role};
use crate::model::answer::Answer;
use crate::model::registers::{
    BCC_CONFIG, FWD_CTL1, PORTS, RAW10_ID, RAW12_ID, SER_ALIAS_ID, SER_ID, TARGET_ALIAS_0,
    TARGET_ID_0,
};
use crate::model::text::TextLine;

/// "`output` is null where forwarding is off, the channels are there all the same".
#[derive(Clone, Copy, Debug, PartialEq, Eq)]
pub struct PortEnd {
    pub port: u8,
    pub output: Option<u8>,
    pub raw10: u8,
    pub raw12: u8,
    pub forwarding_line: Option<u64>,
    pub raw10_line: Option<u64>,
    pub raw12_line: Option<u64>,
}

pub fn ports(run: &Run) -> Vec<PortEnd> {
    (0..PORTS as u8).map(|port| port_end(run, port)).collect()
}

fn port_end(run: &Run, port: u8) -> PortEnd {
    let forwarding = run.hub.registers.shared(FWD_CTL1);
    let is_off = forwarding >> (4 + port) & 1 == 1;
    let channel = |offset| run.hub.registers.on_port(usize::from(port), offset) >> 6;
    let number = |origin: Option<Origin>| origin.map(|origin| origin.number);
    PortEnd {
        port,
        output: (!is_off).then_some(forwarding >> port & 1),
        raw10: channel(RAW10_ID),
        raw12: channel(RAW12_ID),
        forwarding_line: number(run.origins.shared(FWD_CTL1)),
        raw10_line: number(run.origins.on_port(port, RAW10_ID)),
        raw12_line: number(run.origins.on_port(port, RAW12_ID)),
    }
}

#[derive(Clone, Debug, PartialEq, Eq)]
pub struct AddressEnd {
    pub address: u8,
    pub write: String,
    pub read: String,
    pub lines: Vec<u64>,
}

/// "the addresses are those whose write is not answered none, rising, the hub's own among them"
pub fn addresses(run: &Run) -> Vec<AddressEnd> {
    let all = (0x00..=0x7F).filter_map(|address| address_end(run, address));
    all.collect()
}

fn address_end(run: &Run, address: u8) -> Option<AddressEnd> {
    let write = printed(run, address, Direction::Write);
    let read = printed(run, address, Direction::Read);
    let devices = devices(run, address);
    let set_by = devices.iter().flat_map(|device| {
        let (alias, own) = registers_of(device.role);
        [BCC_CONFIG, alias, own].map(|offset| run.origins.on_port(device.port, offset))
    });
    (write != "none").then(|| AddressEnd {
        address,
        write,
        read,
        lines: lines(set_by),
    })
}

/// The devices that hear a write to the address, ports rising; none where it is the hub's own.
pub fn devices(run: &Run, address: u8) -> Vec<Device> {
    match run.hub.who_hears(address, Direction::Write) {
        Ok(Heard::Devices(devices)) => devices.into_iter().flatten().collect(),
        _ => Vec::new(),
    }
}

/// The registers with a device's alias and with its own address.
pub fn registers_of(role: Role) -> (u8, u8) {
    match role {
        Role::Serializer => (SER_ALIAS_ID, SER_ID),
        Role::Target(number) => (TARGET_ALIAS_0 + number, TARGET_ID_0 + number),
    }
}

/// "what the player prints after `w` and `r` (`hub`, `0:30 1:30`, `! 9`)": its line, without what
/// stands before.
fn printed(run: &Run, address: u8, direction: Direction) -> String {
    let answer = match run.hub.who_hears(address, direction) {
        Ok(heard) => Answer::Address {
            address,
            direction,
            heard,
        },
        Err(refusal) => Answer::Refused(refusal),
    };
    let mut line = TextLine::default();
    answer.print(1, &mut line);
    let line = String::from_utf8_lossy(line.as_bytes());
    let line = line.trim_end();
    let before = match answer {
        Answer::Refused(_) => "1 ".len(),
        _ => "1 A 31 w ".len(),
    };
    line[before..].to_string()
}
