//! Who hears an address: who is reached by a write to it, and who answers a read of it.

use super::hub::Hub;
use super::refusal::Refusal;
use super::registers::{
    BCC_CONFIG, PORTS, SER_ALIAS_ID, SER_ID, TARGETS, TARGET_ALIAS_0, TARGET_ID_0,
};

#[derive(Clone, Copy, Debug, PartialEq, Eq)]
pub enum Direction {
    Write,
    Read,
}

#[derive(Clone, Copy, Debug, PartialEq, Eq)]
pub enum Role {
    Serializer,
    Target(u8),
}

/// A remote device: behind which port, what it is, and its own address there.
#[derive(Clone, Copy, Debug, PartialEq, Eq)]
pub struct Device {
    pub port: u8,
    pub role: Role,
    pub address: u8,
}

/// The answer to an address: at most one device a port, ports rising.
#[derive(Clone, Copy, Debug, PartialEq, Eq)]
pub enum Heard {
    Hub,
    Nobody,
    Devices([Option<Device>; PORTS]),
}

impl Hub {
    pub fn who_hears(&self, address: u8, direction: Direction) -> Result<Heard, Refusal> {
        if address > 0x7F {
            return Err(Refusal::AddressOutOfRange);
        }
        if address == self.address {
            return Ok(Heard::Hub);
        }
        let matches = self.matches(address);
        if matches.iter().all(Option::is_none) {
            return Ok(Heard::Nobody);
        }
        match direction {
            Direction::Write => Ok(Heard::Devices(matches)),
            Direction::Read => self.answers_read(matches),
        }
    }

    /// The device each port would pass the address to, whatever the hub's own address is.
    pub fn matches(&self, address: u8) -> [Option<Device>; PORTS] {
        [0, 1, 2, 3].map(|port| self.device_behind(port, address))
    }

    fn device_behind(&self, port: usize, address: u8) -> Option<Device> {
        let page = |offset: u8| self.registers.on_port(port, offset);
        let passes = page(BCC_CONFIG) >> 6 & 1 == 1;
        if !passes || address == 0 {
            return None; // an alias of zero is off
        }
        let device = |role, register: u8| Device {
            port: port as u8,
            role,
            address: page(register) >> 1,
        };
        if page(SER_ALIAS_ID) >> 1 == address {
            return Some(device(Role::Serializer, SER_ID));
        }
        for number in 0..TARGETS {
            if page(TARGET_ALIAS_0 + number) >> 1 == address {
                return Some(device(Role::Target(number), TARGET_ID_0 + number));
            }
        }
        None
    }

    /// The read port if it matches, else the only match; two or more are unclear.
    fn answers_read(&self, matches: [Option<Device>; PORTS]) -> Result<Heard, Refusal> {
        let mut answer = [None; PORTS];
        let read_port = self.registers.read_port();
        if matches[read_port].is_some() {
            answer[read_port] = matches[read_port];
            return Ok(Heard::Devices(answer));
        }
        if matches.iter().flatten().count() > 1 {
            return Err(Refusal::UnclearRead);
        }
        Ok(Heard::Devices(matches))
    }
}
