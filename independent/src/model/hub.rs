//! The hub: its own address, its registers and its frames; and the routes of its ports.

use super::frames::Frames;
use super::refusal::Refusal;
use super::registers::{RegisterFile, FWD_CTL1, RAW10_ID, RAW12_ID};
use super::start::Start;

#[derive(Clone, Debug, PartialEq, Eq)]
pub struct Hub {
    pub address: u8,
    pub registers: RegisterFile,
    pub frames: Frames,
}

impl Hub {
    /// A hub as it starts; its own 7-bit address lies in 0x08 to 0x77.
    pub fn new(address: u8, start: Start) -> Result<Hub, Refusal> {
        if !(0x08..=0x77).contains(&address) {
            return Err(Refusal::AddressOutOfRange);
        }
        Ok(Hub {
            address,
            registers: RegisterFile::at_start(start),
            frames: Frames::default(),
        })
    }
}

/// Where a port's packets leave, with the virtual channels of both formats.
#[derive(Clone, Copy, Debug, PartialEq, Eq)]
pub enum Route {
    Off,
    Output {
        output: u8,
        raw10_channel: u8,
        raw12_channel: u8,
    },
}

pub fn route(registers: &RegisterFile, port: usize) -> Route {
    let forwarding = registers.shared(FWD_CTL1);
    if forwarding >> (4 + port) & 1 == 1 {
        return Route::Off;
    }
    Route::Output {
        output: forwarding >> port & 1,
        raw10_channel: registers.on_port(port, RAW10_ID) >> 6,
        raw12_channel: registers.on_port(port, RAW12_ID) >> 6,
    }
}
