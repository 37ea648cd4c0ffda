//! Frames: what each port keeps of them, and the packets that starts, lines and ends send.

use super::format::Format;
use super::hub::{route, Route};
use super::packet::{self, Written};
use super::refusal::Refusal;
use super::registers::{RegisterFile, PORTS};

const FRAME_START: u8 = 0x00;
const FRAME_END: u8 = 0x01;
pub const FIRST_LONG_TYPE: u8 = 0x10;

/// What a port keeps: at first closed, no format, number 0.
#[derive(Clone, Copy, Debug, Default, PartialEq, Eq)]
pub struct PortFrames {
    pub open: bool,
    pub format: Option<Format>,
    pub number: u16,
}

#[derive(Clone, Copy, Debug, PartialEq, Eq)]
pub enum Outcome {
    Dropped,
    Sent { output: u8, packet: Written },
}

pub fn next_number(old: u16, largest: u16) -> u16 {
    if largest == 0 {
        return 0;
    }
    let next = u32::from(old) + 1;
    if next <= u32::from(largest) {
        next as u16
    } else {
        1
    }
}

#[derive(Clone, Debug, Default, PartialEq, Eq)]
pub struct Frames {
    pub ports: [PortFrames; PORTS],
}

impl Frames {
    pub fn start(
        &mut self,
        registers: &RegisterFile,
        port: u8,
        bits: u8,
        buffer: &mut [u8],
        place: usize,
    ) -> Result<Outcome, Refusal> {
        let port = port_index(port)?;
        let format = Format::of_bits(bits).ok_or(Refusal::FormatUnknown)?;
        if self.ports[port].open {
            return Err(Refusal::FrameOutOfTurn);
        }
        let number = next_number(self.ports[port].number, registers.largest_frame_number());
        let outcome = send_short(registers, port, format, FRAME_START, number, buffer, place)?;
        self.ports[port] = PortFrames {
            open: true,
            format: Some(format),
            number,
        };
        Ok(outcome)
    }

    pub fn line(
        &self,
        registers: &RegisterFile,
        port: u8,
        pixels: &[u16],
        buffer: &mut [u8],
        place: usize,
    ) -> Result<Outcome, Refusal> {
        let port = port_index(port)?;
        let format = self.open_format(port)?;
        format.check_line(pixels)?;
        let Route::Output { output, .. } = route(registers, port) else {
            return Ok(Outcome::Dropped);
        };
        let identifier = format.identifier(registers, port);
        if identifier & 0x3F < FIRST_LONG_TYPE {
            return Err(Refusal::TypeIsShort);
        }
        let packet = packet::write_line(buffer, place, identifier, format, pixels)?;
        Ok(Outcome::Sent { output, packet })
    }

    pub fn end(
        &mut self,
        registers: &RegisterFile,
        port: u8,
        buffer: &mut [u8],
        place: usize,
    ) -> Result<Outcome, Refusal> {
        let port = port_index(port)?;
        let format = self.open_format(port)?;
        let number = self.ports[port].number;
        let outcome = send_short(registers, port, format, FRAME_END, number, buffer, place)?;
        self.ports[port].open = false;
        Ok(outcome)
    }

    fn open_format(&self, port: usize) -> Result<Format, Refusal> {
        match self.ports[port] {
            PortFrames {
                open: true,
                format: Some(format),
                ..
            } => Ok(format),
            _ => Err(Refusal::FrameOutOfTurn),
        }
    }
}

fn port_index(port: u8) -> Result<usize, Refusal> {
    if usize::from(port) < PORTS {
        Ok(usize::from(port))
    } else {
        Err(Refusal::PortAboveThree)
    }
}

/// A frame start or end: the channel of the format's identifier with the given type.
fn send_short(
    registers: &RegisterFile,
    port: usize,
    format: Format,
    data_type: u8,
    number: u16,
    buffer: &mut [u8],
    place: usize,
) -> Result<Outcome, Refusal> {
    let Route::Output {
        output,
        raw10_channel,
        raw12_channel,
    } = route(registers, port)
    else {
        return Ok(Outcome::Dropped);
    };
    let channel = match format {
        Format::Raw10 => raw10_channel,
        Format::Raw12 => raw12_channel,
    };
    let packet = packet::write_short(buffer, place, channel << 6 | data_type, number)?;
    Ok(Outcome::Sent { output, packet })
}
