//! The answer to one record and the line it prints.

use super::addresses::{Device, Direction, Heard, Role};
use super::frames::Outcome;
use super::refusal::Refusal;
use super::text::TextLine;

#[derive(Clone, Copy, Debug, PartialEq, Eq)]
pub enum Event {
    Start,
    Line,
    End,
}

#[derive(Clone, Copy, Debug, PartialEq, Eq)]
pub enum Answer {
    Hub {
        address: u8,
    },
    Wrote {
        offset: u8,
        count: usize,
    },
    Value {
        offset: u8,
        value: u8,
    },
    Address {
        address: u8,
        direction: Direction,
        heard: Heard,
    },
    Frame {
        event: Event,
        port: u8,
        outcome: Outcome,
    },
    Refused(Refusal),
}

impl Answer {
    /// The whole line: the record's number, then a letter and fields, or ! and the refusal.
    pub fn print(&self, number: u64, line: &mut TextLine) {
        line.decimal(number);
        match *self {
            Answer::Hub { address } => {
                line.word(" H ");
                line.hex(address);
            }
            Answer::Wrote { offset, count } => {
                line.word(" W ");
                line.hex(offset);
                line.word(" ");
                line.decimal(count as u64);
            }
            Answer::Value { offset, value } => {
                line.word(" R ");
                line.hex(offset);
                line.word(" ");
                line.hex(value);
            }
            Answer::Address {
                address,
                direction,
                heard,
            } => print_address(address, direction, heard, line),
            Answer::Frame {
                event,
                port,
                outcome,
            } => print_frame(event, port, outcome, line),
            Answer::Refused(refusal) => {
                line.word(" ! ");
                line.decimal(u64::from(refusal.number()));
            }
        }
        line.word("\n");
    }
}

fn print_address(address: u8, direction: Direction, heard: Heard, line: &mut TextLine) {
    line.word(" A ");
    line.hex(address);
    line.word(match direction {
        Direction::Write => " w",
        Direction::Read => " r",
    });
    match heard {
        Heard::Hub => line.word(" hub"),
        Heard::Nobody => line.word(" none"),
        Heard::Devices(devices) => {
            for device in devices.iter().flatten() {
                print_device(device, line);
            }
        }
    }
}

fn print_device(device: &Device, line: &mut TextLine) {
    line.word(" ");
    line.decimal(u64::from(device.port));
    line.word(match device.role {
        Role::Serializer => ":s",
        Role::Target(_) => ":",
    });
    line.hex(device.address);
}

fn print_frame(event: Event, port: u8, outcome: Outcome, line: &mut TextLine) {
    line.word(match event {
        Event::Start => " S ",
        Event::Line => " L ",
        Event::End => " E ",
    });
    line.decimal(u64::from(port));
    match outcome {
        Outcome::Dropped => line.word(" drop"),
        Outcome::Sent { output, packet } => {
            line.word(" ");
            line.decimal(u64::from(output));
            line.word(" ");
            for byte in packet.header {
                line.hex(byte);
            }
        }
    }
}
