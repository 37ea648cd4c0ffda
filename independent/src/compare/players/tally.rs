//! The points that a trace reaches, noted while the model plays it.

use super::conditions;
use super::points::{letter, malformed};
use crate::compare::coverage::Coverage;
use crate::model::addresses::{Direction, Heard, Role};
use crate::model::answer::{Answer, Event};
use crate::model::format::Format;
use crate::model::frames::Outcome;
use crate::model::hub::Hub;
use crate::model::player::Watch;
use crate::model::registers::{register, FPD3_PORT_SEL, MAX_FRM_HI, MAX_FRM_LO, PORTS};
use crate::model::start::Start;
use crate::model::trace::{Malformed, Record};

pub struct Tally<'a> {
    coverage: &'a mut Coverage,
    /// Of the record that is played: its letter, the width of a line, and the frame number that
    /// the port of a start had before.
    letter: &'static str,
    width: u16,
    old_number: u16,
    since: SinceStart,
}

/// How the hub started, and what has come since.
struct SinceStart {
    start: Start,
    is_written: bool,
    /// Whether one of the registers with the largest frame number is written.
    is_largest_written: bool,
    /// The numbers of each port's starts while it is not.
    numbers: [Vec<u16>; PORTS],
}

impl SinceStart {
    fn of(start: Start) -> SinceStart {
        SinceStart {
            start,
            is_written: false,
            is_largest_written: false,
            numbers: Default::default(),
        }
    }
}

impl Tally<'_> {
    pub fn new(coverage: &mut Coverage) -> Tally<'_> {
        Tally {
            coverage,
            letter: "",
            width: 0,
            old_number: 0,
            since: SinceStart::of(Start::Board),
        }
    }

    fn note(&mut self, point: &str) {
        self.coverage.note(point);
    }

    fn note_burst(&mut self, first: u8, values: &[u8], hub: &Hub) {
        if usize::from(first) + values.len() > 256 {
            self.note("W burst over FF to 00");
        }
        let mut registers = hub.registers.clone();
        let before = registers.shared(FPD3_PORT_SEL) & 0x0F;
        let mut offset = first;
        for &value in values {
            let row = register(offset);
            let ticked = registers.shared(FPD3_PORT_SEL) & 0x0F;
            if row.per_port {
                self.note(match ticked.count_ones() {
                    0 => "W per-port with none ticked",
                    1 => "W per-port with one ticked",
                    _ => "W per-port with several ticked",
                });
                if ticked != before {
                    self.note("W burst that changed 4C on the way");
                }
            } else if row.mask != 0 && value & !row.mask != 0 {
                self.note("W of bits outside the mask");
            }
            registers.write(offset, value);
            self.since.is_written = true;
            self.since.is_largest_written |= matches!(offset, MAX_FRM_HI | MAX_FRM_LO);
            offset = offset.wrapping_add(1);
        }
    }

    fn note_read(&mut self, offset: u8, hub: &Hub) {
        let start = self.since.start.name();
        if !self.since.is_written {
            self.note(&format!("R before a write at the {start}'s start"));
        }
        if offset == MAX_FRM_LO && !self.since.is_largest_written {
            self.note(&format!("R of 1E, not written, at the {start}'s start"));
        }
        let row = register(offset);
        if row.per_port {
            let port = hub.registers.read_port();
            self.note(&format!("R per-port of read port {port}"));
        } else if row.mask == 0 {
            self.note("R of an unlisted offset");
        } else {
            self.note("R of a shared offset");
        }
    }

    fn note_heard(&mut self, address: u8, direction: Direction, heard: Heard, hub: &Hub) {
        let (letter, verb) = match direction {
            Direction::Write => ("w", "reaches"),
            Direction::Read => ("r", "answered by"),
        };
        let devices = match heard {
            Heard::Hub => return self.note(&format!("A {letter} hub")),
            Heard::Nobody => return self.note(&format!("A {letter} none")),
            Heard::Devices(devices) => devices,
        };
        let matching = hub.matches(address).iter().flatten().count();
        for device in devices.iter().flatten() {
            let role = match device.role {
                Role::Serializer => "serializer",
                Role::Target(_) => "target",
            };
            self.note(&format!("A {letter} {verb} a {role}"));
            if let Role::Target(number) = device.role {
                self.note(&format!("A target {number}"));
            }
            if device.address == 0 {
                self.note("A device with address 00");
            }
        }
        let is_read_port = devices[hub.registers.read_port()].is_some();
        self.note(match (direction, matching, is_read_port) {
            (Direction::Write, 1, _) => "A w one device",
            (Direction::Write, 2, _) => "A w two devices",
            (Direction::Write, 3, _) => "A w three devices",
            (Direction::Write, _, _) => "A w four devices",
            (Direction::Read, 1, true) => "A r by the read port alone",
            (Direction::Read, _, true) => "A r by the read port among several",
            (Direction::Read, _, false) => "A r by the only match",
        });
        conditions::note_equal_aliases(self.coverage, hub, address);
    }

    fn note_frame(&mut self, event: Event, port: u8, outcome: Outcome, hub: &Hub) {
        let letter = self.letter;
        let kept = hub.frames.ports[usize::from(port & 3)];
        if event == Event::Start {
            self.note_number(kept.number, hub.registers.largest_frame_number());
            self.note_start(port, kept.number, outcome);
        }
        let Outcome::Sent { output, packet } = outcome else {
            return self.note(&format!("{letter} drop"));
        };
        self.note(&format!("{letter} on output {output}"));
        self.note(&format!("port {port} sends"));
        if event == Event::Line {
            self.note(match (kept.format, self.width) {
                (Some(Format::Raw10), 4096) => "L of 4096 pixels RAW10",
                (Some(Format::Raw10), _) => "L of RAW10",
                (_, 4096) => "L of 4096 pixels RAW12",
                _ => "L of RAW12",
            });
            if packet.header[0] & 0x3F == 0x10 {
                self.note("L of type 10");
            }
        }
    }

    /// What a frame start says about how the hub started; a dropped one says nothing.
    fn note_start(&mut self, port: u8, number: u16, outcome: Outcome) {
        let since = &mut self.since;
        if outcome == Outcome::Dropped {
            since.numbers[usize::from(port & 3)].clear();
            return;
        }
        match (since.start, since.is_largest_written, number) {
            (Start::Board, false, 0) => {
                self.note("S number 0, the largest not written, at the board's start")
            }
            (Start::Board, true, 1..) => {
                self.note("S number above 0, the largest written, at the board's start")
            }
            (Start::Sheet, false, _) => {
                let numbers = &mut since.numbers[usize::from(port & 3)];
                numbers.push(number);
                if *numbers == [1, 2, 3, 4, 1] {
                    self.note("S numbers 1 2 3 4 1, the largest not written, at the sheet's start");
                }
            }
            _ => {}
        }
    }

    fn note_number(&mut self, new: u16, largest: u16) {
        self.note(match largest {
            0 => "S under largest number 0",
            1 => "S under largest number 1",
            0xFFFF => "S under largest number 65535",
            _ => "S under another largest number",
        });
        match (self.old_number, new) {
            (_, 0xFFFF) => self.note("S number 65535"),
            (0xFFFF, 1) => self.note("S number 65535 to 1"),
            (old @ 2.., 1) if old == largest => self.note("S number largest to 1"),
            (2.., 1) => self.note("S number above a lowered largest to 1"),
            (1.., 0) => self.note("S number back to 0"),
            _ => {}
        }
    }
}

impl Watch for Tally<'_> {
    fn before(&mut self, record: Result<&Record, Malformed>, hub: Option<&Hub>) {
        self.letter = "";
        let record = match record {
            Ok(record) => record,
            Err(why) => return self.note(malformed(why)),
        };
        self.letter = letter(record);
        if let Record::HubAddress { start, .. } = *record {
            self.since = SinceStart::of(start);
        }
        let Some(hub) = hub else {
            return;
        };
        conditions::note_pairs(self.coverage, record, hub);
        match *record {
            Record::Write { offset, values } => self.note_burst(offset, values, hub),
            Record::Read { offset } => self.note_read(offset, hub),
            Record::Line { width, .. } => self.width = width,
            Record::FrameStart { port, .. } => {
                self.old_number = hub.frames.ports[usize::from(port & 3)].number;
            }
            _ => {}
        }
    }

    fn after(&mut self, answer: &Answer, hub: Option<&Hub>) {
        if let Answer::Refused(refusal) = answer {
            // Refusal 13 has points of its own, and no letter here.
            let (letter, number) = (self.letter, refusal.number());
            return self.note(&format!("{letter} refused {number}"));
        }
        let Some(hub) = hub else {
            return;
        };
        match *answer {
            Answer::Hub { .. } => self.note("H answered"),
            Answer::Wrote { .. } => self.note("W answered"),
            Answer::Value { .. } => self.note("R answered"),
            Answer::Address {
                address,
                direction,
                heard,
            } => self.note_heard(address, direction, heard, hub),
            Answer::Frame {
                event,
                port,
                outcome,
            } => self.note_frame(event, port, outcome, hub),
            Answer::Refused(_) => {}
        }
    }
}
