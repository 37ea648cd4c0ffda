//! The player: one printed line a record, streaming, and a last line with the counts.

use super::answer::{Answer, Event};
use super::frames::Outcome;
use super::hub::Hub;
use super::refusal::Refusal;
use super::text::TextLine;
use super::trace::{Malformed, Record, RecordReader};
use std::io::{self, Read, Write};

/// The bytes lent for packets: the longest line is 4 + 6144 + 2.
pub const LENT: usize = 6150;

/// Sees every record with the hub before it, and every answer with the hub after it.
pub trait Watch {
    fn before(&mut self, _record: Result<&Record, Malformed>, _hub: Option<&Hub>) {}
    fn after(&mut self, _answer: &Answer, _hub: Option<&Hub>) {}
}

/// Watches nothing.
pub struct Unwatched;
impl Watch for Unwatched {}

#[derive(Clone, Copy, Debug, Default, PartialEq, Eq)]
pub struct Totals {
    pub records: u64,
    pub refused: u64,
    /// Whether the last record ended the run.
    pub ended: bool,
}

#[derive(Debug)]
pub enum PlayError {
    Input(io::Error),
    Output(io::Error),
}

pub struct Player {
    hub: Option<Hub>,
    pixels: Vec<u16>,
    buffer: Vec<u8>,
}

impl Default for Player {
    fn default() -> Self {
        Player {
            hub: None,
            pixels: vec![0; usize::from(u16::MAX)],
            buffer: vec![0; LENT],
        }
    }
}

impl Player {
    pub fn hub(&self) -> Option<&Hub> {
        self.hub.as_ref()
    }

    pub fn answer(&mut self, record: &Record) -> Answer {
        self.try_answer(record).unwrap_or_else(Answer::Refused)
    }

    fn try_answer(&mut self, record: &Record) -> Result<Answer, Refusal> {
        if let Record::HubAddress { address, start } = *record {
            self.hub = Some(Hub::new(address, start)?);
            return Ok(Answer::Hub { address });
        }
        let hub = self.hub.as_mut().ok_or(Refusal::RecordMalformed)?;
        match *record {
            Record::HubAddress { .. } => Err(Refusal::RecordMalformed),
            Record::Write { offset, values } => {
                hub.registers.burst(offset, values);
                let count = values.len();
                Ok(Answer::Wrote { offset, count })
            }
            Record::Read { offset } => {
                let value = hub.registers.read(offset);
                Ok(Answer::Value { offset, value })
            }
            Record::Address { address, direction } => Ok(Answer::Address {
                address,
                direction,
                heard: hub.who_hears(address, direction)?,
            }),
            Record::FrameStart { .. } | Record::FrameEnd { .. } | Record::Line { .. } => {
                self.frame_answer(record)
            }
        }
    }

    fn frame_answer(&mut self, record: &Record) -> Result<Answer, Refusal> {
        let hub = self.hub.as_mut().ok_or(Refusal::RecordMalformed)?;
        let (registers, frames, buffer) = (&hub.registers, &mut hub.frames, &mut self.buffer);
        let (event, port, outcome) = match *record {
            Record::FrameStart { port, format } => {
                let outcome = frames.start(registers, port, format, buffer, 0)?;
                (Event::Start, port, outcome)
            }
            Record::Line { port, width, pixel } => {
                let pixels = &mut self.pixels[..usize::from(width)];
                pixels.fill(pixel);
                let outcome = frames.line(registers, port, pixels, buffer, 0)?;
                (Event::Line, port, outcome)
            }
            Record::FrameEnd { port } => {
                let outcome = frames.end(registers, port, buffer, 0)?;
                (Event::End, port, outcome)
            }
            _ => return Err(Refusal::RecordMalformed),
        };
        if let Outcome::Sent { packet, .. } = outcome {
            // The packet is a result in its own right: it is really written, even if not shown.
            std::hint::black_box(&self.buffer[..packet.length]);
        }
        Ok(Answer::Frame {
            event,
            port,
            outcome,
        })
    }
}

/// Plays a whole trace; refusal 13, or 2 in record 1, ends the run.
pub fn play<R: Read, W: Write, T: Watch>(
    input: R,
    output: &mut W,
    watch: &mut T,
) -> Result<Totals, PlayError> {
    let mut reader = RecordReader::new(input);
    let mut player = Player::default();
    let mut totals = Totals::default();
    let mut line = TextLine::default();
    while let Some(record) = reader.next_record().map_err(PlayError::Input)? {
        watch.before(record.as_ref().map_err(|&why| why), player.hub());
        let answer = match &record {
            Ok(record) => player.answer(record),
            Err(_) => Answer::Refused(Refusal::RecordMalformed),
        };
        watch.after(&answer, player.hub());
        totals.records += 1;
        totals.refused += u64::from(matches!(answer, Answer::Refused(_)));
        line.clear();
        answer.print(totals.records, &mut line);
        output
            .write_all(line.as_bytes())
            .map_err(PlayError::Output)?;
        if ends_the_run(&answer, totals.records) {
            totals.ended = true;
            break;
        }
    }
    let last = format!("records {} refused {}\n", totals.records, totals.refused);
    output
        .write_all(last.as_bytes())
        .map_err(PlayError::Output)?;
    Ok(totals)
}

fn ends_the_run(answer: &Answer, number: u64) -> bool {
    match answer {
        Answer::Refused(Refusal::RecordMalformed) => true,
        Answer::Refused(Refusal::AddressOutOfRange) => number == 1,
        _ => false,
    }
}

/// The text a trace in memory prints.
pub fn text_of<T: Watch>(trace: &[u8], watch: &mut T) -> (Vec<u8>, Totals) {
    let mut text = Vec::with_capacity(trace.len() * 3);
    // Neither a slice nor a vector fails to be read or written.
    let totals = play(trace, &mut text, watch).unwrap_or_default();
    (text, totals)
}

/// The hub after the records of a trace in memory, if there is one.
pub fn end_state(trace: &[u8]) -> Option<Hub> {
    let mut reader = RecordReader::new(trace);
    let mut player = Player::default();
    // A slice never fails to be read, and a malformed record ends the run.
    while let Ok(Some(Ok(record))) = reader.next_record() {
        player.answer(&record);
    }
    player.hub
}
