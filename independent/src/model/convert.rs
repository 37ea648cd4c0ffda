//! Request L1: an installer's script turned into a trace, and a trace into a script. Request L5: "the
//! agent gives the start with the address, and for text made from a trace the trace's own".

use super::hub::Hub;
use super::refusal::Refusal;
use super::script_line::{read_line, written, Call, LONGEST_LINE};
use super::start::Start;
use super::trace::{Record, RecordReader};
use super::trace_builder::TraceBuilder;
use std::fmt;

/// A refusal, with the number of its line where it has one.
#[derive(Clone, Copy, Debug, PartialEq, Eq)]
pub struct Refused {
    pub line: Option<u64>,
    pub refusal: Refusal,
}

impl From<Refusal> for Refused {
    fn from(refusal: Refusal) -> Refused {
        Refused {
            line: None,
            refusal,
        }
    }
}

impl fmt::Display for Refused {
    fn fmt(&self, out: &mut fmt::Formatter<'_>) -> fmt::Result {
        if let Some(line) = self.line {
            write!(out, "{line} ")?;
        }
        write!(out, "! {}", self.refusal.number())
    }
}

/// The hub record, then a write record of one value for each call.
pub fn to_trace(address: u8, start: Start, text: &[u8]) -> Result<Vec<u8>, Refused> {
    Hub::new(address, start)?;
    let mut trace = TraceBuilder::with_hub(address, start);
    for (number, piece) in (1..).zip(pieces(text)) {
        let read = read_piece(piece).map_err(|refusal| Refused {
            line: Some(number),
            refusal,
        });
        if let Some(Call { offset, value }) = read? {
            trace.write(offset, value);
        }
    }
    Ok(trace.into_bytes())
}

/// The lines with their line feeds; the last piece may have none.
pub fn pieces(text: &[u8]) -> impl Iterator<Item = &[u8]> {
    text.split_inclusive(|&byte| byte == b'\n')
}

/// The numbers of all lines that are refused, each by itself.
pub fn refused_lines(text: &[u8]) -> Vec<u64> {
    let numbered = (1..).zip(pieces(text));
    let refused = numbered.filter(|(_, piece)| read_piece(piece).is_err());
    refused.map(|(number, _)| number).collect()
}

/// A piece without a line feed is no line, whatever it holds.
pub fn read_piece(piece: &[u8]) -> Result<Option<Call>, Refusal> {
    match piece.strip_suffix(b"\n") {
        Some(line) => read_line(line),
        None if piece.len() > LONGEST_LINE => Err(Refusal::LineTooLong),
        None => Err(Refusal::LineShape),
    }
}

/// One line for each byte written; the hub record has no text.
pub fn to_text(trace: &[u8]) -> Result<Vec<u8>, Refused> {
    if trace.is_empty() {
        return Err(Refusal::RecordMalformed.into());
    }
    let mut text = Vec::new();
    let mut reader = RecordReader::new(trace);
    // A slice never fails to be read.
    while let Ok(Some(record)) = reader.next_record() {
        match record.map_err(|_| Refusal::RecordMalformed)? {
            Record::HubAddress { address, start } => {
                Hub::new(address, start)?;
            }
            Record::Write { offset, values } => write_burst(&mut text, offset, values),
            _ => return Err(Refusal::NoTextForm.into()),
        }
    }
    Ok(text)
}

/// A trace's own address and start: its first record alone is looked at.
pub fn hub_of(trace: &[u8]) -> Result<(u8, Start), Refused> {
    match RecordReader::new(trace).next_record() {
        Ok(Some(Ok(Record::HubAddress { address, start }))) => {
            Hub::new(address, start)?;
            Ok((address, start))
        }
        _ => Err(Refusal::RecordMalformed.into()),
    }
}

/// Whether a trace that was made of a text is its hub record alone.
pub fn has_no_write(trace: &[u8]) -> bool {
    trace
        .get(3)
        .is_some_and(|&length| trace.len() == 4 + usize::from(length))
}

/// Offsets go round after FF.
fn write_burst(text: &mut Vec<u8>, first: u8, values: &[u8]) {
    let mut offset = first;
    for &value in values {
        text.extend_from_slice(written(Call { offset, value }).as_bytes());
        offset = offset.wrapping_add(1);
    }
}
