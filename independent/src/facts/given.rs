//! What is asked about: a hub, and the register writes that it gets.

use crate::model::convert::{pieces, read_piece, Refused};
use crate::model::hub::Hub;
use crate::model::refusal::Refusal;
use crate::model::start::Start;
use crate::model::trace::{Record, RecordReader};

/// One byte for one register. "A script's register writes are numbered by their line (a trace's by
/// their record)": the bytes of a burst all have the number of its record.
#[derive(Clone, Copy, Debug, PartialEq, Eq)]
pub struct Write {
    pub number: u64,
    pub offset: u8,
    pub value: u8,
}

#[derive(Clone, Debug, PartialEq, Eq)]
pub struct Given {
    /// The hub's own address.
    pub hub: u8,
    pub start: Start,
    pub writes: Vec<Write>,
}

/// A script, or its refusal as `convert trace` prints it.
pub fn of_script(address: u8, start: Start, text: &[u8]) -> Result<Given, Refused> {
    Hub::new(address, start)?;
    let mut writes = Vec::new();
    for (number, piece) in (1..).zip(pieces(text)) {
        let call = read_piece(piece).map_err(|refusal| at(number, refusal))?;
        writes.extend(call.map(|call| Write {
            number,
            offset: call.offset,
            value: call.value,
        }));
    }
    Ok(Given {
        hub: address,
        start,
        writes,
    })
}

/// A trace, or the refusal that ends its run, as the player prints it. Only the hub record and the
/// register writes count. The player refuses nothing in an empty file; here it has no hub, and is
/// refused as `convert text` refuses it.
pub fn of_trace(trace: &[u8]) -> Result<Given, Refused> {
    let mut reader = RecordReader::new(trace);
    let mut hub = None;
    let mut writes = Vec::new();
    let mut number = 0;
    // A slice never fails to be read.
    while let Ok(Some(record)) = reader.next_record() {
        number += 1;
        match record.map_err(|_| at(number, Refusal::RecordMalformed))? {
            Record::HubAddress { address, start } => {
                Hub::new(address, start).map_err(|refusal| at(number, refusal))?;
                hub = Some((address, start));
            }
            Record::Write { offset, values } => writes.extend(burst(number, offset, values)),
            _ => {}
        }
    }
    let (hub, start) = hub.ok_or(Refusal::RecordMalformed)?;
    Ok(Given { hub, start, writes })
}

fn at(number: u64, refusal: Refusal) -> Refused {
    Refused {
        line: Some(number),
        refusal,
    }
}

/// Successive offsets; after FF comes 00.
fn burst(number: u64, first: u8, values: &[u8]) -> Vec<Write> {
    let mut writes = Vec::new();
    let mut offset = first;
    for &value in values {
        writes.push(Write {
            number,
            offset,
            value,
        });
        offset = offset.wrapping_add(1);
    }
    writes
}
