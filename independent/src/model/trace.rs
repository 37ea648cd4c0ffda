//! Traces: the records of a file, read one at a time, and why a record is malformed.

use super::addresses::Direction;
use super::start::Start;
use std::io::{self, ErrorKind, Read};

pub const MARK: [u8; 2] = [0x9A, 0x64];

pub const HUB_ADDRESS: u8 = 0x00;
pub const WRITE: u8 = 0x01;
pub const READ: u8 = 0x02;
pub const ADDRESS: u8 = 0x03;
pub const FRAME_START: u8 = 0x10;
pub const FRAME_END: u8 = 0x11;
pub const LINE: u8 = 0x12;

pub const KINDS: [u8; 7] = [
    HUB_ADDRESS,
    WRITE,
    READ,
    ADDRESS,
    FRAME_START,
    FRAME_END,
    LINE,
];

#[derive(Clone, Copy, Debug, PartialEq, Eq)]
pub enum Record<'a> {
    HubAddress { address: u8, start: Start },
    Write { offset: u8, values: &'a [u8] },
    Read { offset: u8 },
    Address { address: u8, direction: Direction },
    FrameStart { port: u8, format: u8 },
    FrameEnd { port: u8 },
    Line { port: u8, width: u16, pixel: u16 },
}

/// Why a record gets refusal 13; the first reason found where several hold.
#[derive(Clone, Copy, Debug, PartialEq, Eq)]
pub enum Malformed {
    Mark,
    Kind,
    HubNotFirst,
    HubAgain,
    Length,
    Cut,
    Direction,
    SecondByte,
}

pub struct RecordReader<R> {
    input: R,
    data: [u8; 255],
    first: bool,
}

impl<R: Read> RecordReader<R> {
    pub fn new(input: R) -> Self {
        RecordReader {
            input,
            data: [0; 255],
            first: true,
        }
    }

    /// The next record; nothing at the end of the file.
    pub fn next_record(&mut self) -> io::Result<Option<Result<Record<'_>, Malformed>>> {
        let mut head = [0; 4];
        let got = fill(&mut self.input, &mut head)?;
        if got == 0 {
            return Ok(None);
        }
        let first = std::mem::replace(&mut self.first, false);
        if let Err(why) = check_head(&head[..got], first) {
            return Ok(Some(Err(why)));
        }
        let data = &mut self.data[..usize::from(head[3])];
        if fill(&mut self.input, data)? < data.len() {
            return Ok(Some(Err(Malformed::Cut)));
        }
        Ok(Some(parse(head[2], data)))
    }
}

/// Reads until the space is full or the input ends.
fn fill(input: &mut impl Read, space: &mut [u8]) -> io::Result<usize> {
    let mut got = 0;
    while got < space.len() {
        match input.read(&mut space[got..]) {
            Ok(0) => break,
            Ok(more) => got += more,
            Err(error) if error.kind() == ErrorKind::Interrupted => {}
            Err(error) => return Err(error),
        }
    }
    Ok(got)
}

/// Mark, kind and length, as far as the bytes go.
fn check_head(head: &[u8], first: bool) -> Result<(), Malformed> {
    if head.iter().zip(MARK).any(|(&byte, mark)| byte != mark) {
        return Err(Malformed::Mark);
    }
    let &[_, _, kind, length] = head else {
        return Err(Malformed::Cut);
    };
    if !KINDS.contains(&kind) {
        return Err(Malformed::Kind);
    }
    match (first, kind == HUB_ADDRESS) {
        (true, false) => return Err(Malformed::HubNotFirst),
        (false, true) => return Err(Malformed::HubAgain),
        _ => {}
    }
    let length_is_right = match kind {
        HUB_ADDRESS => length == 1 || length == 2,
        READ | FRAME_END => length == 1,
        ADDRESS | FRAME_START => length == 2,
        LINE => length == 5,
        _ => length >= 2,
    };
    if length_is_right {
        Ok(())
    } else {
        Err(Malformed::Length)
    }
}

fn parse(kind: u8, data: &[u8]) -> Result<Record<'_>, Malformed> {
    Ok(match (kind, data) {
        (HUB_ADDRESS, &[address, ref second @ ..]) => Record::HubAddress {
            address,
            start: start(second)?,
        },
        (WRITE, &[offset, ref values @ ..]) => Record::Write { offset, values },
        (READ, &[offset]) => Record::Read { offset },
        (ADDRESS, &[address, direction]) => Record::Address {
            address,
            direction: match direction {
                0 => Direction::Write,
                1 => Direction::Read,
                _ => return Err(Malformed::Direction),
            },
        },
        (FRAME_START, &[port, format]) => Record::FrameStart { port, format },
        (FRAME_END, &[port]) => Record::FrameEnd { port },
        (LINE, &[port, w0, w1, p0, p1]) => Record::Line {
            port,
            width: u16::from_le_bytes([w0, w1]),
            pixel: u16::from_le_bytes([p0, p1]),
        },
        _ => return Err(Malformed::Length),
    })
}

/// "The hub record may now have a second byte, only 0, for the data sheet's reset; with one byte it
/// means the board's."
fn start(second: &[u8]) -> Result<Start, Malformed> {
    match second {
        [] => Ok(Start::Board),
        [0] => Ok(Start::Sheet),
        _ => Err(Malformed::SecondByte),
    }
}
