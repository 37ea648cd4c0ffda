//! Builds a trace record by record.

use super::start::Start;
use super::trace::{ADDRESS, FRAME_END, FRAME_START, HUB_ADDRESS, LINE, MARK, READ, WRITE};

#[derive(Clone, Default)]
pub struct TraceBuilder {
    bytes: Vec<u8>,
}

impl TraceBuilder {
    /// A trace that begins as it must, with the hub's own address and its start.
    pub fn with_hub(address: u8, start: Start) -> TraceBuilder {
        let mut trace = TraceBuilder::default();
        match start {
            Start::Board => trace.record(HUB_ADDRESS, &[address]),
            Start::Sheet => trace.record(HUB_ADDRESS, &[address, 0]),
        }
        trace
    }

    pub fn into_bytes(self) -> Vec<u8> {
        self.bytes
    }

    pub fn as_bytes(&self) -> &[u8] {
        &self.bytes
    }

    pub fn clear(&mut self) {
        self.bytes.clear();
    }

    pub fn raw(&mut self, bytes: &[u8]) {
        self.bytes.extend_from_slice(bytes);
    }

    /// Any kind with any data; a record holds 255 bytes at most.
    pub fn record(&mut self, kind: u8, data: &[u8]) {
        let data = &data[..data.len().min(255)];
        self.raw(&MARK);
        self.raw(&[kind, data.len() as u8]);
        self.raw(data);
    }

    pub fn write(&mut self, offset: u8, value: u8) {
        self.record(WRITE, &[offset, value]);
    }

    pub fn burst(&mut self, offset: u8, values: &[u8]) {
        let mut data = vec![offset];
        data.extend_from_slice(values);
        self.record(WRITE, &data);
    }

    pub fn read(&mut self, offset: u8) {
        self.record(READ, &[offset]);
    }

    pub fn ask_write(&mut self, address: u8) {
        self.record(ADDRESS, &[address, 0]);
    }

    pub fn ask_read(&mut self, address: u8) {
        self.record(ADDRESS, &[address, 1]);
    }

    pub fn ask_both(&mut self, address: u8) {
        self.ask_write(address);
        self.ask_read(address);
    }

    pub fn start(&mut self, port: u8, format: u8) {
        self.record(FRAME_START, &[port, format]);
    }

    pub fn end(&mut self, port: u8) {
        self.record(FRAME_END, &[port]);
    }

    pub fn line(&mut self, port: u8, width: u16, pixel: u16) {
        let [w0, w1] = width.to_le_bytes();
        let [p0, p1] = pixel.to_le_bytes();
        self.record(LINE, &[port, w0, w1, p0, p1]);
    }
}
