//! A realistic long trace of any number of records: four cameras running, with register
//! traffic and address questions between their lines.

use super::cameras;
use crate::generate::rng::Rng;
use crate::generate::values;
use crate::model::registers::{BCC_CONFIG, FPD3_PORT_SEL, FWD_CTL1, TARGETS, TARGET_ALIAS_0};
use crate::model::start::Start;
use crate::model::trace_builder::TraceBuilder;
use std::io::{self, Write};

const WIDTHS: [u16; 5] = [64, 160, 320, 640, 640];
const ADDRESSES: [u8; 10] = [0x0C, 0x30, 0x31, 0x3D, 0x40, 0x41, 0x48, 0x50, 0x58, 0x60];

/// A camera: the format and the lines left of its open frame, if one is open.
#[derive(Clone, Copy)]
struct Camera {
    open: Option<(u8, u64)>,
    width: u16,
}

struct Traffic<'a> {
    rng: &'a mut Rng,
    cameras: [Camera; 4],
}

/// Writes the trace piece by piece, so that its size does not matter.
pub fn write(rng: &mut Rng, records: u64, output: &mut impl Write) -> io::Result<()> {
    let mut trace = TraceBuilder::default();
    let mut left = records;
    let opening = opening(rng);
    for record in opening {
        if left == 0 {
            break;
        }
        trace.raw(&record);
        left -= 1;
    }
    let cameras = [0; 4].map(|_| Camera {
        open: None,
        width: rng.pick(&WIDTHS),
    });
    let mut traffic = Traffic { rng, cameras };
    for _ in 0..left {
        traffic.record(&mut trace);
        if trace.as_bytes().len() > 0x8000 {
            output.write_all(trace.as_bytes())?;
            trace.clear();
        }
    }
    output.write_all(trace.as_bytes())
}

pub fn in_memory(rng: &mut Rng, records: u64) -> Vec<u8> {
    let mut bytes = Vec::new();
    // A vector never fails to be written.
    let _ = write(rng, records, &mut bytes);
    bytes
}

/// The set-up of the four cameras, record by record.
fn opening(rng: &mut Rng) -> Vec<Vec<u8>> {
    let mut trace = TraceBuilder::with_hub(0x3D, Start::Board);
    cameras::set_up(&mut trace, rng);
    trace.write(FWD_CTL1, 0x0C);
    let mut rest = trace.as_bytes();
    let mut records = Vec::new();
    while rest.len() >= 4 {
        let (record, after) = rest.split_at((4 + usize::from(rest[3])).min(rest.len()));
        records.push(record.to_vec());
        rest = after;
    }
    records
}

impl Traffic<'_> {
    fn record(&mut self, trace: &mut TraceBuilder) {
        match self.rng.below(100) {
            0..=11 => self.write_register(trace),
            12..=23 => trace.read(values::offset(self.rng)),
            24..=31 => trace.ask_write(self.rng.pick(&ADDRESSES)),
            32..=39 => trace.ask_read(self.rng.pick(&ADDRESSES)),
            40 => trace.start(4, 10),
            _ => self.camera(trace),
        }
    }

    /// Registers a running system moves: times, selection, aliases, now and then a route.
    fn write_register(&mut self, trace: &mut TraceBuilder) {
        let rng = &mut *self.rng;
        match rng.below(20) {
            0 => trace.write(FWD_CTL1, rng.below(16) as u8),
            1 => trace.write(FWD_CTL1, rng.byte()),
            2 => trace.write(BCC_CONFIG, rng.pick(&[0x58, 0x58, 0x18])),
            3..=7 => {
                let target = TARGET_ALIAS_0 + rng.below(u64::from(TARGETS)) as u8;
                trace.write(target, rng.pick(&ADDRESSES) << 1);
            }
            8..=12 => trace.burst(0x19, &[rng.byte(), rng.byte(), rng.byte(), rng.byte()]),
            _ => trace.write(FPD3_PORT_SEL, values::selection(rng)),
        }
    }

    /// The next step of some camera: start, line after line, end.
    fn camera(&mut self, trace: &mut TraceBuilder) {
        let port = self.rng.below(4) as u8;
        let camera = &mut self.cameras[usize::from(port)];
        match camera.open {
            None => {
                let format = self.rng.pick(&values::FORMATS);
                camera.open = Some((format, self.rng.between(8, 40)));
                trace.start(port, format);
            }
            Some((_, 0)) => {
                camera.open = None;
                trace.end(port);
            }
            Some((format, lines)) => {
                camera.open = Some((format, lines - 1));
                trace.line(port, camera.width, values::good_pixel(self.rng, format));
            }
        }
    }
}
