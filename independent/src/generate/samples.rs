//! The samples. Record by record: document 01's whole case, a four-camera weighbridge that is set
//! up right, and the same set-up with one wrong page selection. And the scripts that the data sheet
//! prints, turned into traces.

use crate::model::convert::to_trace;
use crate::model::start::Start;
use crate::model::trace_builder::TraceBuilder;
use std::fs;
use std::io;
use std::path::Path;

const HUB: u8 = 0x3D;

macro_rules! script {
    ($name:literal) => {
        (
            $name,
            include_bytes!(concat!("../../../samples/datasheet/", $name, ".script")),
        )
    };
}

/// The ten blocks of calls in the data sheet, by name, in its order.
pub const SCRIPTS: [(&str, &[u8]); 10] = [
    script!("cmlout"),
    script!("csi_timing_400mbps"),
    script!("framesync_internal"),
    script!("forwarding_synchronized"),
    script!("forwarding_line_interleaved"),
    script!("forwarding_line_concatenated"),
    script!("broadcast_write"),
    script!("i2c_fast_mode_plus"),
    script!("interrupts_enable"),
    script!("pattern_generator"),
];

/// Writes each sample into the folder, as NAME.trace; those of the scripts into its `datasheet`.
pub fn write_all(folder: &Path) -> io::Result<()> {
    let samples = [
        ("whole_case", whole_case()),
        ("weighbridge", weighbridge(0x24)),
        ("wrong_page", weighbridge(0x12)),
    ];
    for (name, trace) in samples {
        fs::write(folder.join(format!("{name}.trace")), trace)?;
    }
    let folder = folder.join("datasheet");
    fs::create_dir_all(&folder)?;
    for (name, text) in SCRIPTS {
        let refused = |refused| io::Error::other(format!("{name}.script is refused: {refused}"));
        let trace = to_trace(HUB, Start::Board, text).map_err(refused)?;
        fs::write(folder.join(format!("{name}.trace")), trace)?;
    }
    Ok(())
}

/// Document 01, "The trace and the player". "The case in document 01 becomes 00 3D 00 and prints as
/// before."
pub fn whole_case() -> Vec<u8> {
    let mut trace = TraceBuilder::with_hub(HUB, Start::Sheet);
    trace.raw(&after_the_hub());
    trace.into_bytes()
}

/// The whole case without its hub record.
pub fn after_the_hub() -> Vec<u8> {
    let mut trace = TraceBuilder::default();
    trace.write(0x4C, 0x12);
    trace.write(0x58, 0x58);
    trace.write(0x5D, 0x60);
    trace.write(0x65, 0x62);
    trace.write(0x70, 0x6B);
    trace.ask_write(0x31);
    trace.write(0x20, 0xD0);
    trace.start(1, 10);
    trace.line(1, 4, 0);
    trace.end(1);
    trace.start(4, 10);
    trace.read(0x4C);
    trace.into_bytes()
}

/// Lane A has the cameras of ports 0 and 1, on CSI output 0; lane B those of ports 2 and 3, on
/// output 1. In each lane the front camera has virtual channel 0 and the rear camera 1. The cameras
/// all have the address 0x30 on their own bus, and get the addresses 0x31 to 0x34. The block for
/// lane B's front camera has its page selection as it is given here; 0x24 is port 2. The hub starts as
/// the board does, and nothing sets the largest frame number, so the frames carry 0.
fn weighbridge(lane_b_front: u8) -> Vec<u8> {
    let mut trace = TraceBuilder::with_hub(HUB, Start::Board);
    let cameras = [
        (0x01, 0x62, 0x2B),
        (0x12, 0x64, 0x6B),
        (lane_b_front, 0x66, 0x2B),
        (0x38, 0x68, 0x6B),
    ];
    for (selection, alias, identifier) in cameras {
        trace.write(0x4C, selection);
        trace.write(0x58, 0x58);
        trace.write(0x5D, 0x60);
        trace.write(0x65, alias);
        trace.write(0x70, identifier);
    }
    trace.write(0x20, 0x0C);
    for address in 0x31..=0x34 {
        trace.ask_both(address);
    }
    for port in 0..4 {
        trace.start(port, 10);
        trace.line(port, 4, 0x155);
        trace.end(port);
    }
    trace.into_bytes()
}
