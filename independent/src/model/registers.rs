//! The register file: reset values and masks of all offsets, and how writes and reads move
//! through the page selection.

use super::start::Start;

pub const SCL_HIGH_TIME: u8 = 0x0A;
pub const SCL_LOW_TIME: u8 = 0x0B;
pub const MAX_FRM_HI: u8 = 0x1D;
pub const MAX_FRM_LO: u8 = 0x1E;
pub const FWD_CTL1: u8 = 0x20;
pub const FWD_CTL2: u8 = 0x21;
pub const FPD3_PORT_SEL: u8 = 0x4C;
pub const BCC_CONFIG: u8 = 0x58;
pub const SER_ID: u8 = 0x5B;
pub const SER_ALIAS_ID: u8 = 0x5C;
pub const TARGET_ID_0: u8 = 0x5D;
pub const TARGET_ALIAS_0: u8 = 0x65;
pub const RAW10_ID: u8 = 0x70;
pub const RAW12_ID: u8 = 0x71;

pub const PORTS: usize = 4;
pub const TARGETS: u8 = 8;

/// What the table says of one offset; `reset` is that of port 0 where there are pages.
#[derive(Clone, Copy, Debug, PartialEq, Eq)]
pub struct Register {
    pub reset: u8,
    pub mask: u8,
    pub per_port: bool,
}

/// The row of the table for an offset.
pub fn register(offset: u8) -> Register {
    let (reset, mask, per_port) = match offset {
        0x0A | 0x0B => (0x79, 0xFF, false), // the data sheet's value; document 01 prints 7A
        0x19..=0x1C => (0x00, 0xFF, false),
        0x1D => (0x00, 0xFF, false),
        0x1E => (0x04, 0xFF, false),
        0x1F => (0x02, 0x03, false),
        0x20 => (0xF0, 0xFF, false),
        0x21 => (0x03, 0xFF, false),
        0x4C => (0x00, 0x3F, false),
        0x58 => (0x18, 0xFF, true),
        0x5B | 0x5C => (0x00, 0xFF, true),
        0x5D..=0x64 => (0x00, 0xFE, true),
        0x65..=0x6C => (0x00, 0xFF, true),
        0x70 => (0x2B, 0xFF, true),
        0x71 => (0x2C, 0xFF, true),
        0xB3 => (0x08, 0xCF, false),
        0xB6 => (0x18, 0x38, false),
        0xB9 => (0x03, 0x3F, false),
        0xBC => (0x80, 0xFF, false),
        0xBE => (0x00, 0xFF, false),
        _ => (0x00, 0x00, false),
    };
    Register {
        reset,
        mask,
        per_port,
    }
}

/// The reset value of an offset on a port: RAW10_ID and RAW12_ID carry the port as channel.
pub fn reset_value(offset: u8, port: usize) -> u8 {
    let reset = register(offset).reset;
    match offset {
        RAW10_ID | RAW12_ID => reset + 64 * (port as u8),
        _ => reset,
    }
}

#[derive(Clone, Debug, PartialEq, Eq)]
pub struct RegisterFile {
    shared: [u8; 256],
    pages: [[u8; 256]; PORTS],
}

impl Default for RegisterFile {
    fn default() -> Self {
        Self::after_reset()
    }
}

impl RegisterFile {
    pub fn after_reset() -> Self {
        let mut file = RegisterFile {
            shared: [0; 256],
            pages: [[0; 256]; PORTS],
        };
        for offset in 0..=255u8 {
            if register(offset).per_port {
                for port in 0..PORTS {
                    file.pages[port][offset as usize] = reset_value(offset, port);
                }
            } else {
                file.shared[offset as usize] = register(offset).reset;
            }
        }
        file
    }

    /// The data sheet's start is its reset; the board's differs in the largest frame number alone.
    pub fn at_start(start: Start) -> Self {
        let mut file = Self::after_reset();
        if start == Start::Board {
            file.shared[MAX_FRM_HI as usize] = 0;
            file.shared[MAX_FRM_LO as usize] = 0;
        }
        file
    }

    /// Bits 3 to 0 of FPD3_PORT_SEL tick the ports to be written.
    pub fn is_ticked(&self, port: usize) -> bool {
        self.shared(FPD3_PORT_SEL) >> port & 1 == 1
    }

    /// Bits 5 and 4 of FPD3_PORT_SEL name the port to be read.
    pub fn read_port(&self) -> usize {
        (self.shared(FPD3_PORT_SEL) >> 4 & 3) as usize
    }

    pub fn write(&mut self, offset: u8, value: u8) {
        let row = register(offset);
        let place = offset as usize;
        if !row.per_port {
            self.shared[place] = moved(self.shared[place], row.mask, value);
            return;
        }
        for port in 0..PORTS {
            if self.is_ticked(port) {
                self.pages[port][place] = moved(self.pages[port][place], row.mask, value);
            }
        }
    }

    /// Successive offsets, each byte under the selection then in force; after FF comes 00.
    pub fn burst(&mut self, first: u8, values: &[u8]) {
        let mut offset = first;
        for &value in values {
            self.write(offset, value);
            offset = offset.wrapping_add(1);
        }
    }

    pub fn read(&self, offset: u8) -> u8 {
        if register(offset).per_port {
            self.on_port(self.read_port(), offset)
        } else {
            self.shared(offset)
        }
    }

    pub fn shared(&self, offset: u8) -> u8 {
        self.shared[offset as usize]
    }

    pub fn on_port(&self, port: usize, offset: u8) -> u8 {
        self.pages[port][offset as usize]
    }

    pub fn largest_frame_number(&self) -> u16 {
        u16::from(self.shared(MAX_FRM_HI)) * 256 + u16::from(self.shared(MAX_FRM_LO))
    }

    pub fn scl_high_time_ns(&self) -> u32 {
        40 * (u32::from(self.shared(SCL_HIGH_TIME)) + 4)
    }

    pub fn scl_low_time_ns(&self) -> u32 {
        40 * (u32::from(self.shared(SCL_LOW_TIME)) + 4)
    }
}

/// The masked bits from the value, the rest kept.
fn moved(old: u8, mask: u8, value: u8) -> u8 {
    (old & !mask) | (value & mask)
}
