//! The worked cases of document 01, the data sheet's table of SCL times, the standard's checksum
//! vectors and the unpacking of request L3, answered by the model and written as the proved program
//! `cases` writes them.

use crate::model::addresses::{Direction, Heard, Role};
use crate::model::checksum;
use crate::model::format::Format;
use crate::model::frames::Outcome;
use crate::model::header;
use crate::model::hub::Hub;
use crate::model::packet;
use crate::model::pixels;
use crate::model::refusal::Refusal;
use crate::model::start::Start;

/// The payloads that the standard gives a checksum for.
pub const CHECKSUM_VECTORS: [[u8; 24]; 2] = [
    [
        0xFF, 0x00, 0x00, 0x02, 0xB9, 0xDC, 0xF3, 0x72, 0xBB, 0xD4, 0xB8, 0x5A, 0xC8, 0x75, 0xC2,
        0x7C, 0x81, 0xF8, 0x05, 0xDF, 0xFF, 0x00, 0x00, 0x01,
    ],
    [
        0xFF, 0x00, 0x00, 0x00, 0x1E, 0xF0, 0x1E, 0xC7, 0x4F, 0x82, 0x78, 0xC5, 0x82, 0xE0, 0x8C,
        0x70, 0xD2, 0x3C, 0x78, 0xE9, 0xFF, 0x00, 0x00, 0x01,
    ],
];

/// All the cases, one line each.
pub fn report() -> String {
    let mut lines = Vec::new();
    registers(&mut lines);
    scl_times(&mut lines);
    addresses(&mut lines);
    headers(&mut lines);
    payloads(&mut lines);
    borders(&mut lines);
    unpacking(&mut lines);
    unpacking_borders(&mut lines);
    frame_numbers(&mut lines);
    lines.iter().map(|line| format!("{line}\n")).collect()
}

/// The value as text, or ! and the number of the refusal.
fn shown<T>(answer: Result<T, Refusal>, show: impl FnOnce(T) -> String) -> String {
    answer.map_or_else(|refusal| format!("! {}", refusal.number()), show)
}

/// The hub 0x3D after the data sheet's reset and these writes.
fn hub(writes: &[(u8, u8)]) -> Hub {
    let mut hub = Hub::new(0x3D, Start::Sheet).expect("0x3D is an address that a hub may have");
    for &(offset, value) in writes {
        hub.registers.write(offset, value);
    }
    hub
}

fn registers(lines: &mut Vec<String>) {
    for offset in [0x1F, 0xB6, 0x4C] {
        let value = hub(&[(offset, 0xFF)]).registers.read(offset);
        lines.push(format!("register {offset:02X} after FF: {value:02X}"));
    }
}

/// After reset, then the settings of table 5-14 of 004: Standard, Fast and Fast-mode Plus.
fn scl_times(lines: &mut Vec<String>) {
    let times = scl_times_of(&hub(&[]));
    lines.push(format!("SCL high and low time after reset: {times}"));
    for (high, low) in [(0x7A, 0x7A), (0x13, 0x25), (0x06, 0x0C)] {
        let times = scl_times_of(&hub(&[(0x0A, high), (0x0B, low)]));
        lines.push(format!(
            "SCL high and low time of {high:02X} and {low:02X}: {times}"
        ));
    }
}

fn scl_times_of(hub: &Hub) -> String {
    format!(
        "{} {}",
        hub.registers.scl_high_time_ns(),
        hub.registers.scl_low_time_ns()
    )
}

fn addresses(lines: &mut Vec<String>) {
    let cases = [("broadcast", 0x0F), ("ports 0 and 1, read port 2", 0x23)];
    for (name, selection) in cases {
        let hub = hub(&[
            (0x4C, selection),
            (0x58, 0x58),
            (0x5C, 0x18),
            (0x5D, 0x60),
            (0x65, 0x60),
        ]);
        let write = shown(hub.who_hears(0x30, Direction::Write), heard);
        lines.push(format!("{name}, write to 30: {write}"));
        let read = shown(hub.who_hears(0x30, Direction::Read), heard);
        lines.push(format!("{name}, read of 30: {read}"));
    }
}

fn heard(heard: Heard) -> String {
    let devices = match heard {
        Heard::Hub => return "hub".into(),
        Heard::Nobody => return "none".into(),
        Heard::Devices(devices) => devices,
    };
    let devices = devices.iter().flatten().map(|device| {
        let mark = match device.role {
            Role::Serializer => "s",
            Role::Target(_) => "",
        };
        format!("{}:{mark}{:02X}", device.port, device.address)
    });
    devices.collect::<Vec<String>>().join(" ")
}

fn hex(bytes: &[u8]) -> String {
    bytes.iter().map(|byte| format!("{byte:02X}")).collect()
}

fn headers(lines: &mut Vec<String>) {
    for [first, second, third] in [[0x00, 0x00, 0x00], [0x40, 0x01, 0x00]] {
        let word = u32::from_le_bytes([first, second, third, 0]);
        let check = header::check_byte_counted(first, second, third);
        lines.push(format!("check byte of the header word {word}: {check:02X}"));
    }
    for bytes in [
        [0x41, 0x01, 0x00, 0x0C],
        [0x40, 0x01, 0x00, 0x4C],
        [0x40, 0x01, 0x00, 0x0F],
    ] {
        let answer = shown(packet::read(&bytes), |packet| {
            let corrected = match packet.mended {
                None => "nothing corrected".into(),
                Some(bit) => format!("corrected bit {bit}"),
            };
            format!("{:02X} {} {corrected}", packet.identifier, packet.count)
        });
        lines.push(format!("read {}: {answer}", hex(&bytes)));
    }
}

fn payloads(lines: &mut Vec<String>) {
    let cases: [(&str, Format, &[u16]); 2] = [
        ("RAW10 of 3FF, 0, 0, 1", Format::Raw10, &[0x3FF, 0, 0, 1]),
        ("RAW12 of ABC, 123", Format::Raw12, &[0xABC, 0x123]),
    ];
    for (name, format, line) in cases {
        let mut buffer = [0; 8];
        let length = pixels::payload_length(format, line.len());
        pixels::pack(format, line, &mut buffer[..length]);
        lines.push(format!(
            "{name}: {length} bytes, with the rest of 8: {}",
            hex(&buffer)
        ));
    }
    for vector in CHECKSUM_VECTORS {
        let sum = checksum::bit_by_bit(&vector);
        lines.push(format!("checksum of the standard's vector: {sum:04X}"));
    }
}

/// A line of so many equal pixels, on a hub whose port 0 forwards with this data identifier.
fn line(format: Format, identifier: u8, width: usize, pixel: u16) -> String {
    let (register, bits) = match format {
        Format::Raw10 => (0x70, 10),
        Format::Raw12 => (0x71, 12),
    };
    let hub = hub(&[(0x4C, 0x01), (register, identifier), (0x20, 0x00)]);
    let (registers, mut frames) = (hub.registers, hub.frames);
    let mut buffer = [0; 6150];
    let sent = frames
        .start(&registers, 0, bits, &mut buffer, 0)
        .and_then(|_| frames.line(&registers, 0, &vec![pixel; width], &mut buffer, 0));
    shown(sent, |outcome| match outcome {
        Outcome::Dropped => "dropped".into(),
        Outcome::Sent { packet, .. } => format!("{} bytes", packet.length),
    })
}

fn borders(lines: &mut Vec<String>) {
    let cases = [
        ("RAW10, width 4096", Format::Raw10, 0x2B, 4096, 0),
        ("RAW12, width 4096", Format::Raw12, 0x2C, 4096, 0),
        ("RAW10, width 4097", Format::Raw10, 0x2B, 4097, 0),
        ("RAW12, width 0", Format::Raw12, 0x2C, 0, 0),
        ("RAW10, pixel 3FF", Format::Raw10, 0x2B, 4, 0x3FF),
        ("RAW10, pixel 400", Format::Raw10, 0x2B, 4, 0x400),
        ("type 10", Format::Raw10, 0x10, 4, 0x3FF),
        ("type 0F", Format::Raw10, 0x0F, 4, 0x3FF),
    ];
    for (name, format, identifier, width, pixel) in cases {
        lines.push(format!(
            "{name}: {}",
            line(format, identifier, width, pixel)
        ));
    }
}

/// Into six pixels that held FFFF each.
fn unpacking(lines: &mut Vec<String>) {
    let cases: [(&[u8], u8); 4] = [
        (&[0xFF, 0x00, 0x00, 0x00, 0x43], 10),
        (&[0xAB, 0x12, 0x3C], 12),
        (&[0xAB, 0x12, 0x3C], 11),
        (&[0xAB, 0x12, 0x3C], 10),
    ];
    for (payload, bits) in cases {
        let mut six = [0xFFFF; 6];
        let unpacked = pixels::unpack(bits, payload, &mut six);
        let answer = shown(unpacked, |count| {
            format!("{count} pixels, with the rest of 6:{}", words(&six))
        });
        let payload = hex(payload);
        lines.push(format!("unpacking {payload} as {bits} bits: {answer}"));
    }
}

/// Each word after a space.
fn words(words: &[u16]) -> String {
    words.iter().map(|word| format!(" {word:04X}")).collect()
}

fn unpacking_borders(lines: &mut Vec<String>) {
    let cases = [
        ("0 bytes as 12 bits", 0, 12, 4096),
        ("5120 bytes as 10 bits", 5120, 10, 4096),
        ("5125 bytes as 10 bits", 5125, 10, 4096),
        ("6144 bytes as 12 bits", 6144, 12, 4096),
        ("6147 bytes as 12 bits", 6147, 12, 4096),
        ("6144 bytes as 12 bits into 4095", 6144, 12, 4095),
    ];
    for (name, length, bits, size) in cases {
        let unpacked = pixels::unpack(bits, &vec![0; length], &mut vec![0; size]);
        let answer = shown(unpacked, |count| format!("{count} pixels"));
        lines.push(format!("unpacking {name}: {answer}"));
    }
}

fn frame_numbers(lines: &mut Vec<String>) {
    let hub = hub(&[(0x20, 0x00)]);
    let (registers, mut frames) = (hub.registers, hub.frames);
    let mut text = String::from("frame numbers after reset:");
    for _ in 0..5 {
        let mut buffer = [0; 4];
        let started = frames.start(&registers, 0, 10, &mut buffer, 0);
        let number = u16::from_le_bytes([buffer[1], buffer[2]]);
        let ended = started.and_then(|_| frames.end(&registers, 0, &mut buffer, 0));
        text += &format!(" {}", shown(ended, |_| number.to_string()));
    }
    lines.push(text);
}
