//! Frames: numbers, widths, pixels and types at their borders, the order of refusals, drops.

use independent::model::frames::{next_number, Frames, Outcome};
use independent::model::header;
use independent::model::packet::Written;
use independent::model::refusal::Refusal;
use independent::model::registers::RegisterFile;
use independent::model::start::Start;

/// Frames as the data sheet starts, with every port forwarded to output 0 and a buffer for the longest
/// line.
struct Setup {
    registers: RegisterFile,
    frames: Frames,
    buffer: Vec<u8>,
}

impl Setup {
    fn new() -> Setup {
        let mut setup = Setup {
            registers: RegisterFile::at_start(Start::Sheet),
            frames: Frames::default(),
            buffer: vec![0xEE; 6150],
        };
        setup.registers.write(0x20, 0x00);
        setup.registers.write(0x4C, 0x0F);
        setup
    }

    fn start(&mut self, port: u8, format: u8) -> Result<Outcome, Refusal> {
        let buffer = &mut self.buffer;
        self.frames.start(&self.registers, port, format, buffer, 0)
    }

    fn line(&mut self, port: u8, width: usize, pixel: u16) -> Result<Outcome, Refusal> {
        let pixels = vec![pixel; width];
        let buffer = &mut self.buffer;
        self.frames.line(&self.registers, port, &pixels, buffer, 0)
    }

    fn end(&mut self, port: u8) -> Result<Outcome, Refusal> {
        let buffer = &mut self.buffer;
        self.frames.end(&self.registers, port, buffer, 0)
    }
}

fn sent_header(outcome: Result<Outcome, Refusal>) -> [u8; 4] {
    match outcome {
        Ok(Outcome::Sent { packet, .. }) => packet.header,
        other => panic!("not sent: {other:?}"),
    }
}

#[test]
fn with_largest_number_4_starts_carry_1_2_3_4_1() {
    let mut setup = Setup::new();
    for number in [1, 2, 3, 4, 1] {
        assert_eq!(sent_header(setup.start(2, 10))[..3], [0x80, number, 0]);
        setup.registers.write(0x1E, 9);
        assert_eq!(sent_header(setup.end(2))[..3], [0x81, number, 0]);
        setup.registers.write(0x1E, 4);
    }
}

#[test]
fn numbers_at_their_borders() {
    assert_eq!(next_number(7, 0), 0);
    assert_eq!(next_number(0, 1), 1);
    assert_eq!(next_number(1, 1), 1);
    assert_eq!(next_number(9, 4), 1);
    assert_eq!(next_number(3, 4), 4);
    assert_eq!(next_number(65534, 65535), 65535);
    assert_eq!(next_number(65535, 65535), 1);
}

#[test]
fn widths() {
    for (format, allowed) in [(10, vec![4, 8, 4096]), (12, vec![2, 4, 6, 8, 4094, 4096])] {
        let mut setup = Setup::new();
        setup.start(0, format).unwrap();
        for width in [0, 1, 2, 3, 4, 5, 6, 8, 4094, 4095, 4096, 4097, 65535] {
            let expected = if allowed.contains(&width) {
                None
            } else {
                Some(Refusal::WidthNotAllowed)
            };
            assert_eq!(setup.line(0, width, 0).err(), expected, "{format} {width}");
        }
    }
}

#[test]
fn pixels() {
    for (format, largest) in [(10, 0x3FF), (12, 0xFFF)] {
        let mut setup = Setup::new();
        setup.start(0, format).unwrap();
        assert!(setup.line(0, 4, largest).is_ok());
        let refused = setup.line(0, 4, largest + 1);
        assert_eq!(refused, Err(Refusal::PixelTooLarge));
    }
}

#[test]
fn types() {
    let mut setup = Setup::new();
    setup.start(0, 10).unwrap();
    setup.registers.write(0x70, 0xD0);
    assert_eq!(sent_header(setup.line(0, 4, 0))[..3], [0xD0, 5, 0]);
    setup.registers.write(0x70, 0xCF);
    assert_eq!(setup.line(0, 4, 0), Err(Refusal::TypeIsShort));
    setup.registers.write(0x20, 0x10);
    assert_eq!(setup.line(0, 4, 0), Ok(Outcome::Dropped));
    assert_eq!(setup.line(0, 3, 0), Err(Refusal::WidthNotAllowed));
    assert_eq!(setup.line(0, 4, 0x400), Err(Refusal::PixelTooLarge));
}

#[test]
fn refusals_come_in_their_order_and_change_nothing() {
    let mut setup = Setup::new();
    assert_eq!(setup.start(4, 9), Err(Refusal::PortAboveThree));
    setup.start(1, 12).unwrap();
    let before = (setup.frames.clone(), setup.buffer.clone());
    assert_eq!(setup.start(1, 9), Err(Refusal::FormatUnknown));
    assert_eq!(setup.start(1, 10), Err(Refusal::FrameOutOfTurn));
    assert_eq!(setup.line(5, 0, 0xFFFF), Err(Refusal::PortAboveThree));
    assert_eq!(setup.line(0, 0, 0xFFFF), Err(Refusal::FrameOutOfTurn));
    setup.registers.write(0x71, 0x00);
    assert_eq!(setup.line(1, 3, 0xFFFF), Err(Refusal::WidthNotAllowed));
    assert_eq!(setup.line(1, 4, 0xFFFF), Err(Refusal::PixelTooLarge));
    assert_eq!(setup.line(1, 4, 0xFFF), Err(Refusal::TypeIsShort));
    assert_eq!(setup.end(4), Err(Refusal::PortAboveThree));
    assert_eq!(setup.end(0), Err(Refusal::FrameOutOfTurn));
    assert_eq!((setup.frames, setup.buffer), before);
}

#[test]
fn refusal_8_comes_last_and_changes_nothing() {
    let mut setup = Setup::new();
    let mut small = [0xEE; 10];
    let frames = &mut setup.frames;
    for place in [7, 10, 11, usize::MAX] {
        let refused = frames.start(&setup.registers, 0, 10, &mut small, place);
        assert_eq!(refused, Err(Refusal::BufferTooSmall));
    }
    assert_eq!(*frames, Frames::default());
    frames
        .start(&setup.registers, 0, 10, &mut small, 6)
        .unwrap();
    assert_eq!(small[..6], [0xEE; 6]);
    assert_eq!(small[6..9], [0x00, 0x01, 0x00]);
    let before = small;
    let refused = frames.line(&setup.registers, 0, &[0; 4], &mut small, 0);
    assert_eq!(refused, Err(Refusal::BufferTooSmall));
    let refused = frames.end(&setup.registers, 0, &mut small, 7);
    assert_eq!(refused, Err(Refusal::BufferTooSmall));
    assert!(frames.ports[0].open);
    assert_eq!(small, before);
    setup.registers.write(0x20, 0xF0);
    let dropped = frames.end(&setup.registers, 0, &mut small, 99);
    assert_eq!(dropped, Ok(Outcome::Dropped));
}

#[test]
fn dropped_frames_move_the_state_on() {
    let mut setup = Setup::new();
    setup.registers.write(0x20, 0xF0);
    let before = setup.buffer.clone();
    assert_eq!(setup.start(3, 12), Ok(Outcome::Dropped));
    assert_eq!(setup.line(3, 2, 5), Ok(Outcome::Dropped));
    assert_eq!(setup.end(3), Ok(Outcome::Dropped));
    assert_eq!(setup.buffer, before);
    setup.registers.write(0x20, 0x08);
    let packet = Written {
        header: header::header(0xC0, 2),
        length: 4,
    };
    let sent = Outcome::Sent { output: 1, packet };
    assert_eq!(setup.start(3, 12), Ok(sent));
}
