//! The proved packing and line writing against the model's: the answer, and every byte of
//! the buffer.
#![cfg(feature = "proved")]

mod lines;

use independent::compare::expected;
use independent::compare::proved;
use independent::generate::rng::Rng;
use independent::model::format::Format;
use independent::model::pixels::payload_length;
use independent::model::refusal::Refusal;
use lines::{assert_seen, good_pixels, proved_pack, Seen};

const FORMATS: [Format; 2] = [Format::Raw10, Format::Raw12];
const WIDTHS: [usize; 22] = [
    0, 1, 2, 3, 4, 5, 6, 7, 8, 10, 12, 20, 62, 64, 101, 640, 1282, 4092, 4094, 4096, 4097, 4100,
];
const RANDOM_CASES: usize = 30_000;

/// A line, the buffer that it is to go to, and the place.
struct Case {
    format: Format,
    pixels: Vec<u16>,
    identifier: u8,
    buffer: Vec<u8>,
    place: usize,
}

impl Case {
    /// Packs and writes the line both ways.
    fn compare(&self, packing: &mut Seen, writing: &mut Seen) {
        let (format, pixels, place) = (self.format, self.pixels.as_slice(), self.place);
        self.compare_one(
            packing,
            |buf| proved_pack(format, pixels, buf, place),
            |buf| expected::pack(format, pixels, buf, place),
        );
        let identifier = self.identifier;
        self.compare_one(
            writing,
            |buf| match format {
                Format::Raw10 => proved::write_raw10_line(pixels, identifier, buf, place),
                Format::Raw12 => proved::write_raw12_line(pixels, identifier, buf, place),
            },
            |buf| expected::write_line(format, pixels, identifier, buf, place),
        );
    }

    fn compare_one(
        &self,
        seen: &mut Seen,
        proved: impl Fn(&mut [u8]) -> u64,
        expected: impl Fn(&mut [u8]) -> u64,
    ) {
        let (mut buffer, mut expected_buffer) = (self.buffer.clone(), self.buffer.clone());
        let (answer, expected) = (proved(&mut buffer), expected(&mut expected_buffer));
        assert_eq!(answer, expected, "{}", self.describe());
        assert!(
            buffer == expected_buffer,
            "another buffer: {}",
            self.describe()
        );
        let number = (answer >> 56) as usize;
        assert!(number == 0 || buffer == self.buffer, "{}", self.describe());
        seen[number] += 1;
    }

    fn describe(&self) -> String {
        format!(
            "{:?}, {} pixels, identifier {:02X}, place {} of {}",
            self.format,
            self.pixels.len(),
            self.identifier,
            self.place,
            self.buffer.len()
        )
    }
}

/// Good pixels, or all of one value at the border, or one that does not fit.
fn pixels(rng: &mut Rng, format: Format, width: usize) -> Vec<u16> {
    let largest = format.largest_pixel();
    let mut pixels = good_pixels(rng, format, width);
    match rng.below(8) {
        0 => pixels.fill(largest),
        1 => pixels.fill(0),
        2 if width > 0 => {
            let wrong = rng.pick(&[largest + 1, largest + 2, 0x8000, 0xFFFF]);
            let inside = rng.index(width);
            pixels[rng.pick(&[0, inside, width - 1])] = wrong;
        }
        _ => {}
    }
    pixels
}

/// A buffer full of other bytes, and a place: with room to spare, just enough, too little, or none.
fn buffer_and_place(rng: &mut Rng, length: usize) -> (Vec<u8>, usize) {
    let place = rng.index(40);
    let end = place + length;
    let size = match rng.below(8) {
        0 => end.saturating_sub(1),
        1 => rng.index(end + 1),
        2..=4 => end,
        _ => end + rng.index(40),
    };
    let buffer = rng.bytes(size);
    match rng.below(12) {
        0 => (buffer, size + 1),
        1 => (buffer, rng.pick(&[usize::MAX, usize::MAX - length, size])),
        2 => (Vec::new(), place),
        _ => (buffer, place),
    }
}

fn random_case(rng: &mut Rng) -> Case {
    let format = rng.pick(&FORMATS);
    let width = match rng.below(10) {
        0 => rng.pick(&WIDTHS),
        1 => rng.index(4200),
        _ => 4 * rng.index(40) + rng.pick(&[0, 0, 0, 0, 2, 1]),
    };
    let packet = payload_length(format, width) + rng.pick(&[0, 6, 6]);
    let (buffer, place) = buffer_and_place(rng, packet);
    Case {
        format,
        pixels: pixels(rng, format, width),
        identifier: rng.byte(),
        buffer,
        place,
    }
}

#[test]
fn random_lines() {
    use Refusal::{BufferTooSmall, PixelTooLarge, TypeIsShort, WidthNotAllowed};
    let mut rng = Rng::new(50);
    let (mut packing, mut writing) = (Seen::default(), Seen::default());
    for _ in 0..RANDOM_CASES {
        random_case(&mut rng).compare(&mut packing, &mut writing);
    }
    let of_packing = [WidthNotAllowed, PixelTooLarge, BufferTooSmall];
    assert_seen(&packing, &of_packing, 1000);
    let of_writing = [WidthNotAllowed, PixelTooLarge, TypeIsShort, BufferTooSmall];
    assert_seen(&writing, &of_writing, 1000);
}

/// Each width in a buffer that is short by one, just right, and one too long.
#[test]
fn every_kind_of_width_at_the_border_of_the_buffer() {
    let mut rng = Rng::new(51);
    let (mut packing, mut writing) = (Seen::default(), Seen::default());
    for format in FORMATS {
        for width in WIDTHS {
            let pixels = good_pixels(&mut rng, format, width);
            let length = payload_length(format, width);
            for size in [length.saturating_sub(1), length, length + 1]
                .into_iter()
                .chain([length + 5, length + 6, length + 7])
            {
                for place in [0, 1, 13] {
                    let case = Case {
                        format,
                        pixels: pixels.clone(),
                        identifier: 0x2B,
                        buffer: rng.bytes(size + place),
                        place,
                    };
                    case.compare(&mut packing, &mut writing);
                }
            }
        }
    }
    let refusals = [Refusal::WidthNotAllowed, Refusal::BufferTooSmall];
    assert_seen(&packing, &refusals, 10);
    assert_seen(&writing, &refusals, 10);
}

#[test]
fn every_identifier() {
    let mut rng = Rng::new(52);
    let (mut packing, mut writing) = (Seen::default(), Seen::default());
    for format in FORMATS {
        for identifier in 0..=255 {
            let case = Case {
                format,
                pixels: good_pixels(&mut rng, format, 8),
                identifier,
                buffer: rng.bytes(30),
                place: 3,
            };
            case.compare(&mut packing, &mut writing);
        }
    }
    assert_eq!(writing[usize::from(Refusal::TypeIsShort.number())], 128);
    assert_eq!((packing[0], writing[0]), (512, 384));
}

/// One pixel that does not fit, at every place of a line.
#[test]
fn every_place_of_a_wrong_pixel() {
    let mut rng = Rng::new(53);
    let (mut packing, mut writing) = (Seen::default(), Seen::default());
    for format in FORMATS {
        for place in 0..100 {
            let mut case = Case {
                format,
                pixels: good_pixels(&mut rng, format, 100),
                identifier: 0x2C,
                buffer: rng.bytes(200),
                place: 0,
            };
            case.pixels[place] = format.largest_pixel() + 1;
            case.compare(&mut packing, &mut writing);
        }
    }
    let number = usize::from(Refusal::PixelTooLarge.number());
    assert_eq!((packing[number], writing[number]), (200, 200));
}
