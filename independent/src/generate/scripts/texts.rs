//! Texts of right lines, and texts with something wrong in them.

use super::{lines, wrong};
use crate::generate::rng::Rng;

/// A line with most of what may vary, for edits at each of its places.
const EDITED: &[u8] = b" WriteI2C\t( 0x4c ,0xF )\t# RX0\n";

/// Lengths of lines that are too long; 456 and 65736 are 200 if only low bytes are looked at.
const TOO_LONG: [usize; 12] = [
    201, 201, 201, 201, 202, 255, 256, 257, 300, 456, 457, 65_736,
];

const PIECES: [&[u8]; 22] = [
    b"WriteI2C",
    b"WriteI2C(",
    b"WriteI2C(0x4c,0x0f)",
    b"(",
    b")",
    b",",
    b"0x",
    b"0x0",
    b"0x4C",
    b"0xff,",
    b" ",
    b" ",
    b"\t",
    b"#",
    b"# RX0\n",
    b"\n",
    b"\n",
    b"\r",
    b"f)",
    b"0",
    b"g",
    b"x",
];

fn right_lines(rng: &mut Rng, count: u64) -> Vec<u8> {
    let mut text = Vec::new();
    for _ in 0..count {
        text.extend(lines::right(rng));
        text.push(b'\n');
    }
    text
}

/// Up to so many right lines.
pub fn right(rng: &mut Rng, most: u64) -> Vec<u8> {
    let count = rng.between(0, most);
    right_lines(rng, count)
}

/// Hundreds of right lines; then in turn nothing, a line of another shape, one that is too long.
pub fn many(rng: &mut Rng, turn: usize) -> Vec<u8> {
    let count = rng.between(260, 600);
    let mut text = right_lines(rng, count);
    match turn % 3 {
        0 => return text,
        1 => text.extend(any_wrong(rng)),
        _ => text.extend(too_long(rng, turn / 3)),
    }
    text.push(b'\n');
    text
}

/// One line, with right lines before it and after it.
fn around(rng: &mut Rng, line: &[u8]) -> Vec<u8> {
    let (before, after) = (right(rng, 6), right(rng, 3));
    [&before, line, b"\n", &after].concat()
}

/// A line of another shape in its turn, with what is wrong; now and then a second one after it.
pub fn wrong(rng: &mut Rng, turn: usize) -> (&'static str, Vec<u8>) {
    let (point, mut line) = wrong::line(rng, turn);
    if rng.one_in(3) {
        line.extend(lines::blanks(rng));
        line.extend(lines::comment(rng));
    }
    let mut text = around(rng, &line);
    if rng.one_in(4) {
        text.extend(any_wrong(rng));
        text.push(b'\n');
    }
    (point, text)
}

/// A line of another shape.
pub fn any_wrong(rng: &mut Rng) -> Vec<u8> {
    let turn = rng.index(wrong::TURNS);
    wrong::line(rng, turn).1
}

/// Too long: right but for that, or of another shape too.
fn too_long(rng: &mut Rng, turn: usize) -> Vec<u8> {
    let length = TOO_LONG[turn / 2 % TOO_LONG.len()];
    if turn.is_multiple_of(2) {
        return lines::of_length(rng, length);
    }
    let mut line = any_wrong(rng);
    if rng.one_in(2) {
        return lines::commented_to(rng, line, length);
    }
    line.resize(length, rng.pick(b" x)"));
    line
}

pub fn long(rng: &mut Rng, turn: usize) -> Vec<u8> {
    let line = too_long(rng, turn);
    around(rng, &line)
}

/// A line of another shape and one that is too long, in both orders.
pub fn order(rng: &mut Rng, turn: usize) -> Vec<u8> {
    let (wrong, long) = (any_wrong(rng), too_long(rng, turn / 2));
    let (first, second) = if turn.is_multiple_of(2) {
        (wrong, long)
    } else {
        (long, wrong)
    };
    [around(rng, &first), around(rng, &second)].concat()
}

/// The last line has no line feed.
pub fn unended(rng: &mut Rng, turn: usize) -> Vec<u8> {
    let last = match turn % 7 {
        0 => lines::plain_call(rng),
        1 => lines::spaced_call(rng),
        2 => lines::comment(rng),
        3 => rng.pick(&[&b" "[..], b"\t", b" \t "]).to_vec(),
        4 => lines::of_length(rng, 200),
        5 => too_long(rng, turn / 7),
        _ => any_wrong(rng),
    };
    [right(rng, 6), last].concat()
}

/// A right text, one line of which was edited.
pub fn edited(rng: &mut Rng, edit: impl Fn(&mut Rng, Vec<u8>) -> Vec<u8>) -> Vec<u8> {
    let (before, after) = (right(rng, 2), right(rng, 2));
    [before, edit(rng, EDITED.to_vec()), after].concat()
}

/// Parts of lines in any order.
pub fn pieces(rng: &mut Rng) -> Vec<u8> {
    let mut text = right(rng, 2);
    for _ in 0..rng.between(1, 24) {
        text.extend(rng.pick(&PIECES));
    }
    text.push(b'\n');
    text
}

pub fn noise(rng: &mut Rng) -> Vec<u8> {
    let count = rng.index(400);
    rng.bytes(count)
}
