//! Texts at the borders.

use super::WINDOW;
use crate::generate::rng::Rng;
use crate::generate::scripts::{lines, texts};

/// Just under, exactly and just over one window and two.
const LENGTHS: [usize; 6] = [
    WINDOW - 1,
    WINDOW,
    WINDOW + 1,
    2 * WINDOW - 1,
    2 * WINDOW,
    2 * WINDOW + 1,
];

/// A line of so many bytes, of which so many stand before the border.
const ACROSS: [(usize, usize); 8] = [
    (200, 1),
    (200, 100),
    (200, 199),
    (200, 200),
    (201, 1),
    (201, 100),
    (201, 200),
    (201, 201),
];

const SHORTEST_CALL: &[u8] = b"WriteI2C(0x5,0xF)\n";

const ENDS: usize = 4;
const LARGE: usize = 4;

pub const COUNT: usize = LARGE + ACROSS.len() + LENGTHS.len() * ENDS;

pub fn text(rng: &mut Rng, turn: usize) -> Vec<u8> {
    if turn < LARGE {
        return large(rng, turn);
    }
    let turn = turn - LARGE;
    match ACROSS.get(turn) {
        Some(&(length, before)) => across(rng, length, before),
        None => ended(rng, turn - ACROSS.len()),
    }
}

/// Many lines, one line alone, as many calls as there can be, and lines of every kind.
fn large(rng: &mut Rng, turn: usize) -> Vec<u8> {
    match turn {
        0 => [&vec![b'\n'; WINDOW][..], b"x"].concat(),
        1 => vec![b' '; 2 * WINDOW + 2],
        2 => SHORTEST_CALL.repeat(4 * WINDOW / SHORTEST_CALL.len()),
        _ => right(rng, 4 * WINDOW + 1),
    }
}

fn across(rng: &mut Rng, length: usize, before: usize) -> Vec<u8> {
    let mut text = right(rng, WINDOW - before);
    text.extend(lines::of_length(rng, length));
    text.push(b'\n');
    text.extend(right(rng, 300));
    text
}

/// Each length with each end. Where there are two windows, a line ends with the first, so that the
/// second border is where it should be.
fn ended(rng: &mut Rng, turn: usize) -> Vec<u8> {
    let length = LENGTHS[turn / ENDS];
    let last = last(rng, turn % ENDS);
    let rest = length - last.len();
    if rest < WINDOW + 300 {
        return [right(rng, rest), last].concat();
    }
    [right(rng, WINDOW), right(rng, rest - WINDOW), last].concat()
}

/// The last line: right, of another shape, too long, without a line feed.
fn last(rng: &mut Rng, turn: usize) -> Vec<u8> {
    let mut line = match turn {
        0 => lines::spaced_call(rng),
        1 => texts::any_wrong(rng),
        2 => lines::of_length(rng, 201),
        _ => return lines::plain_call(rng),
    };
    line.push(b'\n');
    line
}

/// Right lines of so many bytes in all, from 31 on.
fn right(rng: &mut Rng, length: usize) -> Vec<u8> {
    let mut text = Vec::new();
    loop {
        let line = match length - text.len() {
            401.. => lines::right(rng),
            202..=400 => lines::of_length(rng, 150),
            rest => lines::of_length(rng, rest - 1),
        };
        text.extend(line);
        text.push(b'\n');
        if text.len() >= length {
            return text;
        }
    }
}
