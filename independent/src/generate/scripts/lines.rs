//! Lines as installers type them, all right but for their length where more is asked for; none has
//! its line feed yet.

use crate::generate::rng::Rng;

/// Where blanks may stand: before the word, then after the word, (, value, comma, value and ).
pub const PLACES: usize = 7;

const DIGITS: &[u8] = b"0123456789abcdefABCDEF";

const TYPED: [&[u8]; 8] = [
    b"",
    b" ",
    b" RX0",
    b"Patgen Fixed Colorbar 1280x720p30",
    b"  \"FPD3_PORT_SEL Broadcast RX0/1/2/3\"",
    b" was 0x12 # before\t",
    b" WriteI2C(0x4c,0x0f)",
    b"WriteI2C(0x58,0x58) # twice",
];

fn blank(rng: &mut Rng) -> u8 {
    rng.pick(b" \t")
}

/// A few spaces and tabs, often none.
pub fn blanks(rng: &mut Rng) -> Vec<u8> {
    let count = if rng.one_in(2) { 0 } else { rng.below(5) };
    (0..count).map(|_| blank(rng)).collect()
}

fn value(rng: &mut Rng) -> Vec<u8> {
    let mut text = b"0x".to_vec();
    for _ in 0..rng.between(1, 2) {
        text.push(rng.pick(DIGITS));
    }
    text
}

pub fn call_with(rng: &mut Rng, blanks: &[Vec<u8>; PLACES]) -> Vec<u8> {
    let (offset, value) = (value(rng), value(rng));
    let parts: [&[u8]; PLACES - 1] = [b"WriteI2C", b"(", &offset, b",", &value, b")"];
    let mut line = blanks[0].clone();
    for (part, blanks) in parts.iter().zip(&blanks[1..]) {
        line.extend_from_slice(part);
        line.extend_from_slice(blanks);
    }
    line
}

/// A call as the data sheet prints it, without blanks.
pub fn plain_call(rng: &mut Rng) -> Vec<u8> {
    call_with(rng, &Default::default())
}

/// A call with blanks wherever they may stand.
pub fn spaced_call(rng: &mut Rng) -> Vec<u8> {
    let blanks = [0; PLACES].map(|_| blanks(rng));
    call_with(rng, &blanks)
}

/// A call of so many bytes by its blanks, all at one place or at any.
pub fn stretched_call(rng: &mut Rng, length: usize) -> Vec<u8> {
    const LONGEST: usize = "WriteI2C(0x00,0x00)".len();
    let mut blanks: [Vec<u8>; PLACES] = Default::default();
    let only = rng.one_in(2).then(|| rng.index(PLACES));
    for _ in LONGEST..length {
        let place = only.unwrap_or_else(|| rng.index(PLACES));
        blanks[place].push(blank(rng));
    }
    let mut line = call_with(rng, &blanks);
    while line.len() < length {
        line.push(blank(rng)); // where a value has one digit
    }
    line
}

/// Bytes of every value but that of a line feed.
fn any(rng: &mut Rng, count: usize) -> Vec<u8> {
    let bytes = rng.bytes(count).into_iter();
    let no_line_feed = |byte| if byte == b'\n' { b'\r' } else { byte };
    bytes.map(no_line_feed).collect()
}

pub fn comment(rng: &mut Rng) -> Vec<u8> {
    let mut text = b"#".to_vec();
    match rng.below(4) {
        0 => {
            let count = rng.index(30);
            text.extend(any(rng, count));
        }
        1 => text.extend(rng.pick(&[&b"\r"[..], b"\0", b"\xA0", b" \xC2\xB5s\r", b"##"])),
        _ => text.extend(rng.pick(&TYPED)),
    }
    text
}

/// The line made so long by a comment; the line itself must be shorter.
pub fn commented_to(rng: &mut Rng, mut line: Vec<u8>, length: usize) -> Vec<u8> {
    line.push(b'#');
    let missing = length.saturating_sub(line.len());
    if rng.one_in(2) {
        line.extend(any(rng, missing));
    } else {
        line.resize(line.len() + missing, b'-');
    }
    line
}

/// A right line of exactly so many bytes, from 30 on.
pub fn of_length(rng: &mut Rng, length: usize) -> Vec<u8> {
    match rng.below(4) {
        0 => commented_to(rng, Vec::new(), length),
        1 => (0..length).map(|_| blank(rng)).collect(),
        2 => stretched_call(rng, length),
        _ => {
            let call = plain_call(rng);
            commented_to(rng, call, length)
        }
    }
}

/// Any right line: blank or a call, with a comment or without.
pub fn right(rng: &mut Rng) -> Vec<u8> {
    let mut line = match rng.below(8) {
        0 => Vec::new(),
        1 => blanks(rng),
        2 => return of_length(rng, 200),
        3 | 4 => plain_call(rng),
        _ => spaced_call(rng),
    };
    if rng.one_in(2) {
        line.extend(blanks(rng));
        line.extend(comment(rng));
    }
    line
}
