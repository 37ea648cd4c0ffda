//! Lines of another shape: what is wrong with each, as a point of the comparison, and the line.

use super::lines;
use crate::generate::rng::Rng;

const WRONG: &[(&str, &str)] = &[
    ("14 for a carriage return", "WriteI2C(0x4c,0x0f)\r"),
    ("14 for a carriage return", "\r"),
    ("14 for a carriage return", " \r\t"),
    ("14 for a carriage return", "WriteI2C(0x4c,0x0f) \r# RX0"),
    ("14 for a carriage return", "\rWriteI2C(0x4c,0x0f)"),
    ("14 for a carriage return", "WriteI2C(0x4c,\r0x0f)"),
    ("14 for a capital X", "WriteI2C(0X4c,0x0f)"),
    ("14 for a capital X", "WriteI2C(0x4c,0X0f)"),
    ("14 for a capital X", "WriteI2C(0X4,0x0f)"),
    ("14 for a capital X", "WriteI2C(0x4c,0Xf)"),
    ("14 for three digits", "WriteI2C(0x04c,0x0f)"),
    ("14 for three digits", "WriteI2C(0x4c,0x00f)"),
    ("14 for three digits", "WriteI2C(0x000,0x0)"),
    ("14 for three digits", "WriteI2C(0x4c,0x0000000f)"),
    ("14 for no digits", "WriteI2C(0x,0x0f)"),
    ("14 for no digits", "WriteI2C(0x4c,0x)"),
    ("14 for no digits", "WriteI2C(0,0x0f)"),
    ("14 for no digits", "WriteI2C(0x4c,0)"),
    ("14 for no digits", "WriteI2C(0x4c, )"),
    ("14 for no digits", "WriteI2C(,0x0f)"),
    ("14 for no digits", "WriteI2C(,)"),
    ("14 for a value without 0x", "WriteI2C(4c,0x0f)"),
    ("14 for a value without 0x", "WriteI2C(0x4c,0f)"),
    ("14 for a value without 0x", "WriteI2C(x4c,0x0f)"),
    ("14 for a value without 0x", "WriteI2C(0x4c,00f)"),
    ("14 for a value without 0x", "WriteI2C(4Ch,0Fh)"),
    ("14 for a value without 0x", "WriteI2C(1x4c,0x0f)"),
    ("14 for a decimal value", "WriteI2C(76,15)"),
    ("14 for a decimal value", "WriteI2C(0x4c,15)"),
    ("14 for a decimal value", "WriteI2C(76,0x0f)"),
    ("14 for a digit that is none", "WriteI2C(0x4g,0x0f)"),
    ("14 for a digit that is none", "WriteI2C(0x4c,0xG)"),
    ("14 for a digit that is none", "WriteI2C(0x4c,0xO0)"),
    ("14 for a digit that is none", "WriteI2C(0x-1,0x0f)"),
    ("14 for a digit that is none", "WriteI2C(0x4c,0x+f)"),
    ("14 for a digit that is none", "WriteI2C(0x/0,0x0f)"),
    ("14 for a digit that is none", "WriteI2C(0x4c,0x:0)"),
    ("14 for a digit that is none", "WriteI2C(0x4@,0x0f)"),
    ("14 for a digit that is none", "WriteI2C(0x4c,0x0`)"),
    ("14 for a missing bracket", "WriteI2C0x4c,0x0f)"),
    ("14 for a missing bracket", "WriteI2C(0x4c,0x0f"),
    ("14 for a missing bracket", "WriteI2C 0x4c,0x0f"),
    ("14 for a missing bracket", "WriteI2C(0x4c,0x0f # )"),
    ("14 for a bracket too many", "WriteI2C((0x4c,0x0f)"),
    ("14 for a bracket too many", "WriteI2C(0x4c,0x0f))"),
    ("14 for a bracket too many", "WriteI2C((0x4c,0x0f))"),
    ("14 for a bracket too many", "(WriteI2C(0x4c,0x0f))"),
    ("14 for a bracket too many", "WriteI2C()(0x4c,0x0f)"),
    ("14 for a bracket too many", "WriteI2C(0x4c),(0x0f)"),
    ("14 for another bracket", "WriteI2C[0x4c,0x0f]"),
    ("14 for another bracket", "WriteI2C{0x4c,0x0f}"),
    ("14 for another bracket", "WriteI2C)0x4c,0x0f("),
    ("14 for another bracket", "WriteI2C(0x4c,0x0f("),
    ("14 for a missing comma", "WriteI2C(0x4c0x0f)"),
    ("14 for a missing comma", "WriteI2C(0x4c 0x0f)"),
    ("14 for a missing comma", "WriteI2C(0x4c;0x0f)"),
    ("14 for a missing comma", "WriteI2C(0x4c.0x0f)"),
    ("14 for a comma too many", "WriteI2C(0x4c,,0x0f)"),
    ("14 for a comma too many", "WriteI2C(,0x4c,0x0f)"),
    ("14 for a comma too many", "WriteI2C(0x4c,0x0f,)"),
    ("14 for a comma too many", "WriteI2C,(0x4c,0x0f)"),
    ("14 for a comma too many", "WriteI2C(0x4c,0x0f),"),
    ("14 for no value, one or three", "WriteI2C()"),
    ("14 for no value, one or three", "WriteI2C(0x4c)"),
    ("14 for no value, one or three", "WriteI2C(0x4c,0x0f,0x00)"),
    ("14 for two calls", "WriteI2C(0x4c,0x0f)WriteI2C(0x58,0x58)"),
    (
        "14 for two calls",
        "WriteI2C(0x4c,0x0f) WriteI2C(0x58,0x58)",
    ),
    (
        "14 for two calls",
        "WriteI2C(0x4c,0x0f);WriteI2C(0x58,0x58)",
    ),
    ("14 for text after a call", "WriteI2C(0x4c,0x0f);"),
    ("14 for text after a call", "WriteI2C(0x4c,0x0f) RX0"),
    ("14 for text after a call", "WriteI2C(0x4c,0x0f) // RX0"),
    ("14 for text after a call", "WriteI2C(0x4c,0x0f)0"),
    ("14 for text after a call", "WriteI2C(0x4c,0x0f)\\"),
    ("14 for text before a call", "> WriteI2C(0x4c,0x0f)"),
    ("14 for text before a call", "1: WriteI2C(0x4c,0x0f)"),
    ("14 for text before a call", "0x30 WriteI2C(0x4c,0x0f)"),
    ("14 for text before a call", "<|MARK|>WriteI2C(0x4c,0x0f)"),
    ("14 for another word", "ReadI2C(0x4c,0x0f)"),
    ("14 for another word", "WriteI2(0x4c,0x0f)"),
    ("14 for another word", "WriteI2CC(0x4c,0x0f)"),
    ("14 for another word", "WriteIIC(0x4c,0x0f)"),
    ("14 for another word", "Writel2C(0x4c,0x0f)"),
    ("14 for another word", "riteI2C(0x4c,0x0f)"),
    ("14 for another word", "(0x4c,0x0f)"),
    ("14 for the word in another case", "writei2c(0x4c,0x0f)"),
    ("14 for the word in another case", "WRITEI2C(0x4c,0x0f)"),
    ("14 for the word in another case", "WriteI2c(0x4c,0x0f)"),
    ("14 for the word in another case", "writeI2C(0x4c,0x0f)"),
    ("14 for a part of a call", "WriteI2C"),
    ("14 for a part of a call", "WriteI2C("),
    ("14 for a part of a call", "WriteI2C(0x4c,"),
    ("14 for a part of a call", "0x4c,0x0f"),
    ("14 for a part of a call", "x"),
    ("14 for a # inside a call", "WriteI2C(0x4c,#0x0f)"),
    ("14 for a # inside a call", "WriteI2C#(0x4c,0x0f)"),
    ("14 for a # inside a call", "Write#I2C(0x4c,0x0f)"),
    ("14 for a # inside a call", "WriteI2C(0x4c,0x0f#)"),
    ("14 for another mark for a comment", "// RX0"),
    ("14 for another mark for a comment", "; RX0"),
    ("14 for another mark for a comment", "-- RX0"),
    ("14 for another mark for a comment", "/* RX0 */"),
    ("14 for a blank inside the word", "Write I2C(0x4c,0x0f)"),
    ("14 for a blank inside the word", "WriteI2 C(0x4c,0x0f)"),
    ("14 for a blank inside the word", "W\triteI2C(0x4c,0x0f)"),
    ("14 for a blank inside a value", "WriteI2C(0 x4c,0x0f)"),
    ("14 for a blank inside a value", "WriteI2C(0x 4c,0x0f)"),
    ("14 for a blank inside a value", "WriteI2C(0x4 c,0x0f)"),
    ("14 for a blank inside a value", "WriteI2C(0x4c,0\tx0f)"),
    ("14 for a blank inside a value", "WriteI2C(0x4c,0x\t0f)"),
    ("14 for a blank inside a value", "WriteI2C(0x4c,0x0\tf)"),
];

/// What is no blank, though it may look like one.
const NO_BLANKS: &[(&str, &[u8])] = &[
    ("14 for a vertical tab", b"\x0B"),
    ("14 for a form feed", b"\x0C"),
    ("14 for a zero byte", b"\0"),
    ("14 for a non-breaking space", b"\xA0"),
    ("14 for a non-breaking space", b"\xC2\xA0"),
    ("14 for a byte order mark", b"\xEF\xBB\xBF"),
];

/// The places of a call, and the line without one.
const PLACES: usize = lines::PLACES + 1;

/// How many lines there are.
pub const TURNS: usize = WRONG.len() + NO_BLANKS.len() * PLACES;

/// One line after the other by the turn, with what is wrong.
pub fn line(rng: &mut Rng, turn: usize) -> (&'static str, Vec<u8>) {
    let turn = turn % TURNS;
    if let Some((point, line)) = WRONG.get(turn) {
        return (point, line.as_bytes().to_vec());
    }
    let turn = turn - WRONG.len();
    let (point, bytes) = NO_BLANKS[turn / PLACES];
    let mut blanks = [0; lines::PLACES].map(|_| lines::blanks(rng));
    match blanks.get_mut(turn % PLACES) {
        Some(blanks) => blanks.extend_from_slice(bytes),
        None => return (point, bytes.to_vec()),
    }
    (point, lines::call_with(rng, &blanks))
}
