//! Document 01's whole case, which names the data sheet's start since L5: the bytes typed out here, the
//! lines exactly as it prints them. The model is compiled here by itself, so it needs nothing else of this package.

#[allow(dead_code)]
#[path = "../src/model/mod.rs"]
mod model;

use independent::generate::samples::whole_case;
use model::player::{text_of, Totals, Unwatched};

const TRACE: &[u8] = &[
    0x9A, 0x64, 0x00, 2, 0x3D, 0x00, //
    0x9A, 0x64, 0x01, 2, 0x4C, 0x12, //
    0x9A, 0x64, 0x01, 2, 0x58, 0x58, //
    0x9A, 0x64, 0x01, 2, 0x5D, 0x60, //
    0x9A, 0x64, 0x01, 2, 0x65, 0x62, //
    0x9A, 0x64, 0x01, 2, 0x70, 0x6B, //
    0x9A, 0x64, 0x03, 2, 0x31, 0x00, //
    0x9A, 0x64, 0x01, 2, 0x20, 0xD0, //
    0x9A, 0x64, 0x10, 2, 0x01, 0x0A, //
    0x9A, 0x64, 0x12, 5, 0x01, 0x04, 0x00, 0x00, 0x00, //
    0x9A, 0x64, 0x11, 1, 0x01, //
    0x9A, 0x64, 0x10, 2, 0x04, 0x0A, //
    0x9A, 0x64, 0x02, 1, 0x4C,
];

const PRINTED: &str = "\
1 H 3D
2 W 4C 1
3 W 58 1
4 W 5D 1
5 W 65 1
6 W 70 1
7 A 31 w 1:30
8 W 20 1
9 S 1 0 4001000C
10 L 1 0 6B050038
11 E 1 0 4101000B
12 ! 1
13 R 4C 12
records 13 refused 1
";

#[test]
fn prints_as_document_01() {
    let (text, totals) = text_of(TRACE, &mut Unwatched);
    assert_eq!(String::from_utf8_lossy(&text), PRINTED);
    assert_eq!(
        totals,
        Totals {
            records: 13,
            refused: 1,
            ended: false,
        }
    );
}

#[test]
fn the_generator_knows_the_same_case() {
    assert_eq!(whole_case(), TRACE);
}
