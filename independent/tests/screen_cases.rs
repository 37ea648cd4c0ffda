//! The screens: those that are stored, and parts of a few made by hand.

use independent::model::start::Start;
use independent::model::trace_builder::TraceBuilder;
use independent::screens::{check, show, Subject};
use std::fs;
use std::path::{Path, PathBuf};

fn root() -> PathBuf {
    Path::new(env!("CARGO_MANIFEST_DIR")).join("..")
}

/// The scripts and traces that have stored screens, from the repository on.
fn samples() -> Vec<String> {
    let mut names = Vec::new();
    for folder in ["samples", "samples/datasheet"] {
        for entry in fs::read_dir(root().join(folder)).unwrap() {
            let name = entry.unwrap().file_name().into_string().unwrap();
            if let Some(name) = name.strip_suffix(".show.txt") {
                names.push(format!("{folder}/{name}"));
            }
        }
    }
    names
}

#[test]
fn the_stored_screens_are_printed() {
    let samples = samples();
    assert!(samples.len() >= 14, "{samples:?}");
    for name in samples {
        let stored =
            |command: &str| fs::read(root().join(format!("{name}.{command}.txt"))).unwrap();
        let is_trace = name.ends_with(".trace");
        let file = match is_trace {
            true => name.clone(),
            false => format!("{name}.script"),
        };
        let bytes = fs::read(root().join(&file)).unwrap();
        let subject = match is_trace {
            true => Subject::of_trace(file.as_bytes(), &bytes),
            false => Subject::of_script(file.as_bytes(), 0x3D, Start::Board, &bytes),
        };
        let subject = subject.unwrap_or_else(|refused| panic!("{name}: {refused}"));
        assert!(show(&subject) == stored("show"), "{name}");
        assert!(check(&subject) == stored("check"), "{name}");
    }
}

type Writes<'a> = &'a [(u8, u8)];

/// A script with a line for each write.
fn script(writes: Writes) -> Vec<u8> {
    let line = |(offset, value): &(u8, u8)| format!("WriteI2C(0x{offset:02X},0x{value:02X})\n");
    writes.iter().map(line).collect::<String>().into_bytes()
}

/// The lines of both screens of a script on the hub 3D.
fn screens(text: &[u8]) -> [Vec<String>; 2] {
    let Ok(subject) = Subject::of_script(b"given", 0x3D, Start::Board, text) else {
        panic!("it is refused");
    };
    [show(&subject), check(&subject)].map(lines)
}

fn lines(screen: Vec<u8>) -> Vec<String> {
    let screen = String::from_utf8(screen).unwrap();
    screen.lines().map(String::from).collect()
}

/// The lines from the one that begins so up to the next empty one.
fn part<'a>(screen: &'a [String], start: &str) -> Vec<&'a str> {
    let from = screen.iter().skip_while(|line| !line.starts_with(start));
    from.take_while(|line| !line.is_empty())
        .map(String::as_str)
        .collect()
}

#[test]
fn numbers_are_listed_up_to_forty_and_wrap() {
    let [shown, checked] = screens(&script(&[(0x33, 0x01); 43]));
    let list = [
        "  what it does not follow: lines 1, 2, 3, 4, 5, 6, 7, 8, 9, 10, 11, 12,",
        "    13, 14, 15, 16, 17, 18, 19, 20, 21, 22, 23, 24, 25, 26, 27, 28, 29,",
        "    30, 31, 32, 33, 34, 35, 36, 37, 38, 39, 40 and 3 more",
    ];
    assert_eq!(part(&shown, "  what it"), list);
    assert_eq!(part(&checked, "Notes").len(), 5);
    let mut trace = TraceBuilder::with_hub(0x3D, Start::Sheet);
    trace.burst(0x30, &[1, 2, 3]);
    let trace = trace.into_bytes();
    let Ok(subject) = Subject::of_trace(b"-", &trace) else {
        panic!("it is refused");
    };
    let shown = lines(show(&subject));
    assert_eq!(
        shown[0],
        "standard input on hub 3D, as the data sheet starts"
    );
    assert_eq!(
        part(&shown, "  what it"),
        ["  what it does not follow: records 2"]
    );
}

#[test]
fn a_block_tells_of_each_port_once() {
    let writes = [
        (0x4C, 0x01),
        (0x58, 0x58),
        (0x4C, 0x02),
        (0x58, 0x58),
        (0x71, 0x6C),
        (0x4C, 0x03),
        (0x58, 0x59),
        (0x71, 0x41),
    ];
    let [_, checked] = screens(&script(&writes));
    let expected = [
        "1 Line 6 selects port 0 again, as line 1 did                 [port-twice]",
        "     1  WriteI2C(0x4C,0x01)",
        "     6  WriteI2C(0x4C,0x03)",
        "  On port 0 it replaces register 58: 58 by 59                [replaced]",
        "     2  WriteI2C(0x58,0x58)",
        "     7  WriteI2C(0x58,0x59)",
        "  It selects port 1 again too, as line 3 did                 [port-twice]",
        "     3  WriteI2C(0x4C,0x02)",
        "  On port 1 it replaces register 58: 58 by 59                [replaced]",
        "     4  WriteI2C(0x58,0x58)",
        "     7  WriteI2C(0x58,0x59)",
        "  On port 1 it replaces RAW12 data type 2C by 01             [replaced]",
        "     5  WriteI2C(0x71,0x6C)",
        "     8  WriteI2C(0x71,0x41)",
    ];
    assert_eq!(part(&checked, "1 Line"), expected);
}

#[test]
fn typed_lines_are_shown_without_control_characters() {
    let [_, checked] = screens(b"\t  WriteI2C(0x58,\t0x01)#\x1b[2J\x7f \\ \xC3\xBC\t \r\n");
    let typed = "     1  WriteI2C(0x58, 0x01)#\\x1b[2J\\x7f \\ \u{fc}  \\x0d";
    assert_eq!(part(&checked, "1 Line")[1], typed);
    let [_, checked] = screens(b"WriteI2C(0x58,0x01) #\0 \tx\n");
    let typed = "     1  WriteI2C(0x58,0x01) #\\x00  x";
    assert_eq!(
        part(&checked, "1 Line")[1],
        typed,
        "blanks at the start alone go"
    );
    let Ok(subject) = Subject::of_script(b"a\tb\xC2\x9B", 0x3D, Start::Sheet, b"") else {
        panic!("it is refused");
    };
    let start = b"a b\xC2\\x9b on hub 3D, as the data sheet starts\nno register write: ";
    assert!(show(&subject).starts_with(start));
}

#[test]
fn only_so_many_things_and_odd_aliases_are_told() {
    let [_, checked] = screens(&script(&[(0x58, 0x01); 23]));
    let last = checked.iter().rposition(|line| line.starts_with("20 "));
    assert_eq!(checked[last.unwrap() + 3..], ["and 3 more like these"]);
    let mut odd = vec![(0x4C, 0x01), (0x5C, 0x7F), (0x65, 0x81)];
    odd.extend([(0x66, 0x03); 9]);
    let [_, checked] = screens(&script(&odd));
    let notes = part(&checked, "  11 aliases");
    assert_eq!(
        notes[1],
        "    line 2: 0x7F means address 3F; for address 7F write 0xFE"
    );
    assert_eq!(notes[2], "    line 3: 0x81 means address 40");
    assert_eq!(notes[11], "    and 1 more");
}
