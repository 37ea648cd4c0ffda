//! The page of the check byte's table, and the table in the proved source beside its bits' names,
//! held to document 01's lists of data bits.

use independent::model::header::COUNTED;
use std::fs;
use std::path::Path;

fn text(file: &str) -> String {
    let root = Path::new(env!("CARGO_MANIFEST_DIR")).join("..");
    fs::read_to_string(root.join(file)).unwrap()
}

fn page() -> String {
    text("docs/CHECK-BYTES.md")
}

/// The check bits that count a data bit.
fn counting(bit: u8) -> Vec<usize> {
    (0..6).filter(|&k| COUNTED[k].contains(&bit)).collect()
}

fn constant(bit: u8) -> u8 {
    counting(bit).into_iter().map(|k| 1 << k).sum()
}

fn field(bit: u8) -> String {
    match bit {
        0..=5 => format!("data type, bit {bit}"),
        6..=7 => format!("virtual channel, bit {}", bit - 6),
        _ => format!("word count or frame number, bit {}", bit - 8),
    }
}

#[test]
fn the_table_has_a_line_for_each_data_bit() {
    let page = page();
    let lines: Vec<&str> = page
        .lines()
        .filter(|line| line.starts_with("| D"))
        .collect();
    let expected: Vec<String> = (0..24)
        .map(|bit| {
            let names: Vec<String> = counting(bit).iter().map(|k| format!("P{k}")).collect();
            let (field, constant) = (field(bit), constant(bit));
            format!(
                "| D{bit} | {field} | {constant:02X} | {} |",
                names.join(" ")
            )
        })
        .collect();
    assert_eq!(lines, expected);
}

#[test]
fn the_rows_of_eight_are_the_same_constants() {
    let page = page();
    for (place, name) in ["identifier ", "count, low ", "count, high "]
        .iter()
        .enumerate()
    {
        let row = page.lines().find(|line| line.starts_with(name));
        let constants: Vec<&str> = row.unwrap()[name.len()..].split_whitespace().collect();
        let bits = 8 * place as u8..8 * place as u8 + 8;
        let expected: Vec<String> = bits.map(|bit| format!("{:02X}", constant(bit))).collect();
        assert_eq!(constants, expected, "{name}");
    }
}

#[test]
fn the_source_names_the_bit_of_each_constant() {
    let source = text("crates/ecc/src/lib.rt");
    let lines = source.lines().map(str::trim);
    let table: Vec<&str> = lines.filter(|line| line.contains(", // D")).collect();
    let line = |bit| format!("0x{:02X}, // D{bit}", constant(bit));
    assert_eq!(table, (0..24).map(line).collect::<Vec<String>>());
}
