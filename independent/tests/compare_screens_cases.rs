//! The comparison of answers finds a screen that differs in any part.
#![cfg(unix)]

mod answers;
mod common;

use answers::{changed, found};

#[test]
fn each_part_of_the_screens_is_compared() {
    let changes = [
        ("show", "s/^! /  /"),
        ("show", "s/nobody any more/nobody/"),
        (
            "show",
            "s/replaced by \\(line\\|record\\)/replaced by the \\1/",
        ),
        ("show", "s/, perhaps meant//"),
        ("show", "s/^  \\*/ */"),
        ("show", "s/the records may/the lines may/"),
        ("show", "s/standard input/-/"),
        ("show", "s/, as the board starts$//"),
        ("show", "s/as the data sheet starts$/as the sheet starts/"),
        ("check", "s/, as the board starts$//"),
        ("check", "s/as the data sheet starts$/as the board starts/"),
        ("show", "s/ and \\([0-9]*\\) more$//"),
        ("show", "/^      a read /d"),
        ("check", "s/ would\\./ will./"),
        ("check", "s/^and [0-9]* more like these$/and more/"),
        ("check", "s/ too, as / too as /"),
        ("check", "s/has that channel/has this channel/"),
        ("check", "s/; for address .*//"),
        ("check", "s/\\\\x0d$//"),
        ("check", "s/^     \\([0-9]\\)  /    \\1   /"),
        ("check", "/^Shared, perhaps/d"),
        ("check", "$d"),
    ];
    for (place, (word, change)) in changes.into_iter().enumerate() {
        let name = format!("screen-{place}");
        let what = found(&name, &changed(word, &format!("sed '{change}'")));
        assert!(what.starts_with("line "), "{word} {change}: {what}");
    }
}
