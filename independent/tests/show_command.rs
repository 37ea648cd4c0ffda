//! The commands `show` and `check`: what they print, and their exit status.

use std::path::Path;
use std::process::Command;

/// Standard output, whether standard error has something, and the status.
fn call(arguments: &[&str]) -> (String, bool, i32) {
    let root = Path::new(env!("CARGO_MANIFEST_DIR")).join("..");
    let output = Command::new(env!("CARGO_BIN_EXE_independent"))
        .args(arguments)
        .current_dir(root)
        .output()
        .unwrap();
    let text = String::from_utf8(output.stdout).unwrap();
    let status = output.status.code().unwrap();
    (text, !output.stderr.is_empty(), status)
}

/// A stored screen.
fn screen(file: &str) -> String {
    let root = Path::new(env!("CARGO_MANIFEST_DIR")).join("..");
    std::fs::read_to_string(root.join(file)).unwrap()
}

#[test]
fn both_commands_print_the_same_object() {
    let (right, wrong) = ("samples/weighbridge.script", "samples/wrong_page.script");
    let shown = call(&["show", "--json", "3D", right]);
    assert!(
        shown
            .0
            .starts_with("{\"hub\":\"3D\",\"start\":\"board\",\"writes\":21,")
            && shown.0.ends_with("]}\n")
    );
    assert_eq!((shown.1, shown.2), (false, 0));
    assert_eq!(call(&["check", "--json", "3d", right]), shown);
    let shown = call(&["show", "--json", "3D", wrong]);
    assert_eq!((shown.1, shown.2), (false, 0));
    let checked = call(&["check", "--json", "3D", wrong]);
    assert_eq!((&checked.0, checked.1, checked.2), (&shown.0, false, 1));
    let trace = call(&["show", "--json", "samples/wrong_page.trace"]);
    assert!(trace.0.contains("\"lines\":[7,12]"));
    assert_eq!((trace.1, trace.2), (false, 0));
    let checked = call(&["check", "--json", "samples/wrong_page.trace"]);
    assert_eq!((checked.0, checked.1, checked.2), (trace.0, false, 1));
}

#[test]
fn each_command_prints_its_screen() {
    let (right, wrong) = ("samples/weighbridge", "samples/wrong_page");
    for (command, name, status) in [
        ("show", right, 0),
        ("check", right, 0),
        ("show", wrong, 0),
        ("check", wrong, 1),
    ] {
        let printed = call(&[command, "3D", &format!("{name}.script")]);
        let stored = screen(&format!("{name}.{command}.txt"));
        assert_eq!(printed, (stored, false, status), "{command} {name}");
    }
    for (command, status) in [("show", 0), ("check", 1)] {
        let printed = call(&[command, "samples/wrong_page.trace"]);
        let stored = screen(&format!("samples/wrong_page.trace.{command}.txt"));
        assert_eq!(printed, (stored, false, status), "{command}");
    }
}

#[test]
fn a_refusal_is_status_1_of_show_and_2_of_check() {
    let trace = "samples/weighbridge.trace";
    for (command, status) in [("show", 1), ("check", 2)] {
        let refused = call(&[command, "--json", "3D", trace]);
        assert_eq!(refused, ("1 ! 14\n".into(), true, status));
        let refused = call(&[command, "--json", "78", "samples/weighbridge.script"]);
        assert_eq!(refused, ("! 2\n".into(), true, status));
        let refused = call(&[command, "--json", "samples/weighbridge.script"]);
        assert_eq!(refused, ("1 ! 13\n".into(), true, status));
        let refused = call(&[command, "/dev/null"]);
        assert_eq!(refused, ("! 13\n".into(), true, status));
    }
}

#[test]
fn a_wrong_call_is_status_2_and_a_missing_file_1() {
    for arguments in [
        &["show"][..],
        &["show", "--json"],
        &["show", "3", "samples/weighbridge.script"],
        &["show", "3D", "samples/weighbridge.script", "more"],
        &["show", "--sheet", "samples/weighbridge.trace"],
        &["show", "3D", "--sheet", "samples/weighbridge.script"],
    ] {
        assert_eq!(call(arguments), (String::new(), true, 2), "{arguments:?}");
    }
    let missing = call(&["show", "--json", "3D", "samples/none.script"]);
    assert_eq!(missing, (String::new(), true, 1));
}
