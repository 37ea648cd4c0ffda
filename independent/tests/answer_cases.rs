//! Whole answers: the samples, the data sheet's scripts, and who hears an address.

mod facts;

use facts::of_kind;
use independent::compare::json::is_json;
use independent::facts::answer::Answer;
use independent::facts::object::object;
use independent::generate::samples::SCRIPTS;
use independent::model::start::{Start, STARTS};
use std::fs;
use std::path::Path;

fn sample(name: &str) -> Vec<u8> {
    let folder = Path::new(env!("CARGO_MANIFEST_DIR")).join("../samples");
    fs::read(folder.join(name)).unwrap()
}

fn of_sample(name: &str) -> Answer {
    Answer::of_script(0x3D, Start::Board, &sample(name)).unwrap()
}

/// Address, who hears a write, who answers a read, lines.
fn addresses(answer: &Answer) -> Vec<String> {
    let shown = |it: &independent::facts::end_state::AddressEnd| {
        format!("{:02X} {} {} {:?}", it.address, it.write, it.read, it.lines)
    };
    answer.addresses.iter().map(shown).collect()
}

#[test]
fn the_right_weighbridge_has_nothing_but_two_repeated_start_values() {
    let answer = of_sample("weighbridge.script");
    let expected = concat!(
        r#"{"hub":"3D","start":"board","writes":21,"any_order":true,"ports":["#,
        r#"{"port":0,"output":0,"raw10":0,"raw12":0,"lines":{"forwarding":33,"raw10":9,"raw12":null}},"#,
        r#"{"port":1,"output":0,"raw10":1,"raw12":1,"lines":{"forwarding":33,"raw10":16,"raw12":null}},"#,
        r#"{"port":2,"output":1,"raw10":0,"raw12":2,"lines":{"forwarding":33,"raw10":23,"raw12":null}},"#,
        r#"{"port":3,"output":1,"raw10":1,"raw12":3,"lines":{"forwarding":33,"raw10":30,"raw12":null}}],"#,
        r#""addresses":[{"address":"31","write":"0:30","read":"0:30","lines":[6,7,8]},"#,
        r#"{"address":"32","write":"1:30","read":"1:30","lines":[13,14,15]},"#,
        r#"{"address":"33","write":"2:30","read":"2:30","lines":[20,21,22]},"#,
        r#"{"address":"34","write":"3:30","read":"3:30","lines":[27,28,29]},"#,
        r#"{"address":"3D","write":"hub","read":"hub","lines":[]}],"findings":["#,
        r#"{"kind":"no-change","grade":"note","lines":[9],"ports":[0],"register":"70"},"#,
        r#"{"kind":"no-change","grade":"note","lines":[16],"ports":[1],"register":"70"}]}"#,
    );
    assert_eq!(object(&answer), expected);
    assert!(!answer.is_wrong());
}

#[test]
fn the_wrong_page_names_the_two_lines_that_select_port_1() {
    let answer = of_sample("wrong_page.script");
    assert!(answer.is_wrong() && !answer.any_order);
    assert_eq!(of_kind(&answer, "port-twice"), ["note 12,19 p1 4C"]);
    let replaced = ["wrong 15,22 p1 65", "wrong 16,23 p1 70"];
    assert_eq!(of_kind(&answer, "replaced"), replaced);
    assert_eq!(
        of_kind(&answer, "same-channel"),
        ["wrong 9,23 p01 0/0 raw10"]
    );
    assert_eq!(of_kind(&answer, "not-set-up"), ["wrong 33 p2"]);
    assert_eq!(of_kind(&answer, "no-address"), ["note 33 p2"]);
    assert_eq!(answer.findings.len(), 11);
    let expected = [
        "31 0:30 0:30 [6, 7, 8]",
        "33 1:30 1:30 [20, 21, 22]",
        "34 3:30 3:30 [27, 28, 29]",
        "3D hub hub []",
    ];
    assert_eq!(addresses(&answer), expected);
}

#[test]
fn the_wrong_page_differs_from_the_right_script_in_one_call() {
    let calls = |name| {
        let text = String::from_utf8(sample(name)).unwrap();
        let code = |line: &str| line.split('#').next().unwrap().trim().to_string();
        text.lines().map(code).collect::<Vec<String>>()
    };
    let (right, wrong) = (calls("weighbridge.script"), calls("wrong_page.script"));
    assert_eq!(right.len(), wrong.len());
    let differ = (1..)
        .zip(right.iter().zip(&wrong))
        .filter(|(_, (a, b))| a != b);
    let expected = (
        19,
        (
            &"WriteI2C ( 0x4C , 0x24 )".into(),
            &"WriteI2C ( 0x4C , 0x12 )".into(),
        ),
    );
    assert_eq!(differ.collect::<Vec<_>>(), [expected]);
}

#[test]
fn traces_of_the_samples_answer_with_their_records() {
    let answer = Answer::of_trace(&sample("wrong_page.trace")).unwrap();
    assert_eq!(answer.writes, 21);
    assert_eq!(of_kind(&answer, "port-twice"), ["note 7,12 p1 4C"]);
    assert_eq!(answer.findings.len(), 11);
    let answer = Answer::of_trace(&sample("whole_case.trace")).unwrap();
    let expected = ["31 1:30 1:30 [3, 4, 5]", "3D hub hub []"];
    assert_eq!(addresses(&answer), expected);
    assert_eq!(answer.ports[1].forwarding_line, Some(8));
}

#[test]
fn none_of_the_data_sheets_scripts_is_called_wrong() {
    for (name, text) in SCRIPTS {
        for hub in 0x08..=0x77 {
            let start = STARTS[usize::from(hub % 2)];
            let answer = Answer::of_script(hub, start, text).unwrap();
            assert!(
                !answer.is_wrong(),
                "{name} on {hub:02X}: {}",
                object(&answer)
            );
            assert!(answer.any_order, "{name}");
            assert!(is_json(object(&answer).as_bytes()), "{name}");
        }
    }
}

#[test]
fn the_data_sheets_broadcast_and_merged_lines_are_meant() {
    let of = |name| of_sample(&format!("datasheet/{name}.script"));
    let broadcast = ["meant 5 p0123 @0C", "meant 7 p0123 @30"];
    assert_eq!(of_kind(&of("broadcast_write"), "same-address"), broadcast);
    for name in [
        "forwarding_line_interleaved",
        "forwarding_line_concatenated",
    ] {
        let expected = ["meant 3,6,9,12 p0123 0/0 raw10"];
        assert_eq!(of_kind(&of(name), "same-channel"), expected, "{name}");
    }
    let synchronized = of("forwarding_synchronized");
    assert_eq!(of_kind(&synchronized, "same-channel"), facts::NONE);
}

#[test]
fn who_answers_a_read_is_printed_as_the_player_does() {
    let broadcast = |selection| {
        facts::answer(&[
            (0x4C, selection),
            (0x58, 0x58),
            (0x5C, 0x18),
            (0x5D, 0x60),
            (0x65, 0x60),
        ])
    };
    let expected = [
        "0C 0:s00 1:s00 ! 9 [2, 3]",
        "30 0:30 1:30 ! 9 [2, 4, 5]",
        "3D hub hub []",
    ];
    assert_eq!(addresses(&broadcast(0x23)), expected);
    let expected = [
        "0C 0:s00 1:s00 1:s00 [2, 3]",
        "30 0:30 1:30 1:30 [2, 4, 5]",
        "3D hub hub []",
    ];
    assert_eq!(addresses(&broadcast(0x13)), expected);
    let expected = [
        "0C 2:s00 2:s00 [2, 3]",
        "30 2:30 2:30 [2, 4, 5]",
        "3D hub hub []",
    ];
    assert_eq!(addresses(&broadcast(0x34)), expected);
}

#[test]
fn the_hubs_own_address_hides_the_aliases_that_equal_it() {
    let text = b"WriteI2C(0x4c,0x0f)\nWriteI2C(0x58,0x58)\nWriteI2C(0x65,0x60)\n";
    let answer = Answer::of_script(0x30, Start::Board, text).unwrap();
    assert_eq!(addresses(&answer), ["30 hub hub []"]);
    assert_eq!(of_kind(&answer, "same-address"), facts::NONE);
}
