//! Laws that hold of every script and trace, tried on generated ones.

mod facts;

use independent::compare::json::is_json;
use independent::facts::answer::Answer;
use independent::facts::findings::finding::About;
use independent::facts::given::{of_script, of_trace, Given, Write};
use independent::facts::object::object;
use independent::facts::order::{any_order, blocks, breaks};
use independent::facts::run::{run, Run};
use independent::generate::answers::{numbered, Job, Kind};
use independent::generate::rng::Rng;
use independent::model::registers::{register, reset_value, RegisterFile};
use independent::model::start::Start;

const FPD3_PORT_SEL: u8 = 0x4C;

/// What is taken among the first cases of a seed, the very long ones left out.
fn cases(count: u64) -> impl Iterator<Item = Given> {
    let case = |number| {
        let case = numbered(20, number);
        match case.job {
            _ if matches!(case.kind, Kind::Read | Kind::Played) => None,
            Job::Script {
                address,
                start,
                text,
            } => of_script(address, start, &text).ok(),
            Job::Trace { trace } => of_trace(&trace).ok(),
        }
    };
    (0..count).filter_map(case)
}

/// By the sentence: the last write to the offset that found the port ticked. The selection then in
/// force is the last before it.
fn last_that_reached(writes: &[Write], port: u8, offset: u8) -> Option<&Write> {
    let selected = |place: usize| {
        let selection = writes[..place]
            .iter()
            .rfind(|it| it.offset == FPD3_PORT_SEL);
        selection.is_some_and(|it| it.value >> port & 1 == 1)
    };
    let place = writes.len();
    let mut places = (0..place).rev();
    let found = places.find(|&place| writes[place].offset == offset && selected(place))?;
    Some(&writes[found])
}

/// The board's start differs from the data sheet's in 1E alone, where it has 00.
fn shared_start(start: Start, offset: u8) -> u8 {
    match (start, offset) {
        (Start::Board, 0x1E) => 0x00,
        _ => register(offset).reset,
    }
}

#[test]
fn an_origin_explains_the_value_of_its_register() {
    for given in cases(600) {
        let Run { hub, origins, .. } = run(&given).unwrap();
        for offset in 0..=255u8 {
            let row = register(offset);
            let explained = |start: u8, origin: Option<&Write>| match origin {
                Some(write) => start & !row.mask | write.value & row.mask,
                None => start,
            };
            if !row.per_port {
                let mut reached = given.writes.iter().rev().filter(|_| row.mask != 0);
                let origin = reached.find(|it| it.offset == offset);
                let number = origins.shared(offset).map(|it| it.number);
                assert_eq!(number, origin.map(|it| it.number));
                let start = shared_start(given.start, offset);
                assert_eq!(hub.registers.shared(offset), explained(start, origin));
                continue;
            }
            for port in 0..4u8 {
                let origin = last_that_reached(&given.writes, port, offset);
                let number = origins.on_port(port, offset).map(|it| it.number);
                assert_eq!(number, origin.map(|it| it.number));
                let start = reset_value(offset, usize::from(port));
                let value = hub.registers.on_port(usize::from(port), offset);
                assert_eq!(value, explained(start, origin));
            }
        }
    }
}

/// The pages and the shared registers but 0x4C, which is what the last block left.
fn end(writes: &[Write]) -> (Vec<u8>, Vec<u8>) {
    let mut registers = RegisterFile::after_reset();
    for write in writes {
        registers.write(write.offset, write.value);
    }
    let shared = (0..=255).filter(|&offset| offset != FPD3_PORT_SEL);
    let shared = shared.map(|offset| registers.shared(offset)).collect();
    let ports = (0..4).flat_map(|port| (0..=255).map(move |offset| (port, offset)));
    let pages = ports.map(|(port, offset)| registers.on_port(port, offset));
    (shared, pages.collect())
}

#[test]
fn blocks_that_may_be_run_in_any_order_end_alike() {
    let mut rng = Rng::new(20);
    let (mut right, mut moved) = (0, 0);
    for given in cases(1500).filter(|given| any_order(&given.writes)) {
        let is_shared = |it: &&Write| !register(it.offset).per_port && it.offset != FPD3_PORT_SEL;
        let first = given.writes.iter().take_while(is_shared).count();
        let last = given.writes.iter().rev().take_while(is_shared).count();
        if first + last > given.writes.len() {
            continue;
        }
        let middle = &given.writes[first..given.writes.len() - last];
        let mut order = blocks(middle);
        right += 1;
        moved += usize::from(order.len() > 1);
        for _ in 0..4 {
            rng.shuffle(&mut order);
            let mut writes = given.writes[..first].to_vec();
            writes.extend(order.iter().flatten());
            writes.extend(&given.writes[given.writes.len() - last..]);
            assert_eq!(end(&writes), end(&given.writes));
        }
    }
    assert!(right > 200 && moved > 150, "{right} {moved}");
}

#[test]
fn the_shape_and_the_breaking_writes_decide_alike() {
    for given in cases(1500) {
        let writes = &given.writes;
        assert_eq!(any_order(writes), breaks(writes).is_empty());
    }
}

#[test]
fn findings_stand_in_their_order_each_once_and_lists_rise() {
    for given in cases(600) {
        let answer = Answer::of(&given).unwrap();
        for pair in answer.findings.windows(2) {
            let (one, other) = (&pair[0], &pair[1]);
            assert!(one.kind <= other.kind && one != other, "{pair:?}");
            if one.kind == other.kind && matches!(one.about, About::Register(_)) {
                assert!(one.lines.last() <= other.lines.last(), "{pair:?}");
            }
        }
        let rises = |list: &[u64]| list.windows(2).all(|pair| pair[0] < pair[1]);
        for finding in &answer.findings {
            let ports: Vec<u64> = finding.ports.iter().map(|&port| port.into()).collect();
            assert!(rises(&finding.lines) && rises(&ports), "{finding:?}");
            assert!(!finding.lines.is_empty(), "{finding:?}");
        }
        assert!(answer.addresses.iter().all(|it| rises(&it.lines)));
        let text = object(&answer);
        assert!(is_json(text.as_bytes()) && !text.contains('\n'), "{text}");
    }
}

#[test]
fn a_trace_answers_as_its_bytes_written_one_by_one() {
    for given in cases(600) {
        let mut single = given.clone();
        for (number, write) in (1..).zip(&mut single.writes) {
            write.number = number;
        }
        let (one, other) = (Answer::of(&given).unwrap(), Answer::of(&single).unwrap());
        assert_eq!(one.findings.len(), other.findings.len());
        let reached = |answer: &Answer| {
            let addresses = answer.addresses.iter();
            let heard = addresses.map(|it| (it.address, it.write.clone(), it.read.clone()));
            heard.collect::<Vec<_>>()
        };
        assert_eq!(reached(&one), reached(&other));
        assert_eq!(one.any_order, other.any_order);
    }
}
