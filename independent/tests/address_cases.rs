//! Who hears an address: the broadcast script and the choices between hub, serializer, targets.

use independent::model::addresses::{Device, Direction, Heard, Role};
use independent::model::hub::{route, Hub, Route};
use independent::model::refusal::Refusal;
use independent::model::start::{Start, STARTS};

fn hub(writes: &[(u8, u8)]) -> Hub {
    let mut hub = Hub::new(0x3D, Start::Sheet).unwrap();
    for &(offset, value) in writes {
        hub.registers.write(offset, value);
    }
    hub
}

const BROADCAST: [(u8, u8); 5] = [
    (0x4C, 0x0F),
    (0x58, 0x58),
    (0x5C, 0x18),
    (0x5D, 0x60),
    (0x65, 0x60),
];

fn target(port: u8, number: u8, address: u8) -> Option<Device> {
    Some(Device {
        port,
        role: Role::Target(number),
        address,
    })
}

fn serializer(port: u8, address: u8) -> Option<Device> {
    Some(Device {
        port,
        role: Role::Serializer,
        address,
    })
}

#[test]
fn the_broadcast_script_reaches_all_four_and_port_0_answers() {
    let hub = hub(&BROADCAST);
    let all = [0, 1, 2, 3].map(|port| target(port, 0, 0x30));
    let write = hub.who_hears(0x30, Direction::Write);
    assert_eq!(write, Ok(Heard::Devices(all)));
    let read = hub.who_hears(0x30, Direction::Read);
    let answer = [target(0, 0, 0x30), None, None, None];
    assert_eq!(read, Ok(Heard::Devices(answer)));
}

#[test]
fn with_ports_0_and_1_alone_and_read_port_2_the_read_is_unclear() {
    let mut writes = BROADCAST;
    writes[0] = (0x4C, 0x23);
    let read = hub(&writes).who_hears(0x30, Direction::Read);
    assert_eq!(read, Err(Refusal::UnclearRead));
}

#[test]
fn the_only_match_answers_whatever_the_read_port() {
    let mut writes = BROADCAST;
    writes[0] = (0x4C, 0x32);
    let read = hub(&writes).who_hears(0x0C, Direction::Read);
    let answer = [None, serializer(1, 0x00), None, None];
    assert_eq!(read, Ok(Heard::Devices(answer)));
}

#[test]
fn the_hub_comes_first_then_the_serializer_then_the_lowest_target() {
    let aliases = [(0x4C, 0x01), (0x58, 0x58), (0x67, 0x7B), (0x69, 0x7A)];
    let mut hub = hub(&aliases);
    assert_eq!(hub.who_hears(0x3D, Direction::Read), Ok(Heard::Hub));
    hub.address = 0x08;
    let write = hub.who_hears(0x3D, Direction::Write);
    assert_eq!(
        write,
        Ok(Heard::Devices([target(0, 2, 0), None, None, None]))
    );
    hub.registers.burst(0x5B, &[0xB1, 0x7A]);
    let write = hub.who_hears(0x3D, Direction::Write);
    let answer = [serializer(0, 0x58), None, None, None];
    assert_eq!(write, Ok(Heard::Devices(answer)));
}

#[test]
fn pass_through_off_and_zero_aliases_find_nobody() {
    let mut hub = hub(&BROADCAST);
    hub.registers.write(0x58, 0xBF);
    assert_eq!(hub.who_hears(0x30, Direction::Write), Ok(Heard::Nobody));
    hub.registers.write(0x58, 0x40);
    hub.registers.burst(0x65, &[0x00, 0x01]);
    hub.registers.write(0x5C, 0x01);
    assert_eq!(hub.who_hears(0x00, Direction::Write), Ok(Heard::Nobody));
    assert_eq!(hub.who_hears(0x00, Direction::Read), Ok(Heard::Nobody));
}

#[test]
fn addresses_have_their_ranges() {
    for address in 0..=255u8 {
        let allowed = (0x08..=0x77).contains(&address);
        for start in STARTS {
            assert_eq!(Hub::new(address, start).is_ok(), allowed);
        }
        let answer = hub(&[]).who_hears(address, Direction::Write);
        let refused = answer == Err(Refusal::AddressOutOfRange);
        assert_eq!(refused, address > 0x7F);
    }
}

#[test]
fn routes_follow_fwd_ctl1_and_the_identifiers() {
    let hub = hub(&[(0x20, 0xD2), (0x4C, 0x02), (0x71, 0x80)]);
    assert_eq!(route(&hub.registers, 0), Route::Off);
    let expected = Route::Output {
        output: 1,
        raw10_channel: 1,
        raw12_channel: 2,
    };
    assert_eq!(route(&hub.registers, 1), expected);
}
