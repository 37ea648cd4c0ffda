//! How ports, devices, lines and what is shared are called.

use crate::facts::findings::finding::{About, Finding, Pictures};
use crate::model::addresses::{Device, Role};

/// `port 2`, or `ports 0, 1 and 2`.
pub fn ports(ports: &[u8]) -> String {
    let names: Vec<String> = ports.iter().map(u8::to_string).collect();
    match &names[..] {
        [only] => format!("port {only}"),
        [first @ .., last] => format!("ports {} and {last}", first.join(", ")),
        [] => "no port".into(),
    }
}

/// `port 0, camera 30`, "with its address on its own bus".
pub fn device(device: &Device) -> String {
    let role = match device.role {
        Role::Serializer => "serializer",
        Role::Target(_) => "camera",
    };
    format!("port {}, {role} {:02X}", device.port, device.address)
}

/// `3 things`, or `1 thing` with what one is called.
pub fn counted(count: usize, one: &str, several: &str) -> String {
    let noun = if count == 1 { one } else { several };
    format!("{count} {noun}")
}

pub fn capital(word: &str) -> String {
    let (first, rest) = word.split_at(1);
    first.to_uppercase() + rest
}

/// A `same-channel` or a `same-address`.
pub fn clash(finding: &Finding) -> String {
    let ports = ports(&finding.ports);
    match finding.about {
        About::Channel {
            output,
            channel,
            format,
        } => {
            let format = format_name(format);
            format!("{ports} share output {output}, channel {channel} ({format})")
        }
        About::Address(address) => format!("address {address:02X} reaches {ports}"),
        _ => String::new(), // no other kind is a clash
    }
}

pub fn format_name(format: Pictures) -> &'static str {
    match format {
        Pictures::Raw10 => "RAW10",
        Pictures::Raw12 => "RAW12",
    }
}
