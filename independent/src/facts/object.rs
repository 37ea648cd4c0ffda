//! The facts as one JSON object on one line, without blanks between its parts; its fields in the
//! order of the text.

use super::answer::Answer;
use super::end_state::{AddressEnd, PortEnd};
use super::findings::finding::{About, Finding};
use std::fmt::Display;

/// The object without a line feed. No text in it has a character that JSON would have escaped.
pub fn object(answer: &Answer) -> String {
    format!(
        "{{\"hub\":{},\"start\":\"{}\",\"writes\":{},\"any_order\":{},\"ports\":{},\"addresses\":{},\
         \"findings\":{}}}",
        hex(answer.hub),
        answer.start.name(),
        answer.writes,
        answer.any_order,
        list(answer.ports.iter().map(port)),
        list(answer.addresses.iter().map(address)),
        list(answer.findings.iter().map(finding)),
    )
}

/// Two digits, capitals, in quotes.
fn hex(byte: u8) -> String {
    format!("\"{byte:02X}\"")
}

fn list(items: impl Iterator<Item = impl Display>) -> String {
    let items: Vec<String> = items.map(|item| item.to_string()).collect();
    format!("[{}]", items.join(","))
}

fn or_null(item: Option<impl Display>) -> String {
    item.map_or("null".into(), |item| item.to_string())
}

fn port(port: &PortEnd) -> String {
    let (output, raw10, raw12) = (or_null(port.output), port.raw10, port.raw12);
    let lines = format!(
        "{{\"forwarding\":{},\"raw10\":{},\"raw12\":{}}}",
        or_null(port.forwarding_line),
        or_null(port.raw10_line),
        or_null(port.raw12_line)
    );
    let port = port.port;
    format!(
        "{{\"port\":{port},\"output\":{output},\"raw10\":{raw10},\"raw12\":{raw12},\"lines\":{lines}}}"
    )
}

fn address(address: &AddressEnd) -> String {
    format!(
        "{{\"address\":{},\"write\":\"{}\",\"read\":\"{}\",\"lines\":{}}}",
        hex(address.address),
        address.write,
        address.read,
        list(address.lines.iter())
    )
}

fn finding(finding: &Finding) -> String {
    let (kind, grade) = (finding.kind.name(), finding.grade.name());
    let (lines, ports) = (list(finding.lines.iter()), list(finding.ports.iter()));
    let about = match finding.about {
        About::Register(offset) => format!(",\"register\":{}", hex(offset)),
        About::Address(address) => format!(",\"address\":{}", hex(address)),
        About::Channel {
            output,
            channel,
            format,
        } => {
            let format = format.name();
            format!(",\"output\":{output},\"channel\":{channel},\"format\":\"{format}\"")
        }
        About::Nothing => String::new(),
    };
    format!(
        "{{\"kind\":\"{kind}\",\"grade\":\"{grade}\",\"lines\":{lines},\"ports\":{ports}{about}}}"
    )
}
