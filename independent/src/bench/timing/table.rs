//! The benchmark's table: one row for each form that the proved one is compared with.

use super::measurement::Measurement;

/// What the wire carries: 800 million bytes a second.
const WIRE: f64 = 800.0;

pub fn heading() -> String {
    row("measure", "beside", "proved", "beside", "ratio")
}

pub fn rows(measurement: &Measurement) -> String {
    let Some((proved, others)) = measurement.forms.split_first() else {
        return String::new();
    };
    let mut text = String::new();
    for (i, other) in others.iter().enumerate() {
        let name = if i == 0 { &measurement.name } else { "" };
        text += &row(
            name,
            other.name,
            &nanoseconds(proved.least),
            &nanoseconds(other.least),
            &format!("{:.2}", other.least / proved.least),
        );
        text.push('\n');
        if let (0, Some(bytes)) = (i, measurement.bytes) {
            text += &throughput(bytes, proved.least, other.least);
        }
    }
    text
}

/// The same as millions of bytes a second, and how often that is what the wire carries.
fn throughput(bytes: usize, proved: f64, other: f64) -> String {
    let rate = |time: f64| bytes as f64 * 1000.0 / time;
    let carried = |time| format!("{:.0} MB/s", rate(time));
    let times = |time| format!("{:.1} x", rate(time) / WIRE);
    let speed = row("", "as throughput", &carried(proved), &carried(other), "");
    let wire = row(
        "",
        "of the wire's 800 MB/s",
        &times(proved),
        &times(other),
        "",
    );
    format!("{}\n{}\n", speed.trim_end(), wire.trim_end())
}

fn nanoseconds(time: f64) -> String {
    match time {
        time if time < 100.0 => format!("{time:.2} ns"),
        time => format!("{time:.0} ns"),
    }
}

pub fn row(measure: &str, beside: &str, proved: &str, other: &str, ratio: &str) -> String {
    format!("{measure:<30} {beside:<36} {proved:>12} {other:>12} {ratio:>7}")
}
