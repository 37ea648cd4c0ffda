//! Lines of 4,096 pixels: packed, unpacked, written as packets, and read.

use super::measurement::Measurement;
use crate::bench::fast::{line, pack, reader, unpack};
use crate::compare::proved;
use crate::generate::rng::Rng;
use crate::model::refusal::Refusal;
use std::hint::black_box;

const WIDTH: usize = 4096;
const RAW10_PAYLOAD: usize = WIDTH / 4 * 5;
const RAW12_PAYLOAD: usize = WIDTH / 2 * 3;
/// A RAW12 line of that width: header, payload, checksum.
const PACKET: usize = 4 + RAW12_PAYLOAD + 2;
/// RAW12 on virtual channel 1.
const DATA_IDENTIFIER: u8 = 0x6C;

type Pack = fn(&[u16], &mut [u8], usize) -> Result<usize, Refusal>;
type Unpack = fn(&[u8], &mut [u16]) -> Result<usize, Refusal>;

pub fn measurements() -> Vec<Measurement> {
    vec![
        packing(10, proved::pack_raw10, pack::raw10_by_pixels, pack::raw10),
        packing(12, proved::pack_raw12, pack::raw12_by_pixels, pack::raw12),
        unpacking(10, RAW10_PAYLOAD, unpack::raw10_by_pixels).form(
            "low pairs from a table",
            from_payload(RAW10_PAYLOAD, unpack::raw10),
        ),
        unpacking(12, RAW12_PAYLOAD, unpack::raw12_by_pixels).form(
            "eight pixels in a vector",
            from_payload(RAW12_PAYLOAD, unpack::raw12),
        ),
        raw12_line(),
        reading(),
    ]
}

fn pixels(bits: u8) -> Vec<u16> {
    let mut rng = Rng::new(966);
    let largest = (1 << bits) - 1;
    (0..WIDTH).map(|_| rng.word() & largest).collect()
}

/// A call that packs or writes pixels into a buffer of its own, which is looked at after it.
fn into_buffer<R>(
    bits: u8,
    call: impl Fn(&[u16], &mut [u8]) -> R + 'static,
) -> impl FnMut() -> R + 'static {
    let pixels = pixels(bits);
    let mut buf = vec![0; PACKET];
    move || {
        let answer = call(black_box(&pixels), &mut buf);
        black_box(&mut buf);
        answer
    }
}

fn packing(
    bits: u8,
    proved: impl Fn(&[u16], &mut [u8], usize) -> u64 + 'static,
    by_pixels: Pack,
    by_words: Pack,
) -> Measurement {
    let fast = |pack: Pack| into_buffer(bits, move |pixels, buf| pack(pixels, buf, 0));
    let proved = into_buffer(bits, move |pixels, buf| proved(pixels, buf, 0));
    Measurement::new(format!("RAW{bits} packing, {WIDTH} pixels"))
        .form("proved", proved)
        .form("pixel by pixel", fast(by_pixels))
        .form("four pixels in a word", fast(by_words))
}

fn unpacking(bits: u8, length: usize, by_pixels: Unpack) -> Measurement {
    let proved = move |payload: &[u8], pixels: &mut [u16]| proved::unpack(bits, payload, pixels);
    Measurement::new(format!("RAW{bits} unpacking, {WIDTH} pixels"))
        .form("proved", from_payload(length, proved))
        .form("pixel by pixel", from_payload(length, by_pixels))
}

/// A call that unpacks so many bytes into pixels of its own, which are looked at after it.
fn from_payload<R>(
    length: usize,
    call: impl Fn(&[u8], &mut [u16]) -> R + 'static,
) -> impl FnMut() -> R + 'static {
    let payload = Rng::new(968).bytes(length);
    let mut pixels = vec![0; WIDTH];
    move || {
        let answer = call(black_box(&payload), &mut pixels);
        black_box(&mut pixels);
        answer
    }
}

fn raw12_line() -> Measurement {
    let fast =
        |pixels: &[u16], buf: &mut [u8]| line::write_raw12_line(pixels, DATA_IDENTIFIER, buf, 0);
    let proved =
        |pixels: &[u16], buf: &mut [u8]| proved::write_raw12_line(pixels, DATA_IDENTIFIER, buf, 0);
    Measurement::new(format!("RAW12 line, {WIDTH} pixels"))
        .with_throughput(PACKET)
        .form("proved", into_buffer(12, proved))
        .form("the fast parts", into_buffer(12, fast))
}

fn reading() -> Measurement {
    let mut packet = vec![0; PACKET];
    let _ = line::write_raw12_line(&pixels(12), DATA_IDENTIFIER, &mut packet, 0);
    let same = packet.clone();
    Measurement::new(format!("reading a packet of {PACKET}"))
        .form("proved", move || proved::read_packet(black_box(&packet)))
        .form("the fast parts", move || {
            reader::read_packet(black_box(&same))
        })
}
