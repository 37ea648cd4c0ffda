//! What the tests of the proved packing and of the proved unpacking share.

use independent::compare::proved;
use independent::generate::rng::Rng;
use independent::model::format::Format;
use independent::model::refusal::Refusal;

/// How often each number stood in the top byte of an answer: 0 for none refused.
pub type Seen = [u64; 18];

/// Each of these refusals was seen so often or more, so was none, and no other was seen.
pub fn assert_seen(seen: &Seen, refusals: &[Refusal], least: u64) {
    for refusal in refusals {
        let count = seen[usize::from(refusal.number())];
        assert!(count >= least, "refusal {refusal:?} seen {count} times");
    }
    let known: u64 = refusals
        .iter()
        .map(|refusal| seen[usize::from(refusal.number())])
        .sum();
    assert!(seen[0] >= least, "{} lines not refused", seen[0]);
    assert_eq!(seen.iter().sum::<u64>(), seen[0] + known);
}

pub fn good_pixels(rng: &mut Rng, format: Format, width: usize) -> Vec<u16> {
    (0..width)
        .map(|_| rng.word() & format.largest_pixel())
        .collect()
}

pub fn proved_pack(format: Format, pixels: &[u16], buf: &mut [u8], place: usize) -> u64 {
    match format {
        Format::Raw10 => proved::pack_raw10(pixels, buf, place),
        Format::Raw12 => proved::pack_raw12(pixels, buf, place),
    }
}
