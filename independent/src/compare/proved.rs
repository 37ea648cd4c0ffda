//! The proved functions, from the static library `exports`. A slice is passed as two arguments,
//! the pointer to its first element and the number of its elements.

#![allow(unsafe_code)]

// SAFETY: the names and the C types are those of the functions that the crate `exports` marks
// `#[unsafe(no_mangle)] pub extern "C"`. The two marked safe take and give numbers alone.
unsafe extern "C" {
    safe fn loopcinder_check_byte(word: u32) -> u8;
    safe fn loopcinder_correct_header(header: u32) -> u64;
    fn loopcinder_checksum(payload: *const u8, length: usize) -> u16;
    fn loopcinder_feed(crc: u16, bytes: *const u8, length: usize) -> u16;
    fn loopcinder_pack_raw10(
        pixels: *const u16,
        width: usize,
        buf: *mut u8,
        size: usize,
        place: usize,
    ) -> u64;
    fn loopcinder_pack_raw12(
        pixels: *const u16,
        width: usize,
        buf: *mut u8,
        size: usize,
        place: usize,
    ) -> u64;
    fn loopcinder_unpack(
        bits: u8,
        payload: *const u8,
        length: usize,
        pixels: *mut u16,
        size: usize,
    ) -> u64;
    fn loopcinder_write_raw10_line(
        pixels: *const u16,
        width: usize,
        identifier: u8,
        buf: *mut u8,
        size: usize,
        place: usize,
    ) -> u64;
    fn loopcinder_write_raw12_line(
        pixels: *const u16,
        width: usize,
        identifier: u8,
        buf: *mut u8,
        size: usize,
        place: usize,
    ) -> u64;
    fn loopcinder_read_packet(bytes: *const u8, length: usize) -> u64;
    fn loopcinder_payload_length(bytes: *const u8, length: usize) -> usize;
}

/// The check byte (ECC) of a header whose first three bytes are the low 24 bits.
#[inline]
pub fn check_byte(word: u32) -> u8 {
    loopcinder_check_byte(word)
}

/// What a header is read as, its four bytes as one number, the data identifier lowest.
#[inline]
pub fn correct_header(header: u32) -> u64 {
    loopcinder_correct_header(header)
}

/// The checksum (CRC) of a payload.
#[inline]
pub fn checksum(payload: &[u8]) -> u16 {
    // SAFETY: the pointer and the length are those of a slice that is lent for the call, and the
    // function only reads the slice.
    unsafe { loopcinder_checksum(payload.as_ptr(), payload.len()) }
}

/// The running checksum after the next bytes.
#[inline]
pub fn feed(crc: u16, bytes: &[u8]) -> u16 {
    // SAFETY: as for `checksum`.
    unsafe { loopcinder_feed(crc, bytes.as_ptr(), bytes.len()) }
}

/// Packs a line's pixels as RAW10 from the place; the bytes packed, or a refusal.
#[inline]
pub fn pack_raw10(pixels: &[u16], buf: &mut [u8], place: usize) -> u64 {
    let (from, width) = (pixels.as_ptr(), pixels.len());
    // SAFETY: the pointers and the lengths are those of two slices that are lent for the call;
    // the function reads the first, and reads and writes the second, which no one else has.
    unsafe { loopcinder_pack_raw10(from, width, buf.as_mut_ptr(), buf.len(), place) }
}

/// Packs a line's pixels as RAW12 from the place; the bytes packed, or a refusal.
#[inline]
pub fn pack_raw12(pixels: &[u16], buf: &mut [u8], place: usize) -> u64 {
    let (from, width) = (pixels.as_ptr(), pixels.len());
    // SAFETY: as for `pack_raw10`.
    unsafe { loopcinder_pack_raw12(from, width, buf.as_mut_ptr(), buf.len(), place) }
}

/// Unpacks a payload of pixels of so many bits; the pixels put at the start of the slice, or a
/// refusal.
#[inline]
pub fn unpack(bits: u8, payload: &[u8], pixels: &mut [u16]) -> u64 {
    let (from, length) = (payload.as_ptr(), payload.len());
    // SAFETY: as for `pack_raw10`.
    unsafe { loopcinder_unpack(bits, from, length, pixels.as_mut_ptr(), pixels.len()) }
}

/// Writes a RAW10 line as a packet from the place; the bytes written, or a refusal.
#[inline]
pub fn write_raw10_line(pixels: &[u16], identifier: u8, buf: &mut [u8], place: usize) -> u64 {
    let (from, width) = (pixels.as_ptr(), pixels.len());
    let (to, size) = (buf.as_mut_ptr(), buf.len());
    // SAFETY: as for `pack_raw10`.
    unsafe { loopcinder_write_raw10_line(from, width, identifier, to, size, place) }
}

/// Writes a RAW12 line as a packet from the place; the bytes written, or a refusal.
#[inline]
pub fn write_raw12_line(pixels: &[u16], identifier: u8, buf: &mut [u8], place: usize) -> u64 {
    let (from, width) = (pixels.as_ptr(), pixels.len());
    let (to, size) = (buf.as_mut_ptr(), buf.len());
    // SAFETY: as for `pack_raw10`.
    unsafe { loopcinder_write_raw12_line(from, width, identifier, to, size, place) }
}

/// The packet at the start of the bytes: data identifier, word count, corrected bit; or a refusal.
#[inline]
pub fn read_packet(bytes: &[u8]) -> u64 {
    // SAFETY: as for `checksum`.
    unsafe { loopcinder_read_packet(bytes.as_ptr(), bytes.len()) }
}

/// The length of that packet's payload; 0 on refusal.
#[inline]
pub fn payload_length(bytes: &[u8]) -> usize {
    // SAFETY: as for `checksum`.
    unsafe { loopcinder_payload_length(bytes.as_ptr(), bytes.len()) }
}
