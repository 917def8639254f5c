//! The calls of host/hartley.h. What is lent lies between guard bytes.

use crate::random::Random;

extern "C" {
    fn hartley_forward(cells: *mut u8, cells_bytes: usize) -> u64;
    fn hartley_bound(cells: *const u8, cells_bytes: usize) -> u64;
    fn hartley_backward(cells: *mut u8, cells_bytes: usize) -> u64;
    fn hartley_smooth(cells: *mut u8, cells_bytes: usize, weights: *const u8, weights_bytes: usize) -> u64;
    fn hartley_parts(
        spectrum: *const u8,
        spectrum_bytes: usize,
        real: *mut u8,
        real_bytes: usize,
        imaginary: *mut u8,
        imaginary_bytes: usize,
    ) -> u64;
    fn hartley_power(spectrum: *const u8, spectrum_bytes: usize, powers: *mut u8, powers_bytes: usize) -> u64;
    fn hartley_scaled(
        spectrum: *const u8,
        spectrum_bytes: usize,
        line: usize,
        real: *mut f64,
        imaginary: *mut f64,
    ) -> u64;
    fn hartley_strongest(powers: *const u8, powers_bytes: usize, low: usize, high: usize) -> u64;
    fn hartley_nearest(powers: *const u8, powers_bytes: usize, chosen: usize, level: i64) -> u64;
    fn hartley_check(trace: *const u8, trace_bytes: usize) -> u64;
    fn hartley_fetch(trace: *const u8, trace_bytes: usize, k: usize, cells: *mut u8, cells_bytes: usize) -> u64;
    fn hartley_save(
        rate: usize,
        p: usize,
        cells: *const u8,
        cells_bytes: usize,
        trace: *mut u8,
        trace_bytes: usize,
    ) -> u64;
    fn hartley_table(table: *mut u8, table_bytes: usize) -> u64;
    fn hartley_number(answer: u64) -> u64;
    fn hartley_place(answer: u64) -> u64;
    fn hartley_case(answer: u64) -> u64;
    fn hartley_found(answer: u64) -> u64;
    fn hartley_line(answer: u64) -> u64;
    fn hartley_rate(answer: u64) -> u64;
    fn hartley_p(answer: u64) -> u64;
    fn hartley_blocks(answer: u64) -> u64;
    fn hartley_used(answer: u64) -> u64;
    fn hartley_distance(answer: u64) -> u64;
}

/// The bytes on either side of what is lent.
const GUARD: usize = 64;

/// Bytes to lend to one call, inside a larger buffer of random bytes.
pub struct Lent {
    buffer: Vec<u8>,
    before: Vec<u8>, // the buffer as it was before the call
    start: usize,
    count: usize,
}

impl Lent {
    /// At a random alignment.
    pub fn new(bytes: &[u8], random: &mut Random) -> Lent {
        let start = GUARD + random.below(16);
        let mut buffer = random.bytes(start);
        buffer.extend_from_slice(bytes);
        buffer.extend(random.bytes(GUARD));
        Lent { before: buffer.clone(), buffer, start, count: bytes.len() }
    }

    /// One double, at an address that is a multiple of eight, as a host in C lends it.
    pub fn double(bits: u64, random: &mut Random) -> Lent {
        let mut buffer = random.bytes(GUARD + 24 + GUARD);
        let start = GUARD + buffer[GUARD..].as_ptr().align_offset(8) + 8 * random.below(2);
        buffer[start..start + 8].copy_from_slice(&bits.to_le_bytes());
        Lent { before: buffer.clone(), buffer, start, count: 8 }
    }

    pub fn bytes(&self) -> &[u8] {
        &self.buffer[self.start..self.start + self.count]
    }

    /// The bits of a double.
    pub fn bits(&self) -> u64 {
        u64::from_le_bytes(self.bytes().try_into().expect("eight bytes"))
    }

    /// The first wrong byte: its place, counted from the first lent one, what it is and what it should be. The lent
    /// bytes should be `right`, and the guards as they were.
    pub fn first_wrong(&self, right: &[u8]) -> Option<(i64, u8, u8)> {
        let mut whole = self.before.clone();
        whole[self.start..self.start + self.count].copy_from_slice(right);
        if whole == self.buffer {
            return None;
        }
        let at = (0..whole.len()).find(|&at| whole[at] != self.buffer[at])?;
        Some((at as i64 - self.start as i64, self.buffer[at], whole[at]))
    }

    fn pointer(&mut self) -> *mut u8 {
        self.buffer[self.start..].as_mut_ptr()
    }
}

pub fn forward(cells: &mut Lent) -> u64 {
    unsafe { hartley_forward(cells.pointer(), cells.count) }
}

/// The cells are lent as if they could be written, so that a write to them would be seen.
pub fn bound(cells: &mut Lent) -> u64 {
    unsafe { hartley_bound(cells.pointer(), cells.count) }
}

pub fn backward(cells: &mut Lent) -> u64 {
    unsafe { hartley_backward(cells.pointer(), cells.count) }
}

/// The weights, too, are lent as if they could be written.
pub fn smooth(cells: &mut Lent, weights: &mut Lent) -> u64 {
    unsafe { hartley_smooth(cells.pointer(), cells.count, weights.pointer(), weights.count) }
}

/// The spectrum, too, is lent as if it could be written; so are those of the next two.
pub fn parts(spectrum: &mut Lent, real: &mut Lent, imaginary: &mut Lent) -> u64 {
    let (given, bytes) = (spectrum.pointer(), spectrum.count);
    unsafe { hartley_parts(given, bytes, real.pointer(), real.count, imaginary.pointer(), imaginary.count) }
}

pub fn power(spectrum: &mut Lent, powers: &mut Lent) -> u64 {
    unsafe { hartley_power(spectrum.pointer(), spectrum.count, powers.pointer(), powers.count) }
}

pub fn scaled(spectrum: &mut Lent, line: u64, [real, imaginary]: &mut [Lent; 2]) -> u64 {
    let (real, imaginary) = (real.pointer().cast(), imaginary.pointer().cast());
    unsafe { hartley_scaled(spectrum.pointer(), spectrum.count, line as usize, real, imaginary) }
}

/// The powers, too, are lent as if they could be written; so are those of the next.
pub fn strongest(powers: &mut Lent, low: u64, high: u64) -> u64 {
    unsafe { hartley_strongest(powers.pointer(), powers.count, low as usize, high as usize) }
}

pub fn nearest(powers: &mut Lent, chosen: u64, level: i64) -> u64 {
    unsafe { hartley_nearest(powers.pointer(), powers.count, chosen as usize, level) }
}

/// The trace, too, is lent as if it could be written; so is that of the next.
pub fn check(trace: &mut Lent) -> u64 {
    unsafe { hartley_check(trace.pointer(), trace.count) }
}

pub fn fetch(trace: &mut Lent, k: u64, cells: &mut Lent) -> u64 {
    unsafe { hartley_fetch(trace.pointer(), trace.count, k as usize, cells.pointer(), cells.count) }
}

/// The cells, too, are lent as if they could be written.
pub fn save(rate: u64, p: u64, cells: &mut Lent, trace: &mut Lent) -> u64 {
    let (given, bytes) = (cells.pointer(), cells.count);
    unsafe { hartley_save(rate as usize, p as usize, given, bytes, trace.pointer(), trace.count) }
}

pub fn table(table: &mut Lent) -> u64 {
    unsafe { hartley_table(table.pointer(), table.count) }
}

/// What the unpacking calls say of any answer: number, place, case, bytes used and bound.
pub fn unpacked(a: u64) -> [u64; 5] {
    unsafe { [hartley_number(a), hartley_place(a), hartley_case(a), hartley_used(a), hartley_distance(a)] }
}

/// What they say of the answer to a search: whether a line was found, and the line.
pub fn unpacked_search(a: u64) -> [u64; 2] {
    unsafe { [hartley_found(a), hartley_line(a)] }
}

/// What they say of the answer to an accepted trace: rate, P and the number of blocks.
pub fn unpacked_trace(a: u64) -> [u64; 3] {
    unsafe { [hartley_rate(a), hartley_p(a), hartley_blocks(a)] }
}
