//! The proved library's functions.
//!
//! A slice is passed as a pointer and a length.

#[repr(C)]
#[derive(Clone, Copy, Debug, PartialEq, Eq, Default)]
pub struct Quote {
    pub refusal: u16,
    pub direction: u16,
    pub place: usize,
    pub cents: i64,
}

/// The quotes under the five rulebooks, in the order of their codes.
#[repr(C)]
#[derive(Clone, Copy, Debug, PartialEq, Eq)]
pub struct Quarter {
    pub quotes: [Quote; 5],
}

#[repr(C)]
#[derive(Clone, Copy, Debug, PartialEq, Eq)]
pub struct Day {
    pub started: bool,
    pub refusal: u16,
    pub place: usize,
    pub priced: usize,
}

#[repr(C)]
#[derive(Clone, Copy, Debug, PartialEq, Eq)]
pub struct Bid {
    pub cents: i32,
    pub kw: u32,
    pub number: u16,
}

#[repr(C)]
#[derive(Clone, Copy, Debug, PartialEq, Eq)]
pub struct Ladder {
    pub added: usize,
    pub withdrawn: usize,
}

extern "C" {
    fn fumeliosa_quarter(bytes: *const u8, len: usize) -> Quarter;
    fn fumeliosa_incentive(bytes: *const u8, len: usize) -> Quarter;
    fn fumeliosa_rewrite(bytes: *const u8, len: usize, out: *mut u8, out_len: usize) -> usize;
    fn fumeliosa_bench_day(
        sheets: *const u8,
        sheets_len: usize,
        ends: *const usize,
        ends_len: usize,
        parties: usize,
        first: *mut i64,
        first_len: usize,
        second: *mut i64,
        second_len: usize,
    ) -> Day;
    fn fumeliosa_bench_ladder(
        bids: *const Bid,
        bids_len: usize,
        numbers: *const u16,
        numbers_len: usize,
        ranks: *mut usize,
        ranks_len: usize,
    ) -> Ladder;
}

pub fn quarter(sheet: &[u8]) -> Quarter {
    // SAFETY: the function reads the slice and nothing else.
    unsafe { fumeliosa_quarter(sheet.as_ptr(), sheet.len()) }
}

pub fn incentive(sheet: &[u8]) -> Quarter {
    // SAFETY: the function reads the slice and nothing else.
    unsafe { fumeliosa_incentive(sheet.as_ptr(), sheet.len()) }
}

pub fn rewrite(sheet: &[u8], out: &mut [u8]) -> usize {
    // SAFETY: the function reads the first slice, writes the second, and they do not overlap.
    unsafe { fumeliosa_rewrite(sheet.as_ptr(), sheet.len(), out.as_mut_ptr(), out.len()) }
}

pub fn day(
    sheets: &[u8],
    ends: &[usize],
    parties: usize,
    first: &mut [i64],
    second: &mut [i64],
) -> Day {
    // SAFETY: the function reads the first two slices, writes the last two, and none overlap.
    unsafe {
        fumeliosa_bench_day(
            sheets.as_ptr(),
            sheets.len(),
            ends.as_ptr(),
            ends.len(),
            parties,
            first.as_mut_ptr(),
            first.len(),
            second.as_mut_ptr(),
            second.len(),
        )
    }
}

pub fn ladder(bids: &[Bid], numbers: &[u16], ranks: &mut [usize]) -> Ladder {
    // SAFETY: the function reads the first two slices, writes the last, and none overlap.
    unsafe {
        fumeliosa_bench_ladder(
            bids.as_ptr(),
            bids.len(),
            numbers.as_ptr(),
            numbers.len(),
            ranks.as_mut_ptr(),
            ranks.len(),
        )
    }
}
