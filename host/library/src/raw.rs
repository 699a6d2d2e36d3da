//! The C interface as include/dofnihet.h declares it, and its calls with slices in place of pointers.

use crate::Source;

#[repr(C)]
#[derive(Clone, Copy, Debug, PartialEq, Eq)]
pub struct Page {
    pub width: u64,
    pub height: u64,
    pub key: u64,
    pub white_present: u64,
    pub white: u64,
}

#[repr(C)]
#[derive(Clone, Copy, Debug, PartialEq, Eq)]
pub struct Outcome {
    pub number: u64,
    pub place: u64,
}

#[repr(C)]
#[derive(Clone, Copy, Debug, PartialEq, Eq)]
pub struct Header {
    pub number: u64,
    pub place: u64,
    pub width: u64,
    pub height: u64,
    pub key: u64,
    pub white_present: u64,
    pub white: u64,
}

#[repr(C)]
#[derive(Clone, Copy, Debug, PartialEq, Eq)]
pub struct Row {
    pub number: u64,
    pub place: u64,
    pub start: u64,
    pub length: u64,
}

#[repr(C)]
#[derive(Clone, Copy, Debug, PartialEq, Eq)]
pub struct Step {
    pub number: u64,
    pub place: u64,
    pub over: u64,
    pub red: u64,
    pub green: u64,
    pub blue: u64,
}

#[repr(C)]
#[derive(Clone, Copy, Debug, PartialEq, Eq)]
pub struct Tally {
    pub number: u64,
    pub place: u64,
    pub lit: u64,
    pub sum: i64,
    pub present: u64,
    pub average: i64,
    pub exponent: u64,
    pub mantissa: u64,
    pub darkest_exponent: u64,
    pub darkest_mantissa: u64,
    pub brightest_exponent: u64,
    pub brightest_mantissa: u64,
}

extern "C" {
    fn dofnihet_convert_rgbe(source: *const u8, source_len: usize, page: Page, output: *mut u32, output_len: usize) -> Outcome;
    fn dofnihet_convert_half(source: *const u16, source_len: usize, page: Page, output: *mut u32, output_len: usize) -> Outcome;
    fn dofnihet_convert_single(source: *const u32, source_len: usize, page: Page, output: *mut u32, output_len: usize) -> Outcome;
    fn dofnihet_convert_stored(source: *const u16, source_len: usize, page: Page, output: *mut u32, output_len: usize) -> Outcome;
    fn dofnihet_check(strip: *const u32, strip_len: usize) -> Outcome;
    fn dofnihet_unpack(strip: *const u32, strip_len: usize, output: *mut u16, output_len: usize) -> Outcome;
    fn dofnihet_map(strip: *const u32, strip_len: usize, output: *mut u8, output_len: usize) -> Outcome;
    fn dofnihet_header_of(strip: *const u32, strip_len: usize) -> Header;
    fn dofnihet_row_of(strip: *const u32, strip_len: usize, y: u64) -> Row;
    fn dofnihet_step_of(strip: *const u32, strip_len: usize, n: u64) -> Step;
    fn dofnihet_tally_of(strip: *const u32, strip_len: usize) -> Tally;
    fn dofnihet_header_of_bands(bands: *const u32, bands_len: usize) -> Header;
    fn dofnihet_tally_of_bands(bands: *const u32, bands_len: usize) -> Tally;
    fn dofnihet_map_bands(bands: *const u32, bands_len: usize, output: *mut u8, output_len: usize) -> Outcome;
    fn dofnihet_front_of(width: u64, height: u64, output: *mut u8) -> u64;
    fn dofnihet_screen_table(output: *mut u8);
}

// SAFETY, for each call below: every slice is live for the call, the output is borrowed alone, and those of `front` and `screen_table`
// have the 50 and 256 bytes that the calls ask for.

pub fn convert(source: Source, header: crate::Header, output: &mut [u32]) -> Outcome {
    let page = header.page();
    let (to, room) = (output.as_mut_ptr(), output.len());
    unsafe {
        match source {
            Source::Rgbe(s) => dofnihet_convert_rgbe(s.as_ptr(), s.len(), page, to, room),
            Source::Half(s) => dofnihet_convert_half(s.as_ptr(), s.len(), page, to, room),
            Source::Single(s) => dofnihet_convert_single(s.as_ptr(), s.len(), page, to, room),
            Source::Stored(s) => dofnihet_convert_stored(s.as_ptr(), s.len(), page, to, room),
        }
    }
}

pub fn check(strip: &[u32]) -> Outcome {
    unsafe { dofnihet_check(strip.as_ptr(), strip.len()) }
}

pub fn unpack(strip: &[u32], output: &mut [u16]) -> Outcome {
    unsafe { dofnihet_unpack(strip.as_ptr(), strip.len(), output.as_mut_ptr(), output.len()) }
}

pub fn map(strip: &[u32], output: &mut [u8]) -> Outcome {
    unsafe { dofnihet_map(strip.as_ptr(), strip.len(), output.as_mut_ptr(), output.len()) }
}

pub fn header(strip: &[u32]) -> Header {
    unsafe { dofnihet_header_of(strip.as_ptr(), strip.len()) }
}

pub fn row(strip: &[u32], y: u64) -> Row {
    unsafe { dofnihet_row_of(strip.as_ptr(), strip.len(), y) }
}

pub fn step(strip: &[u32], n: u64) -> Step {
    unsafe { dofnihet_step_of(strip.as_ptr(), strip.len(), n) }
}

pub fn tally(strip: &[u32]) -> Tally {
    unsafe { dofnihet_tally_of(strip.as_ptr(), strip.len()) }
}

pub fn header_of_bands(bands: &[u32]) -> Header {
    unsafe { dofnihet_header_of_bands(bands.as_ptr(), bands.len()) }
}

pub fn tally_of_bands(bands: &[u32]) -> Tally {
    unsafe { dofnihet_tally_of_bands(bands.as_ptr(), bands.len()) }
}

pub fn map_bands(bands: &[u32], output: &mut [u8]) -> Outcome {
    unsafe { dofnihet_map_bands(bands.as_ptr(), bands.len(), output.as_mut_ptr(), output.len()) }
}

/// Answers how many bytes were written.
pub fn front(width: u64, height: u64, output: &mut [u8; 50]) -> u64 {
    unsafe { dofnihet_front_of(width, height, output.as_mut_ptr()) }
}

pub fn screen_table(output: &mut [u8; 256]) {
    unsafe { dofnihet_screen_table(output.as_mut_ptr()) }
}
