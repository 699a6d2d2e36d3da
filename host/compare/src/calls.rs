//! The calls that are compared: each as the C interface answers it, unless a self-check puts a wrong answer in its place.

use dofnihet::raw::{self, Header as RawHeader, Outcome, Row, Step, Tally};
use dofnihet::{Header, Source};

pub trait Calls: Sync {
    fn convert(&self, source: Source, header: Header, output: &mut [u32]) -> Outcome {
        raw::convert(source, header, output)
    }

    fn check(&self, strip: &[u32]) -> Outcome {
        raw::check(strip)
    }

    fn unpack(&self, strip: &[u32], output: &mut [u16]) -> Outcome {
        raw::unpack(strip, output)
    }

    fn map(&self, strip: &[u32], output: &mut [u8]) -> Outcome {
        raw::map(strip, output)
    }

    fn header(&self, strip: &[u32]) -> RawHeader {
        raw::header(strip)
    }

    fn row(&self, strip: &[u32], y: u64) -> Row {
        raw::row(strip, y)
    }

    fn step(&self, strip: &[u32], n: u64) -> Step {
        raw::step(strip, n)
    }

    fn tally(&self, strip: &[u32]) -> Tally {
        raw::tally(strip)
    }

    fn header_of_bands(&self, bands: &[u32]) -> RawHeader {
        raw::header_of_bands(bands)
    }

    fn tally_of_bands(&self, bands: &[u32]) -> Tally {
        raw::tally_of_bands(bands)
    }

    fn map_bands(&self, bands: &[u32], output: &mut [u8]) -> Outcome {
        raw::map_bands(bands, output)
    }
}

/// The static library.
pub struct Library;

impl Calls for Library {}
