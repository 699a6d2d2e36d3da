//! A page read from files: one strip, or bands. Either has the same calls.

use crate::arguments::Files;
use crate::bands::Bands;
use crate::failure::Failure;
use crate::strip;
use dofnihet::{Header, Tally};

pub enum Page {
    Strip(Vec<u32>),
    Bands(Bands),
}

impl Page {
    pub fn read(files: &Files) -> Result<Page, Failure> {
        match files {
            Files::Strip(path) => strip::read(path).map(Page::Strip),
            Files::Bands(paths) => Bands::read(paths).map(Page::Bands),
        }
    }

    pub fn header(&self) -> Result<Header, Failure> {
        match self {
            Page::Strip(words) => Ok(dofnihet::header(words)?),
            Page::Bands(bands) => bands.ask(dofnihet::header_of_bands),
        }
    }

    pub fn tally(&self) -> Result<Tally, Failure> {
        match self {
            Page::Strip(words) => Ok(dofnihet::tally(words)?),
            Page::Bands(bands) => bands.ask(dofnihet::tally_of_bands),
        }
    }

    pub fn map(&self, levels: &mut [u8]) -> Result<(), Failure> {
        match self {
            Page::Strip(words) => Ok(dofnihet::map(words, levels)?),
            Page::Bands(bands) => bands.ask(|row| dofnihet::map_bands(row, levels)),
        }
    }
}
