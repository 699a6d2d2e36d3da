//! Source pictures into strips. The library refuses in its own order, and a source is read only where its header is accepted.

use crate::arguments::Kind;
use crate::elements::{append, at_end, Element};
use crate::failure::Failure;
use crate::files;
use crate::pfm;
use dofnihet::{Header, Refusal, Source};
use std::ffi::OsStr;
use std::io::{self, Read};

/// The strip of a flat source.
pub fn flat(path: &OsStr, kind: Kind, header: Header) -> Result<Vec<u32>, Failure> {
    match kind {
        Kind::Rgbe => flat_of(path, header, 4, |bytes| Source::Rgbe(bytes)),
        Kind::Half => flat_of(path, header, 3, |halves| Source::Half(halves)),
        Kind::Single => flat_of(path, header, 3, |singles| Source::Single(singles)),
        Kind::Stored => flat_of(path, header, 3, |channels| Source::Stored(channels)),
    }
}

/// The same of one kind, with its number of elements a pixel.
fn flat_of<T: Element>(
    path: &OsStr,
    header: Header,
    elements_a_pixel: usize,
    source: impl Fn(&[T]) -> Source,
) -> Result<Vec<u32>, Failure> {
    let mut input = files::open(path)?;
    let wrong_length = refusal_of_nothing(source(&[]), header)?;
    let elements = exactly(&mut input, elements_a_pixel * pixels(header));
    let elements = elements.map_err(|error| Failure::file("read", path, error))?;
    strip(source(&elements.ok_or(wrong_length)?), header)
}

/// The strip of a PFM file, by the header of its width and height.
pub fn pfm(path: &OsStr, header: impl Fn(u64, u64) -> Header) -> Result<Vec<u32>, Failure> {
    let mut input = files::open(path)?;
    let read = |error| Failure::file("read", path, error);
    let no_pfm = || Failure::Wrong(format!("{} is no PFM file", path.display()));
    let front = pfm::front(&mut input).map_err(read)?.ok_or_else(no_pfm)?;
    let header = header(front.width, front.height);
    let wrong_length = refusal_of_nothing(Source::Single(&[]), header)?;
    let singles = pfm::singles(&mut input, &front).map_err(read)?.ok_or(wrong_length)?;
    strip(Source::Single(&singles), header)
}

/// A source of no elements is refused with 1, 2, 10 or 3. With 3, the header is accepted, and a source of another wrong length is refused
/// in the same way.
fn refusal_of_nothing(nothing: Source, header: Header) -> Result<Refusal, Refusal> {
    match dofnihet::convert(nothing, header, &mut []) {
        Err(refusal) if refusal.number == 3 => Ok(refusal),
        Err(refusal) => Err(refusal),
        Ok(()) => unreachable!("no page has a source of no elements"),
    }
}

/// The pixels of a page whose size is accepted.
fn pixels(header: Header) -> usize {
    (header.width * header.height) as usize
}

/// Reads a whole input of `count` elements; none where it is shorter or longer.
fn exactly<T: Element>(input: &mut dyn Read, count: usize) -> io::Result<Option<Vec<T>>> {
    let mut elements = Vec::with_capacity(count);
    append(input, &mut elements, count)?;
    Ok((elements.len() == count && at_end(input)?).then_some(elements))
}

fn strip(source: Source, header: Header) -> Result<Vec<u32>, Failure> {
    let mut words = vec![0; header.strip_length()];
    dofnihet::convert(source, header, &mut words)?;
    Ok(words)
}
