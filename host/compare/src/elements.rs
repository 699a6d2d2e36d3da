//! The elements of a source picture, owned.

use dofnihet::Source;

#[derive(Clone, Copy, Debug, PartialEq, Eq)]
pub enum Kind {
    Rgbe,
    Half,
    Single,
    Stored,
}

pub const KINDS: [Kind; 4] = [Kind::Rgbe, Kind::Half, Kind::Single, Kind::Stored];

impl Kind {
    /// Elements of one pixel.
    pub fn of_pixel(self) -> usize {
        match self {
            Kind::Rgbe => 4,
            _ => 3,
        }
    }
}

#[derive(Clone, Debug, PartialEq, Eq)]
pub enum Elements {
    Rgbe(Vec<u8>),
    Half(Vec<u16>),
    Single(Vec<u32>),
    Stored(Vec<u16>),
}

impl Elements {
    /// As many zeros of the kind.
    pub fn black(kind: Kind, count: usize) -> Elements {
        match kind {
            Kind::Rgbe => Elements::Rgbe(vec![0; count]),
            Kind::Half => Elements::Half(vec![0; count]),
            Kind::Single => Elements::Single(vec![0; count]),
            Kind::Stored => Elements::Stored(vec![0; count]),
        }
    }

    pub fn copy(source: Source) -> Elements {
        match source {
            Source::Rgbe(list) => Elements::Rgbe(list.to_vec()),
            Source::Half(list) => Elements::Half(list.to_vec()),
            Source::Single(list) => Elements::Single(list.to_vec()),
            Source::Stored(list) => Elements::Stored(list.to_vec()),
        }
    }

    pub fn source(&self) -> Source<'_> {
        match self {
            Elements::Rgbe(list) => Source::Rgbe(list),
            Elements::Half(list) => Source::Half(list),
            Elements::Single(list) => Source::Single(list),
            Elements::Stored(list) => Source::Stored(list),
        }
    }

    pub fn kind(&self) -> Kind {
        match self {
            Elements::Rgbe(_) => Kind::Rgbe,
            Elements::Half(_) => Kind::Half,
            Elements::Single(_) => Kind::Single,
            Elements::Stored(_) => Kind::Stored,
        }
    }

    pub fn count(&self) -> usize {
        match self {
            Elements::Rgbe(list) => list.len(),
            Elements::Half(list) | Elements::Stored(list) => list.len(),
            Elements::Single(list) => list.len(),
        }
    }

    /// Sets one element, cut to the kind's width.
    pub fn set(&mut self, place: usize, value: u32) {
        match self {
            Elements::Rgbe(list) => list[place] = value as u8,
            Elements::Half(list) | Elements::Stored(list) => list[place] = value as u16,
            Elements::Single(list) => list[place] = value,
        }
    }

    /// Cuts the list, or lengthens it with zeros.
    pub fn resize(&mut self, count: usize) {
        match self {
            Elements::Rgbe(list) => list.resize(count, 0),
            Elements::Half(list) | Elements::Stored(list) => list.resize(count, 0),
            Elements::Single(list) => list.resize(count, 0),
        }
    }
}
