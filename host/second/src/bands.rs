//! Change 2026-02: "Fold-out maps in bands."

use crate::number::Pixel;
use crate::refusal::{require, Refusal, UNLIKE_BANDS};
use crate::strip::{self, Header};
use crate::Rules;

/// An accepted row of bands, "one behind the other".
pub struct Bands<'a> {
    /// The header of the tall page.
    pub page: Header,
    /// Each band's header and its part of the row.
    bands: Vec<(Header, &'a [u32])>,
}

impl<'a> Bands<'a> {
    /// Band by band its own checks, then 21. An empty row is a first band of fewer than two words.
    pub fn accept(rules: &Rules, row: &'a [u32]) -> Result<Bands<'a>, Refusal> {
        let first = strip::accept_first(rules, row)?;
        let (mut page, mut start) = (first.0, first.1.len());
        let mut bands = vec![first];
        while start < row.len() {
            let band = strip::accept_first(rules, &row[start..]).map_err(|refusal| refusal.counted_from(start))?;
            page = join(&page, &band.0)?;
            start += band.1.len();
            bands.push(band);
        }
        Ok(Bands { page, bands })
    }

    /// Header and strip of each band, top band first.
    pub fn iter(&self) -> impl Iterator<Item = (&Header, &'a [u32])> + '_ {
        self.bands.iter().map(|(header, strip)| (header, *strip))
    }

    /// The pixels of one band after another.
    pub fn pixels(&self) -> impl Iterator<Item = Pixel> + '_ {
        self.iter().flat_map(|(header, strip)| strip::pixels(strip, header))
    }

    pub fn tall_strip(&self) -> Vec<u32> {
        strip_of(
            &self.page,
            self.iter().flat_map(|(header, strip)| strip::channel_words(strip, header)),
        )
    }
}

/// The header of the bands so far with one more below them. "21 unlike bands, place 0, for a width or key unlike the
/// first band's or a joined size over the limits of 1"; "Joined bands must agree in W, or in having none".
fn join(page: &Header, band: &Header) -> Result<Header, Refusal> {
    let alike = (page.width, page.key, page.white) == (band.width, band.key, band.white);
    let joined = Header {
        height: page.height + band.height,
        ..*page
    };
    require(alike && joined.has_good_size(), UNLIKE_BANDS)?;
    Ok(joined)
}

/// The row of bands of these heights of an accepted strip, "cutting into whole rows".
pub fn cut(strip: &[u32], header: &Header, heights: &[u64]) -> Vec<u32> {
    let (mut words, mut rows) = (strip::channel_words(strip, header), header.height);
    let mut row = Vec::new();
    for &height in heights {
        assert!((1..=rows).contains(&height), "a band of no row, or of more than are left");
        let band = Header { height, ..*header };
        let (upper, lower) = words.split_at(3 * band.pixels());
        row.extend(strip_of(&band, upper.iter()));
        (words, rows) = (lower, rows - height);
    }
    assert!(rows == 0, "rows in no band");
    row
}

/// The strip of this header and these channel words.
fn strip_of<'a>(header: &Header, channel_words: impl Iterator<Item = &'a u32>) -> Vec<u32> {
    let mut strip = strip::begin(header);
    strip.extend(channel_words);
    strip.push(strip::end_word(header));
    strip
}
