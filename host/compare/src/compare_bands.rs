//! The calls on bands made on both sides, and the tall page beside them.

use crate::bands;
use crate::compare::{different, equal, other_rooms, raw_header, raw_tally, show_strip, told, Compare, Difference, Told};
use crate::pages::{channel_words, Page};
use dofnihet::raw::{Header, Tally};

impl Compare<'_> {
    /// The header of the tall page, as the library told it.
    pub fn header_of_bands(&mut self, row: &[u32]) -> Result<Header, Difference> {
        let (calls, expected) = (self.calls, self.second.header_of_bands(row));
        let what = || format!("header of bands, {}", show_strip(row));
        self.read(
            row,
            told(&expected),
            raw_header(&expected),
            |read| calls.header_of_bands(read),
            &what,
        )
    }

    /// The joined tally, as the library told it.
    pub fn tally_of_bands(&mut self, row: &[u32]) -> Result<Tally, Difference> {
        let (calls, expected) = (self.calls, self.second.tally_of_bands(row));
        let what = || format!("tally of bands, {}", show_strip(row));
        self.read(row, told(&expected), raw_tally(&expected), |read| calls.tally_of_bands(read), &what)
    }

    /// Mapping bands into an output of so many bytes; the levels as the library left them, none where both refuse.
    pub fn map_bands(&mut self, row: &[u32], room: usize) -> Result<(Told, Vec<u8>), Difference> {
        let (calls, expected) = (self.calls, self.second.levels_of_bands(row, room));
        let what = || format!("map bands, {}, room {room}", show_strip(row));
        self.write(row, room, expected, |read, output| calls.map_bands(read, output), &what)
    }

    /// Every call on bands, with several outputs; where they are sound also the tall page, and demand 3 where that is accepted. It tells what
    /// tally and map do.
    pub fn bands(&mut self, row: &[u32]) -> Result<Told, Difference> {
        let (header, tally) = (self.header_of_bands(row)?, self.tally_of_bands(row)?);
        let (told, levels) = self.map_bands(row, row.len() + 7)?;
        let sound = header.number == 0;
        let needed = match sound {
            true => 3 * (header.width * header.height) as usize,
            false => row.len().saturating_sub(3),
        };
        for room in other_rooms(needed) {
            self.map_bands(row, room)?;
        }
        if sound {
            self.tall_page(row, header, tally, (told, levels))?;
        }
        Ok(told)
    }

    /// What the library tells of the one tall strip is what it told of the bands.
    fn tall_page(&mut self, row: &[u32], header: Header, tally: Tally, mapped: (Told, Vec<u8>)) -> Result<(), Difference> {
        let what = || format!("the tall page of bands, {}", show_strip(row));
        let tall = self.second.tall_strip(row);
        let tall = tall.map_err(|refusal| different(&what, format!("the second step refuses it with {refusal:?}")))?;
        let of_tall = (self.header(&tall)?, self.tally(&tall)?);
        if of_tall != (header, tally) {
            return Err(different(&what, format!("{of_tall:?} is not {:?}", (header, tally))));
        }
        let of_tall = self.map(&tall, channel_words(&tall).len())?;
        if of_tall != mapped {
            return Err(different(&what, format!("levels {of_tall:?} are not {mapped:?}")));
        }
        self.page(&tall, mapped.0, &tally, &mapped.1)
    }

    /// The bands of a page that is cut into these heights are told what the page is, and it is their tall one.
    pub fn cutting(&mut self, page: &Page, heights: &[u64]) -> Result<(), Difference> {
        let (strip, row) = (page.strip(), bands::row(page, heights));
        let what = || format!("heights {heights:?} of {}", show_strip(&strip));
        equal(&page.told(), &self.bands(&row)?, &what)?;
        match self.second.tall_strip(&row) == Ok(strip.clone()) && self.second.cut(&strip, heights) == row {
            true => Ok(()),
            false => Err(different(&what, "the second step cuts or joins otherwise".to_string())),
        }
    }
}
