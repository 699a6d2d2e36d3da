//! A strip cut into bands of whole rows, each a file of its own.

use crate::elements::write_words;
use crate::failure::Failure;
use crate::files;
use dofnihet::{Header, Source};
use std::ffi::{OsStr, OsString};

/// Writes the bands of a strip, so many rows each; the last may have fewer.
pub fn write(strip: Vec<u32>, rows: u64, prefix: &OsStr) -> Result<(), Failure> {
    let header = dofnihet::header(&strip)?;
    let mut channels = vec![0; 3 * (header.width * header.height) as usize];
    dofnihet::unpack(&strip, &mut channels)?;
    drop(strip);
    let rows = rows.min(header.height);
    let count = header.height.div_ceil(rows);
    let bands = channels.chunks(3 * (header.width * rows) as usize);
    for (number, band) in (1..).zip(bands) {
        let words = band_strip(band, header)?;
        files::write(&name(prefix, number, count), |output| write_words(output, &words))?;
    }
    Ok(())
}

/// The strip of a band, by its channels and the page's header.
fn band_strip(channels: &[u16], page: Header) -> Result<Vec<u32>, Failure> {
    let height = channels.len() as u64 / 3 / page.width;
    let band = Header { height, ..page };
    let mut words = vec![0; band.strip_length()];
    dofnihet::convert(Source::Stored(channels), band, &mut words)?;
    Ok(words)
}

/// The name of a band's file: with as many digits as the last number needs, and at least three, names sort as the bands follow.
fn name(prefix: &OsStr, number: u64, last: u64) -> OsString {
    let digits = last.to_string().len().max(3);
    let mut name = prefix.to_os_string();
    name.push(format!("{number:0digits$}.strip"));
    name
}

#[cfg(test)]
mod tests {
    use super::name;
    use std::ffi::OsStr;

    #[test]
    fn names() {
        let name = |number, last| name(OsStr::new("maps/a-"), number, last);
        assert_eq!(name(1, 1), "maps/a-001.strip");
        assert_eq!(name(7, 999), "maps/a-007.strip");
        assert_eq!(name(7, 1000), "maps/a-0007.strip");
        assert_eq!(name(8192, 8192), "maps/a-8192.strip");
    }
}
