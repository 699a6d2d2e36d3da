//! Bands read from files, one behind another into one row, and which file a refusal is about.

use crate::elements::append;
use crate::failure::Failure;
use crate::files;
use dofnihet::{Refusal, MAX_PIXELS, MAX_SIDE};
use std::ffi::{OsStr, OsString};
use std::io::{self, Read};

/// The most words to keep. An accepted row has no more than three words a pixel and four a band, and each band has a row of the page.
/// Behind it the library looks at one strip more at most, which it refuses.
const LONGEST: usize = (3 * MAX_PIXELS + 4 * MAX_SIDE) + (3 * MAX_PIXELS + 4);

pub struct Bands {
    words: Vec<u32>,
    files: Vec<BandFile>,
}

struct BandFile {
    path: OsString,
    /// Where its words end in the row.
    end: usize,
}

impl Bands {
    /// Reads every file to its end, since its byte count decides first: where that is 0 or no multiple of four, the file is refused as a
    /// row of no words is.
    pub fn read(paths: &[OsString]) -> Result<Bands, Failure> {
        let mut words = Vec::new();
        let mut files = Vec::new();
        for path in paths {
            let mut input = files::open(path)?;
            let bytes = append_all(&mut input, &mut words, LONGEST).map_err(|error| Failure::file("read", path, error))?;
            if bytes == 0 || !bytes.is_multiple_of(4) {
                dofnihet::header_of_bands(&[]).map_err(|refusal| Failure::RefusedIn(refusal, name(path)))?;
            }
            let (path, end) = (path.clone(), words.len());
            files.push(BandFile { path, end });
        }
        Ok(Bands { words, files })
    }

    /// What a call of the library answers for the row. A refusal gets its file and, where it has a place, the word in that file; where the
    /// page is refused and every band accepted, it gets none.
    pub fn ask<T>(&self, call: impl FnOnce(&[u32]) -> Result<T, Refusal>) -> Result<T, Failure> {
        call(&self.words).map_err(|refusal| {
            let at = if refusal.has_place() {
                Some(self.word_at(refusal.place as usize))
            } else {
                self.first_refused().map(|file| name(&file.path))
            };
            at.map_or(Failure::Refused(refusal), |at| Failure::RefusedIn(refusal, at))
        })
    }

    /// The file with this word of the row, and the word's index there.
    fn word_at(&self, place: usize) -> String {
        let at = self.files.partition_point(|file| file.end <= place);
        let start = if at == 0 { 0 } else { self.files[at - 1].end };
        format!("{} word {}", name(&self.files[at].path), place - start)
    }

    /// The first file with which the row so far is refused; none where the bands of all files are accepted. Once refused, a row of whole
    /// bands stays so however many follow; where a band is split over files, that is not so, and another file may be told.
    fn first_refused(&self) -> Option<&BandFile> {
        let accepted = |file: &BandFile| dofnihet::header_of_bands(&self.words[..file.end]).is_ok();
        let (last, others) = self.files.split_last().filter(|(last, _)| !accepted(last))?;
        Some(others.get(others.partition_point(accepted)).unwrap_or(last))
    }
}

fn name(path: &OsStr) -> String {
    path.display().to_string()
}

/// Appends an input's words until there are `most`, and reads it to its end; answers its byte count.
fn append_all(input: &mut dyn Read, words: &mut Vec<u32>, most: usize) -> io::Result<u64> {
    let before = words.len();
    let partial = append(input, words, most)?;
    let dropped = io::copy(input, &mut io::sink())?;
    Ok((4 * (words.len() - before) + partial) as u64 + dropped)
}

#[cfg(test)]
mod tests {
    use super::append_all;

    #[test]
    fn no_more_is_kept_than_there_is_room_for() {
        let mut words = vec![7];
        let bytes = [1, 0, 0, 0, 2, 0, 0, 0, 3];
        for (count, kept) in [(0, 1), (3, 1), (4, 2), (9, 3)] {
            words.truncate(1);
            assert_eq!(append_all(&mut &bytes[..count], &mut words, 4).unwrap(), count as u64);
            assert_eq!(words, [7, 1, 2][..kept]);
        }
        assert_eq!(append_all(&mut &bytes[..], &mut words, 4).unwrap(), 9);
        assert_eq!(words, [7, 1, 2, 1]);
        assert_eq!(append_all(&mut &bytes[..], &mut words, 4).unwrap(), 9);
        assert_eq!(words, [7, 1, 2, 1]);
    }
}
