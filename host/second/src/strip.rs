//! "The strip": its words, its checks in their order, and conversion into it.

use crate::number::{Channel, Pixel};
use crate::refusal::{require, require_at, Refusal};
use crate::refusal::{BAD_KEY, BAD_SIZE, BAD_WHITE, FOREIGN_WORD, NO_SUCH_ROW, SMALL_OUTPUT, WILD_CHANNEL, WRONG_LENGTH};
use crate::sources::Source;
use crate::Rules;

const SIZE: u32 = 1;
const KEY: u32 = 2;
const WHITE: u32 = 3;
const RED: u32 = 4;
const END: u32 = 7;

/// What the words before the channels say; W where the strip has the word.
#[derive(Clone, Copy, Debug, PartialEq, Eq)]
pub struct Header {
    pub width: u64,
    pub height: u64,
    pub key: u64,
    pub white: Option<u64>,
}

impl Header {
    /// No bad size: "width or height 0 or above 8,192, or more than 16,777,216 pixels".
    pub(crate) fn has_good_size(&self) -> bool {
        let side = 1..=8_192;
        side.contains(&self.width) && side.contains(&self.height) && self.width * self.height <= 16_777_216
    }

    fn check_size(&self) -> Result<(), Refusal> {
        require(self.has_good_size(), BAD_SIZE)
    }

    /// Bad key: "K is 0 or above 1,000".
    fn check_key(&self) -> Result<(), Refusal> {
        require((1..=1_000).contains(&self.key), BAD_KEY)
    }

    /// "10 bad white, place 0, W below 10 or above 1,000".
    fn check_white(&self) -> Result<(), Refusal> {
        require(self.white.is_none_or(|white| (10..=1_000).contains(&white)), BAD_WHITE)
    }

    /// The three of them, in order.
    fn check(&self) -> Result<(), Refusal> {
        self.check_size()?;
        self.check_key()?;
        self.check_white()
    }

    /// Small tray, for an outcome of three elements a pixel.
    pub(crate) fn check_room(&self, room: usize) -> Result<(), Refusal> {
        require(room >= 3 * self.pixels(), SMALL_OUTPUT)
    }

    /// Of a header that passed.
    pub(crate) fn pixels(&self) -> usize {
        (self.width * self.height) as usize
    }

    /// The index of the first channel word.
    pub(crate) fn front(&self) -> usize {
        match self.white {
            None => 2,
            Some(_) => 3,
        }
    }

    /// "Length: 3 × pixels + 3"; "Strips with the word are one longer".
    pub(crate) fn strip_length(&self) -> usize {
        self.front() + 3 * self.pixels() + 1
    }
}

fn kind(word: u32) -> u32 {
    word >> 28
}

fn word(kind: u32, content: u32) -> u32 {
    kind << 28 | content
}

/// A word of the kind whose content lies in bits 15..0, the other bits zero.
fn is_short_word(word: u32, expected: u32) -> bool {
    word >> 16 == expected << 12
}

fn short_content(word: u32) -> u64 {
    word as u64 % (1 << 16)
}

/// "Converting: 1, 2, 3, 4, then elements in order"; 10 between 2 and 3.
pub fn convert(rules: &Rules, source: Source, mut header: Header, room: usize) -> Result<Vec<u32>, Refusal> {
    if !rules.white_word {
        header.white = None;
    }
    header.check()?;
    let pixels = header.pixels();
    require(source.length() == source.elements_per_pixel() * pixels as u64, WRONG_LENGTH)?;
    require(room >= header.strip_length(), SMALL_OUTPUT)?;
    let mut strip = begin(&header);
    for pixel in 0..pixels {
        for channel in 0..3 {
            let stored = source.channel(pixel, channel)?;
            strip.push(word(RED + channel as u32, stored.bits() as u32));
        }
    }
    strip.push(end_word(&header));
    Ok(strip)
}

/// A strip's words before its channels, with room for the rest of it.
pub fn begin(header: &Header) -> Vec<u32> {
    let mut strip = Vec::with_capacity(header.strip_length());
    strip.push(word(SIZE, (header.width << 14 | header.height) as u32));
    strip.push(word(KEY, header.key as u32));
    strip.extend(header.white.map(|white| word(WHITE, white as u32)));
    strip
}

pub fn end_word(header: &Header) -> u32 {
    word(END, header.pixels() as u32)
}

/// A strip without its channels: the words before them, then "length 3".
fn read_header(rules: &Rules, strip: &[u32]) -> Result<Header, Refusal> {
    let header = read_front(rules, strip)?;
    require(strip.len() == header.strip_length(), WRONG_LENGTH)?;
    Ok(header)
}

/// The words before the channels: "fewer than two words is 3; then first word 7, size 1, second word 7, key 2"; for the
/// white word "7 for spare bits, then 10 bad white .. both between key and length".
fn read_front(rules: &Rules, strip: &[u32]) -> Result<Header, Refusal> {
    require(strip.len() >= 2, WRONG_LENGTH)?;
    require_at(kind(strip[0]) == SIZE, FOREIGN_WORD, 0)?;
    let (width, height) = (strip[0] as u64 >> 14 & 0x3FFF, strip[0] as u64 & 0x3FFF);
    let mut header = Header {
        width,
        height,
        key: short_content(strip[1]),
        white: None,
    };
    header.check_size()?;
    require_at(is_short_word(strip[1], KEY), FOREIGN_WORD, 1)?;
    header.check_key()?;
    if rules.white_word {
        header.white = read_white(strip)?;
        header.check_white()?;
    }
    Ok(header)
}

/// "A strip may carry, third, a word of kind 3 with W in bits 15..0, spare bits zero".
fn read_white(strip: &[u32]) -> Result<Option<u64>, Refusal> {
    match strip.get(2) {
        Some(&third) if kind(third) == WHITE => {
            require_at(is_short_word(third, WHITE), FOREIGN_WORD, 2)?;
            Ok(Some(short_content(third)))
        }
        _ => Ok(None),
    }
}

/// "then words in order, 7 before 8; last the end word."
fn check_words(strip: &[u32], header: &Header) -> Result<(), Refusal> {
    let end = strip.len() - 1;
    for (index, &word) in channel_words(strip, header).iter().enumerate() {
        let place = header.front() + index;
        require_at(is_short_word(word, RED + (index % 3) as u32), FOREIGN_WORD, place)?;
        require_at(Channel::from_bits(word as u16).is_some(), WILD_CHANNEL, place)?;
    }
    require_at(strip[end] == end_word(header), FOREIGN_WORD, end)
}

/// All checks of a strip; the output is lent where `room` is given and needs three elements a pixel.
pub fn accept(rules: &Rules, strip: &[u32], room: Option<usize>) -> Result<Header, Refusal> {
    let header = read_header(rules, strip)?;
    if let Some(room) = room {
        header.check_room(room)?;
    }
    check_words(strip, &header)?;
    Ok(header)
}

/// All checks of the strip that the row begins with, as long as its first words declare; 3 where the row cuts it short.
pub fn accept_first<'a>(rules: &Rules, row: &'a [u32]) -> Result<(Header, &'a [u32]), Refusal> {
    let header = read_front(rules, row)?;
    require(row.len() >= header.strip_length(), WRONG_LENGTH)?;
    let strip = &row[..header.strip_length()];
    check_words(strip, &header)?;
    Ok((header, strip))
}

/// The words of a row, "red word of its first pixel to blue of its last"; 20 comes before the words.
pub fn row(rules: &Rules, strip: &[u32], y: u64) -> Result<std::ops::Range<usize>, Refusal> {
    let header = read_header(rules, strip)?;
    require(y < header.height, NO_SUCH_ROW)?;
    check_words(strip, &header)?;
    let length = 3 * header.width as usize;
    let start = header.front() + y as usize * length;
    Ok(start..start + length)
}

/// "any run of it answers as the list of the pixels, then 'page over', and stays there"; "a reader over a refused strip tells that number
/// and place at every step." None is 'page over'; a number too great for an index lies behind every page.
pub fn reader_step(rules: &Rules, strip: &[u32], n: u64) -> Result<Option<Pixel>, Refusal> {
    let header = accept(rules, strip, None)?;
    Ok(usize::try_from(n).ok().and_then(|n| pixels(strip, &header).nth(n)))
}

/// The channel words of a strip of the right length.
pub fn channel_words<'a>(strip: &'a [u32], header: &Header) -> &'a [u32] {
    &strip[header.front()..strip.len() - 1]
}

/// The row of 256E + M of an accepted strip.
pub fn stored_row(strip: &[u32], header: &Header) -> Vec<u16> {
    channel_words(strip, header).iter().map(|&word| word as u16).collect()
}

/// The pixels of an accepted strip.
pub fn pixels<'a>(strip: &'a [u32], header: &Header) -> impl Iterator<Item = Pixel> + 'a {
    let channel = |word: u32| Channel::from_bits(word as u16).expect("an accepted strip");
    channel_words(strip, header)
        .chunks_exact(3)
        .map(move |words| [channel(words[0]), channel(words[1]), channel(words[2])])
}
