//! The command line, taken apart.

use crate::help;
use std::ffi::{OsStr, OsString};

/// A flat source picture's elements.
#[derive(Clone, Copy, Debug, PartialEq)]
pub enum Kind {
    Rgbe,
    Half,
    Single,
    Stored,
}

#[derive(Debug, PartialEq)]
pub enum Picture {
    Flat { kind: Kind, width: u64, height: u64 },
    Pfm,
}

/// The file of a page's strip, or the files of its bands.
#[derive(Debug, PartialEq)]
pub enum Files {
    Strip(OsString),
    Bands(Vec<OsString>),
}

#[derive(Debug, PartialEq)]
pub enum Command {
    Help(&'static str),
    Convert {
        picture: Picture,
        key: u64,
        white: Option<u64>,
        source: OsString,
        strip: OsString,
    },
    Tally {
        page: Files,
    },
    Map {
        page: Files,
        picture: OsString,
    },
    Row {
        strip: OsString,
        y: u64,
        output: OsString,
    },
    Info {
        page: Files,
    },
    Cut {
        strip: OsString,
        rows: u64,
        prefix: OsString,
    },
}

/// Takes apart what stands behind a command's name.
type Parser = fn(&[OsString]) -> Result<Command, String>;

/// The command that the arguments ask for, or what is wrong with them.
pub fn parse(arguments: &[OsString]) -> Result<Command, String> {
    let Some((name, rest)) = arguments.split_first() else {
        return Err("no command; see dofnihet --help".to_string());
    };
    let (text, parse): (_, Parser) = match name.to_str() {
        Some("--help") => return Ok(Command::Help(help::ALL)),
        Some("convert") => (help::CONVERT, convert),
        Some("tally") => (help::TALLY, tally),
        Some("map") => (help::MAP, map),
        Some("row") => (help::ROW, row),
        Some("info") => (help::INFO, info),
        Some("cut") => (help::CUT, cut),
        _ => return Err(format!("no command {}; see dofnihet --help", name.display())),
    };
    if rest.iter().any(|argument| argument == "--help") {
        return Ok(Command::Help(text));
    }
    parse(rest).map_err(|wrong| format!("{wrong}; see dofnihet {} --help", name.display()))
}

fn convert(arguments: &[OsString]) -> Result<Command, String> {
    let (words, [width, height, key, white]) = sort(arguments, ["--width", "--height", "--key", "--white"])?;
    let [kind, source, strip] = exactly(words, "a kind, a source and a strip")?;
    let picture = picture(&kind, width, height)?;
    let key = key.ok_or("--key is missing")?;
    Ok(Command::Convert {
        picture,
        key,
        white,
        source,
        strip,
    })
}

fn picture(kind: &OsStr, width: Option<u64>, height: Option<u64>) -> Result<Picture, String> {
    let kind = match kind.to_str() {
        Some("rgbe") => Kind::Rgbe,
        Some("half") => Kind::Half,
        Some("single") => Kind::Single,
        Some("stored") => Kind::Stored,
        Some("pfm") if width.is_none() && height.is_none() => return Ok(Picture::Pfm),
        Some("pfm") => return Err("a PFM file tells its width and height itself".to_string()),
        _ => return Err(format!("no kind {}", kind.display())),
    };
    Ok(Picture::Flat {
        kind,
        width: width.ok_or("--width is missing")?,
        height: height.ok_or("--height is missing")?,
    })
}

fn tally(arguments: &[OsString]) -> Result<Command, String> {
    let (words, bands) = words_and_bands(arguments)?;
    let page = files(words, bands, "")?;
    Ok(Command::Tally { page })
}

fn map(arguments: &[OsString]) -> Result<Command, String> {
    let (mut words, bands) = words_and_bands(arguments)?;
    let picture = words.pop().unwrap_or_default();
    let page = files(words, bands, " and a picture")?;
    Ok(Command::Map { page, picture })
}

fn row(arguments: &[OsString]) -> Result<Command, String> {
    let [strip, y, output] = exactly(sort(arguments, [])?.0, "a strip, a row number and an output")?;
    let y = number(&y, "the row number")?;
    Ok(Command::Row { strip, y, output })
}

fn info(arguments: &[OsString]) -> Result<Command, String> {
    let (words, bands) = words_and_bands(arguments)?;
    let page = files(words, bands, "")?;
    Ok(Command::Info { page })
}

fn cut(arguments: &[OsString]) -> Result<Command, String> {
    let [strip, rows, prefix] = exactly(sort(arguments, [])?.0, "a strip, a number of rows and a prefix")?;
    let rows = number(&rows, "the number of rows")?;
    if rows == 0 {
        return Err("a band has one row or more".to_string());
    }
    if prefix == "-" {
        return Err("bands are files, and - is none".to_string());
    }
    Ok(Command::Cut { strip, rows, prefix })
}

/// The files of a page: one word, or with --bands one or more. `behind` is what is wanted besides.
fn files(mut words: Vec<OsString>, bands: bool, behind: &str) -> Result<Files, String> {
    match words.len() {
        1.. if bands => Ok(Files::Bands(words)),
        1 => Ok(Files::Strip(words.remove(0))),
        _ if bands => Err(format!("wanted: one strip or more{behind}")),
        _ => Err(format!("wanted: a strip{behind}")),
    }
}

/// Sorts arguments into words and whether --bands is among them.
fn words_and_bands(arguments: &[OsString]) -> Result<(Vec<OsString>, bool), String> {
    let (flags, others): (Vec<_>, Vec<_>) = arguments.iter().cloned().partition(|argument| argument == "--bands");
    if flags.len() > 1 {
        return Err("--bands is given twice".to_string());
    }
    Ok((sort(&others, [])?.0, !flags.is_empty()))
}

/// Sorts arguments into words and the numbers of the options named.
fn sort<const N: usize>(arguments: &[OsString], names: [&str; N]) -> Result<(Vec<OsString>, [Option<u64>; N]), String> {
    let mut words = Vec::new();
    let mut numbers = [None; N];
    let mut arguments = arguments.iter();
    while let Some(argument) = arguments.next() {
        if argument == "-" || !argument.as_encoded_bytes().starts_with(b"-") {
            words.push(argument.clone());
            continue;
        }
        let Some(at) = names.iter().position(|name| argument == name) else {
            return Err(format!("no option {}", argument.display()));
        };
        let value = arguments.next().ok_or_else(|| format!("{} has no number", names[at]))?;
        if numbers[at].replace(number(value, names[at])?).is_some() {
            return Err(format!("{} is given twice", names[at]));
        }
    }
    Ok((words, numbers))
}

fn exactly<const N: usize>(words: Vec<OsString>, wanted: &str) -> Result<[OsString; N], String> {
    words.try_into().map_err(|_| format!("wanted: {wanted}"))
}

fn number(text: &OsStr, name: &str) -> Result<u64, String> {
    let number = text.to_str().and_then(whole);
    number.ok_or_else(|| format!("{name} is no whole number: {}", text.display()))
}

/// A whole number in decimal digits. One that is too large becomes the largest of the type, which the library refuses just so.
pub fn whole(text: &str) -> Option<u64> {
    if text.is_empty() || !text.bytes().all(|byte| byte.is_ascii_digit()) {
        return None;
    }
    Some(text.parse().unwrap_or(u64::MAX))
}
