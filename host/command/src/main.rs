//! The command line of Dofnihet: it moves bytes between files and the proved library, which makes every decision about a page.
//!
//! Peak memory of a page, beside the program and its buffers, which are 2 MiB: `convert` holds source and strip, 12 + 4 (RGBE), 6 (half,
//! stored) or 12 (single, PFM) bytes a pixel; `map` holds strip and levels, 12 + 3 bytes a pixel; `cut` holds strip and channels, 12 + 6
//! bytes a pixel; the other commands hold the strip. Bands take what their page's strip takes, and up to sixteen bytes a band.
//! Measured on 16,777,216 pixels: 258, 290 and 386 MiB for `convert`, 242 MiB for `map`, 290 MiB for `cut`, 194 MiB for the others;
//! with the page in bands, 128 files, the same to a MiB.
//! Files with more words than any accepted bands have take 386 MiB, however long they are.

mod arguments;
mod bands;
mod cut;
mod elements;
mod failure;
mod files;
mod help;
mod page;
mod pfm;
mod source;
mod strip;
mod tally;
mod worth;

use arguments::{Command, Files, Picture};
use dofnihet::Header;
use failure::Failure;
use page::Page;
use std::env;
use std::ffi::OsStr;
use std::io::{self, Write};
use std::process::ExitCode;

fn main() -> ExitCode {
    let arguments: Vec<_> = env::args_os().skip(1).collect();
    match arguments::parse(&arguments).map_err(Failure::Wrong).and_then(run) {
        Ok(()) => ExitCode::SUCCESS,
        Err(failure) => {
            // Where even this cannot be written, the status still tells.
            let _ = writeln!(io::stderr(), "{failure}");
            ExitCode::from(failure.status())
        }
    }
}

fn run(command: Command) -> Result<(), Failure> {
    match command {
        Command::Help(text) => print(text),
        Command::Convert {
            picture,
            key,
            white,
            source,
            strip,
        } => convert(picture, key, white, &source, &strip),
        Command::Tally { page } => tally(&page),
        Command::Map { page, picture } => map(&page, &picture),
        Command::Row { strip, y, output } => row(&strip, y, &output),
        Command::Info { page } => info(&page),
        Command::Cut { strip, rows, prefix } => cut::write(strip::read(&strip)?, rows, &prefix),
    }
}

fn print(text: &str) -> Result<(), Failure> {
    files::write(OsStr::new("-"), |output| output.write_all(text.as_bytes()))
}

fn convert(picture: Picture, key: u64, white: Option<u64>, source: &OsStr, strip: &OsStr) -> Result<(), Failure> {
    let header = |width, height| Header { width, height, key, white };
    let words = match picture {
        Picture::Flat { kind, width, height } => source::flat(source, kind, header(width, height))?,
        Picture::Pfm => source::pfm(source, header)?,
    };
    files::write(strip, |output| elements::write_words(output, &words))
}

fn tally(page: &Files) -> Result<(), Failure> {
    let tally = Page::read(page)?.tally()?;
    print(&tally::text(&tally))
}

fn map(page: &Files, picture: &OsStr) -> Result<(), Failure> {
    let page = Page::read(page)?;
    let header = page.header()?;
    let mut levels = vec![0; 3 * (header.width * header.height) as usize];
    page.map(&mut levels)?;
    drop(page);
    files::write(picture, |output| {
        output.write_all(&dofnihet::front(header.width, header.height))?;
        output.write_all(&levels)
    })
}

fn row(strip: &OsStr, y: u64, output: &OsStr) -> Result<(), Failure> {
    let words = strip::read(strip)?;
    let row = dofnihet::row(&words, y)?;
    files::write(output, |output| elements::write_words(output, row))
}

fn info(page: &Files) -> Result<(), Failure> {
    let header = Page::read(page)?.header()?;
    let Header { width, height, key, white } = header;
    let white = white.map_or("none".to_string(), |white| white.to_string());
    let pixels = width * height;
    print(&format!(
        "width {width}\nheight {height}\nkey {key}\nwhite {white}\npixels {pixels}\n"
    ))
}
