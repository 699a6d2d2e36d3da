//! The sample page, as README.md shows it.

use crate::common::{self, accepted, bytes32, text, words, Folder, PROGRAM};
use second::{Extremes, Rules, SecondStep};
use std::env;
use std::fs;
use std::path::Path;
use std::process::Command;

const STRIP: &[u8] = include_bytes!("../../../samples/relief.strip");
const README: &str = include_str!("../../../README.md");

/// A folder as the reader has it, with the sample page, a page of another width, a black one and a photograph of one grey pixel.
fn readers_folder(name: &str) -> Folder {
    let folder = Folder::new(name);
    fs::create_dir(folder.path("samples")).unwrap();
    folder.file("samples/relief.strip", STRIP);
    folder.file("photo.strip", &bytes32(&common::STRIP));
    folder.file("photo.pfm", b"Pf\n1 1\n-1.0\n\0\0\x80\x3F");
    folder.file("cap.strip", &bytes32(&common::strip("half", 1, 1, 180, &[0; 6])));
    folder
}

/// README.md shows these commands, one after another, each with what it prints in the folder.
fn readme_shows(folder: &Folder, commands: &[&str]) {
    let shown: String = commands.iter().map(|command| session(folder, command)).collect();
    assert!(README.contains(&format!("\n\n{shown}\n")), "{shown}");
}

/// A command in the shell, and behind it what it prints, as README.md has it.
fn session(folder: &Folder, command: &str) -> String {
    let programs = Path::new(PROGRAM).parent().unwrap().display();
    let done = Command::new("sh")
        .args(["-c", &format!("exec 2>&1; {command}")])
        .current_dir(folder.path(""))
        .env("PATH", format!("{programs}:{}", env::var("PATH").unwrap()))
        .output()
        .unwrap();
    let printed = String::from_utf8(done.stdout).unwrap();
    let lines = [format!("$ {command}")].into_iter().chain(printed.lines().map(String::from));
    lines.map(|line| format!("    {line}\n")).collect()
}

/// What the second tone step finds.
fn extremes() -> Extremes {
    SecondStep::new(Rules::BUILT).tally(&words(STRIP)).unwrap().extremes.unwrap()
}

#[test]
fn extremes_are_the_second_steps() {
    let printed = text(&["tally", "-"], STRIP);
    let Extremes { darkest, brightest } = extremes();
    for (word, number) in [("darkest", darkest), ("brightest", brightest)] {
        let line = format!("\n{word} {} {} worth ", number.exponent, number.mantissa);
        assert!(printed.contains(&line), "{line} in {printed}");
    }
}

#[test]
fn readme_shows_the_page() {
    let commands = [
        "dofnihet info samples/relief.strip",
        "dofnihet tally samples/relief.strip",
        "dofnihet row samples/relief.strip 65 row.words",
    ];
    readme_shows(&readers_folder("readme_page"), &commands);
}

#[test]
fn readme_shows_a_white_point() {
    let commands = [
        "dofnihet convert pfm --key 180 --white 30 photo.pfm photo.strip",
        "dofnihet info photo.strip | grep white",
        "dofnihet convert pfm --key 180 --white 9 photo.pfm photo.strip",
    ];
    readme_shows(&readers_folder("readme_white"), &commands);
}

/// A byte is damaged where README.md says so: the highest of word 6, which tells its kind.
#[test]
fn readme_shows_the_bands() {
    let folder = readers_folder("readme_bands");
    let commands = [
        "dofnihet cut samples/relief.strip 24 relief-",
        "dofnihet info --bands relief-001.strip relief-002.strip relief-003.strip",
        "dofnihet tally --bands relief-*.strip | grep average",
        "dofnihet tally relief-002.strip | grep average",
        "dofnihet map --bands relief-*.strip relief.ppm",
    ];
    readme_shows(&folder, &commands);
    assert_eq!(fs::read(folder.path("relief.ppm")).unwrap(), accepted(&["map", "-", "-"], STRIP));
    let second = folder.path("relief-002.strip");
    let mut band = fs::read(&second).unwrap();
    band[4 * 6 + 3] = 0;
    fs::write(&second, band).unwrap();
    let commands = [
        "dofnihet map --bands relief-*.strip relief.ppm",
        "dofnihet map --bands relief-001.strip photo.strip relief.ppm",
    ];
    readme_shows(&folder, &commands);
}

#[test]
fn readme_shows_a_dark_page() {
    readme_shows(&readers_folder("readme_dark"), &["dofnihet map cap.strip cap.ppm"]);
}
