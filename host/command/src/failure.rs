//! How a run fails: the library refuses, or something outside it is wrong.

use dofnihet::Refusal;
use std::ffi::OsStr;
use std::fmt;
use std::io;

#[derive(Debug)]
pub enum Failure {
    Refused(Refusal),
    /// A refusal of one of several files, and where: the file, or the word in it.
    RefusedIn(Refusal, String),
    Wrong(String),
}

impl Failure {
    pub fn status(&self) -> u8 {
        match self {
            Failure::Refused(_) | Failure::RefusedIn(..) => 1,
            Failure::Wrong(_) => 2,
        }
    }

    /// What could not be done with a file.
    pub fn file(act: &str, path: &OsStr, error: io::Error) -> Failure {
        Failure::Wrong(format!("cannot {act} {}: {error}", path.display()))
    }
}

impl fmt::Display for Failure {
    fn fmt(&self, f: &mut fmt::Formatter) -> fmt::Result {
        match self {
            Failure::Refused(refusal) => write!(f, "{refusal} {}{}", refusal.word(), advice(refusal)),
            Failure::RefusedIn(refusal, file) => write!(f, "{refusal} {}: {file}", refusal.word()),
            Failure::Wrong(text) => write!(f, "dofnihet: {text}"),
        }
    }
}

/// What people are told on a line of its own behind a refusal.
fn advice(refusal: &Refusal) -> &'static str {
    match refusal.number {
        9 => "\nfewer than one pixel in sixteen is lit; look for the lens cap",
        _ => "",
    }
}

impl From<Refusal> for Failure {
    fn from(refusal: Refusal) -> Failure {
        Failure::Refused(refusal)
    }
}
