//! What goes wrong outside of a script.
use crate::status::Status;
use std::fmt;
use std::io;
use std::os::unix::process::ExitStatusExt;
use std::process::ExitStatus;

const MOST_TOLD: usize = 300;

/// The program could not be used, or a line could not be given to it.
///
/// `Debug` writes the same as `Display`, so that a test that returns it fails with words.
#[non_exhaustive]
pub enum Error {
    /// There is no program of that name.
    ProgramMissing {
        /// The name.
        name: String,
        /// What names it.
        asked_by: &'static str,
    },
    /// The program could not be started.
    ProgramUnfit {
        /// The name.
        name: String,
        /// What names it.
        asked_by: &'static str,
        /// Why.
        error: io::Error,
    },
    /// The program ended as cepage does not: by a signal, or with another status.
    ProgramDied {
        /// The program.
        name: String,
        /// How it ended, and what it wrote to standard error.
        how: String,
    },
    /// The session is over, so this line was not run.
    SessionEnded {
        /// Why.
        why: String,
        /// The program's status, where it has one.
        status: Option<Status>,
    },
    /// A line has a line feed.
    LineFeed,
    /// A URL or a boundary has a U+0000, which no word of a command line can have.
    Nul,
    /// The program could not be talked to.
    Io(io::Error),
}

impl fmt::Display for Error {
    fn fmt(&self, out: &mut fmt::Formatter<'_>) -> fmt::Result {
        match self {
            Error::ProgramMissing { name, asked_by } => write!(
                out,
                "there is no program `{name}`, which {asked_by} names; say Options::program, or set CEPAGE, to cepage"
            ),
            Error::ProgramUnfit { name, asked_by, error } => {
                write!(out, "the program `{name}` of {asked_by} could not be used: {error}")
            }
            Error::ProgramDied { name, how } => write!(out, "{name} ended {how}"),
            Error::SessionEnded { why, .. } => write!(out, "the session has ended: {why}"),
            Error::LineFeed => {
                write!(out, "a line has no line feed: give each line by itself, or all of them to feed()")
            }
            Error::Nul => write!(out, "a URL or a boundary has a U+0000, which no word of a command line can have"),
            Error::Io(error) => write!(out, "{error}"),
        }
    }
}

impl fmt::Debug for Error {
    fn fmt(&self, out: &mut fmt::Formatter<'_>) -> fmt::Result {
        fmt::Display::fmt(self, out)
    }
}

impl std::error::Error for Error {}

impl From<io::Error> for Error {
    fn from(error: io::Error) -> Error {
        Error::Io(error)
    }
}

/// The status of cepage with which a process ended, if it is one.
pub(crate) fn status_of(ended: ExitStatus) -> Option<Status> {
    ended.code().and_then(Status::of)
}

/// How a process ended, in words.
pub(crate) fn how_it_ended(ended: ExitStatus) -> String {
    match (ended.signal(), ended.code(), status_of(ended)) {
        (Some(signal), _, _) => format!("by the signal {signal}"),
        (_, Some(code), Some(status)) => format!("with status {code}, {status}"),
        (_, code, _) => format!("with status {}", code.unwrap_or(-1)),
    }
}

/// A line of a script, as an error tells it: of a long one the beginning.
pub(crate) fn cut(line: &str) -> String {
    match line.char_indices().nth(MOST_TOLD) {
        Some((at, _)) => format!("{} … and {} characters more", &line[..at], line[at..].chars().count()),
        None => line.to_string(),
    }
}
