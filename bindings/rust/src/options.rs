//! What may be said of a run, by name.
use crate::error::Error;
use crate::past::Past;
use crate::program::{Named, Program};
use crate::run::Run;
use crate::session::Session;
use crate::status::Status;
use std::ffi::OsString;

const PLAIN_FUEL: u32 = 20_000;
/// A word of a command line can't be of any length. What is longer than this is refused by the program in any case.
const LONGEST_WORD: usize = 5_000;

/// The program's options, but for the one for made scripts, and the program.
#[derive(Debug, Clone)]
pub struct Options {
    pub(crate) fuel: u32,
    pub(crate) trace: bool,
    pub(crate) url: String,
    pub(crate) boundary: String,
    pub(crate) program: Option<Named>,
    #[cfg_attr(not(cepage_library), allow(dead_code))]
    pub(crate) uses_library: bool,
}

impl Default for Options {
    fn default() -> Options {
        let (url, boundary) = (String::new(), String::new());
        Options { fuel: PLAIN_FUEL, trace: false, url, boundary, program: None, uses_library: has_library() }
    }
}

impl Options {
    /// 20,000 units of fuel, no trace, the page `http://page.test/`, the boundary `cepageboundary`.
    pub fn new() -> Options {
        Options::default()
    }

    /// From 1 to 200,000 units of fuel.
    pub fn fuel(self, fuel: u32) -> Options {
        Options { fuel, ..self }
    }

    /// Whether the transcript shows how reactions are enqueued and run.
    pub fn trace(self, trace: bool) -> Options {
        Options { trace, ..self }
    }

    /// The URL of the page, http or https. An empty text is the default.
    pub fn url(self, url: impl Into<String>) -> Options {
        Options { url: url.into(), ..self }
    }

    /// The boundary of multipart bodies, 1 to 70 ASCII letters and digits. An empty text is the default.
    pub fn boundary(self, boundary: impl Into<String>) -> Options {
        Options { boundary: boundary.into(), ..self }
    }

    /// The program, which is started then, also where the library was built in.
    pub fn program(self, program: impl Into<OsString>) -> Options {
        let program = Named { name: program.into(), asked_by: "Options::program" };
        Options { program: Some(program), uses_library: false, ..self }
    }

    /// Starts the program also where the library was built in.
    pub fn without_library(self) -> Options {
        Options { uses_library: false, ..self }
    }

    /// Runs a script. What is refused of the options gives the status `Usage` and an empty transcript.
    pub fn run(&self, script: impl AsRef<[u8]>) -> Result<Run, Error> {
        self.check()?;
        let options = self.settled();
        let (status, bytes) = options.transcript_of(script.as_ref())?;
        let past = Past::new(script.as_ref().to_vec(), options);
        Ok(Run::new(past, status, bytes))
    }

    /// Begins a session, which is the program's in any case.
    pub fn session(&self) -> Result<Session, Error> {
        self.check()?;
        Session::begin(Options { uses_library: false, ..self.clone() }.settled())
    }

    /// The same, with the program that it is now: what is run once more, for its trace, is run by that.
    fn settled(&self) -> Options {
        let program = if self.uses_library { None } else { Some(Named::of(self.program.as_ref())) };
        Options { program, ..self.clone() }
    }

    fn check(&self) -> Result<(), Error> {
        if self.url.contains('\0') || self.boundary.contains('\0') {
            return Err(Error::Nul);
        }
        Ok(())
    }

    /// The status and the transcript of a script.
    pub(crate) fn transcript_of(&self, script: &[u8]) -> Result<(Status, Vec<u8>), Error> {
        #[cfg(cepage_library)]
        if self.uses_library {
            return crate::library::run(script, self);
        }
        Program::of(self).run(script)
    }

    /// The words that say the same to the program.
    pub(crate) fn words(&self) -> Vec<String> {
        let mut words = vec!["--fuel".to_string(), self.fuel.to_string()];
        if self.trace {
            words.push("--trace".into());
        }
        for (word, text) in [("--url", &self.url), ("--boundary", &self.boundary)] {
            if !text.is_empty() {
                words.extend([word.to_string(), text.chars().take(LONGEST_WORD).collect()]);
            }
        }
        words
    }
}

/// Whether the crate was built with the library.
pub fn has_library() -> bool {
    cfg!(cepage_library)
}

/// Runs a script with the plain options, and gives what it did.
pub fn run(script: impl AsRef<[u8]>) -> Result<Run, Error> {
    Options::new().run(script)
}
