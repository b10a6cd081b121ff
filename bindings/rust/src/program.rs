//! A script run by starting the program.
use crate::error::{how_it_ended, status_of, Error};
use crate::options::Options;
use crate::status::Status;
use std::ffi::OsString;
use std::io::{self, Write};
use std::path::{Path, PathBuf};
use std::process::{Child, Command, Stdio};
use std::thread::{self, Builder};

/// A program, and what names it.
#[derive(Debug, Clone)]
pub(crate) struct Named {
    pub(crate) name: OsString,
    pub(crate) asked_by: &'static str,
}

impl Named {
    /// The program that is given, else that of the environment variable CEPAGE, else `cepage` on the path. It stays the same
    /// where another folder is gone to; a name alone is sought on the path.
    pub(crate) fn of(given: Option<&Named>) -> Named {
        let named = std::env::var_os("CEPAGE").filter(|name| !name.is_empty());
        let found = match (given, named) {
            (Some(given), _) => given.clone(),
            (None, Some(name)) => Named { name, asked_by: "CEPAGE" },
            (None, None) => Named { name: "cepage".into(), asked_by: "PATH" },
        };
        match std::env::current_dir() {
            Ok(here) if found.is_path() => {
                Named { name: here.join(found.name).components().collect::<PathBuf>().into(), ..found }
            }
            _ => found,
        }
    }

    fn is_path(&self) -> bool {
        self.name.as_encoded_bytes().contains(&b'/')
    }
}

/// The program and its words.
pub(crate) struct Program {
    named: Named,
    words: Vec<String>,
}

impl Program {
    pub(crate) fn of(options: &Options) -> Program {
        Program { named: Named::of(options.program.as_ref()), words: options.words() }
    }

    pub(crate) fn name(&self) -> String {
        self.named.name.to_string_lossy().into_owned()
    }

    /// Starts it, with pipes to and from it.
    pub(crate) fn start(&self, standard_error: Stdio) -> Result<Child, Error> {
        let mut command = Command::new(&self.named.name);
        command.args(&self.words).stdin(Stdio::piped()).stdout(Stdio::piped()).stderr(standard_error);
        command.spawn().map_err(|error| self.failed(error))
    }

    /// What a failed start says. What a program wants may be missing, too, as the interpreter of a script.
    fn failed(&self, error: io::Error) -> Error {
        let (name, asked_by) = (self.name(), self.named.asked_by);
        let is_missing = match error.kind() {
            io::ErrorKind::NotFound => !(self.named.is_path() && Path::new(&self.named.name).exists()),
            kind => kind == io::ErrorKind::PermissionDenied,
        };
        if is_missing {
            Error::ProgramMissing { name, asked_by }
        } else {
            Error::ProgramUnfit { name, asked_by, error }
        }
    }

    /// The status and the transcript of a script.
    pub(crate) fn run(&self, script: &[u8]) -> Result<(Status, Vec<u8>), Error> {
        let mut child = self.start(Stdio::piped())?;
        let input = child.stdin.take();
        let ended = thread::scope(|threads| {
            // A program that ends before it has read the script closes the pipe: its status tells why.
            let writes = move || input.map(|mut input| input.write_all(script));
            if let Err(error) = Builder::new().spawn_scoped(threads, writes) {
                let _ = child.kill();
                let _ = child.wait();
                return Err(error);
            }
            child.wait_with_output()
        })?;
        match status_of(ended.status) {
            Some(status) => Ok((status, ended.stdout)),
            None => Err(Error::ProgramDied { name: self.name(), how: told(how_it_ended(ended.status), &ended.stderr) }),
        }
    }
}

/// How it ended, and the first line that it wrote to standard error.
fn told(how: String, error: &[u8]) -> String {
    let error = String::from_utf8_lossy(error);
    match error.lines().next().map(str::trim) {
        Some(line) if !line.is_empty() => format!("{how}: {line}"),
        _ => how,
    }
}
