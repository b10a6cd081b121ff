//! A session: a command in, what it answered out, over the program's own pipe.
use crate::command::Command;
use crate::error::{cut, how_it_ended, status_of, Error};
use crate::options::Options;
use crate::past::Past;
use crate::pipe::Pipe;
use crate::program::Program;
use crate::reading::read_lines;
use crate::run::Run;
use crate::script::{cut_lines, is_unanswered};
use crate::selection::Lines;
use std::process::{ExitStatus, Stdio};

/// A page that is talked to, a line at a time. It is ended by [`Session::close`], or when it is dropped.
///
/// The program answers each line before it reads the next one.
pub struct Session {
    program: String,
    pipe: Pipe,
    past: Past,
    line: usize,
    lines: usize,
    wrote: Vec<u8>,
    over: Option<String>,
    ended: Option<ExitStatus>,
}

impl Session {
    /// Begins a session with the plain options; [`Options::session`] has others.
    pub fn new() -> Result<Session, Error> {
        Options::new().session()
    }

    pub(crate) fn begin(options: Options) -> Result<Session, Error> {
        let program = Program::of(&options);
        let pipe = Pipe::new(program.start(Stdio::null())?)?;
        let past = Past::new(Vec::new(), options);
        let (line, lines, wrote) = (0, 0, Vec::new());
        Ok(Session { program: program.name(), pipe, past, line, lines, wrote, over: None, ended: None })
    }

    /// The number of the line that was given last.
    pub fn line(&self) -> usize {
        self.line
    }

    /// The number of the program's process.
    pub fn process(&self) -> u32 {
        self.pipe.process()
    }

    /// Gives a line, and gives what it wrote, the reply last.
    ///
    /// A blank line, a comment and a part of a class answer nothing where they are accepted, and are not waited for. Where a
    /// part is refused, its reply comes first of what the next command gives.
    pub fn command(&mut self, line: &str) -> Result<Command, Error> {
        if line.contains('\n') {
            return Err(Error::LineFeed);
        }
        if self.over.is_some() {
            return Err(self.is_over());
        }
        self.line += 1;
        self.past.push(line);
        self.pipe.give(format!("{line}\n").as_bytes())?;
        let lines = if is_unanswered(line) { Lines::default() } else { self.wait(line)? };
        Ok(Command::new(self.past.clone(), self.line, line, lines))
    }

    /// Gives each line of a script, and gives what each command among them wrote.
    pub fn feed(&mut self, script: &str) -> Result<Vec<Command>, Error> {
        let mut commands = Vec::new();
        for line in cut_lines(script) {
            let command = self.command(line)?;
            if !command.lines().is_empty() {
                commands.push(command);
            }
        }
        Ok(commands)
    }

    /// Ends the script, and gives the whole session as a run.
    pub fn close(mut self) -> Result<Run, Error> {
        let ended = self.take_rest()?;
        match status_of(ended) {
            Some(status) => Ok(Run::new(self.past.clone(), status, std::mem::take(&mut self.wrote))),
            None => Err(Error::ProgramDied { name: self.program.clone(), how: how_it_ended(ended) }),
        }
    }

    /// Takes the lines up to the reply of the line that was given last, or up to the end.
    fn wait(&mut self, line: &str) -> Result<Lines, Error> {
        let (number, reply) = (self.line, format!("{}: ", self.line));
        let before = self.wrote.len();
        loop {
            let Some(wrote) = self.pipe.line() else {
                let how = how_it_ended(self.take_rest()?);
                self.over = Some(format!("the program ended {how}, at line {number}: {}", cut(line)));
                return Err(self.is_over());
            };
            self.wrote.extend_from_slice(&wrote);
            let is_fuel = wrote == b"fuel\n";
            if is_fuel {
                self.over = Some(format!("the fuel was spent in line {number}: {}", cut(line)));
            }
            if is_fuel || (wrote.starts_with(reply.as_bytes()) && wrote.ends_with(b"\n")) {
                break;
            }
        }
        let lines = read_lines(&String::from_utf8_lossy(&self.wrote[before..]), |_| Some(number), self.lines + 1);
        self.lines += lines.len();
        if self.over.is_some() {
            self.take_rest()?;
        }
        Ok(lines)
    }

    /// Takes what the program writes to its end, and how it ended.
    fn take_rest(&mut self) -> Result<ExitStatus, Error> {
        if let Some(ended) = self.ended {
            return Ok(ended);
        }
        self.pipe.stop_giving();
        while let Some(wrote) = self.pipe.line() {
            self.wrote.extend_from_slice(&wrote);
        }
        let ended = self.pipe.ended()?;
        self.ended = Some(ended);
        Ok(ended)
    }

    fn is_over(&self) -> Error {
        let status = self.ended.and_then(status_of);
        Error::SessionEnded { why: self.over.clone().unwrap_or_default(), status }
    }
}
