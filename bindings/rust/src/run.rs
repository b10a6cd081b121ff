//! What a script did.
use crate::command::Command;
use crate::error::Error;
use crate::failure::block;
use crate::lines::Reply;
use crate::past::Past;
use crate::reading::read_lines;
use crate::script::{cut_lines, is_unanswered, next_command};
use crate::selection::Lines;
use crate::status::Status;
use std::sync::OnceLock;

/// What a script did: the status, the transcript, and its lines as values.
#[derive(Debug)]
pub struct Run {
    past: Past,
    status: Status,
    bytes: Vec<u8>,
    source: String,
    transcript: OnceLock<String>,
    lines: OnceLock<Lines>,
}

impl Run {
    pub(crate) fn new(past: Past, status: Status, bytes: Vec<u8>) -> Run {
        let source = String::from_utf8_lossy(&past.script()).into_owned();
        Run { past, status, bytes, source, transcript: OnceLock::new(), lines: OnceLock::new() }
    }

    /// How it ended.
    pub fn status(&self) -> Status {
        self.status
    }

    /// The transcript, to the byte.
    pub fn bytes(&self) -> &[u8] {
        &self.bytes
    }

    /// The transcript as a text.
    pub fn transcript(&self) -> &str {
        self.transcript.get_or_init(|| String::from_utf8_lossy(&self.bytes).into_owned())
    }

    /// The lines of the script; line 1 is the first of them.
    pub fn source(&self) -> Vec<&str> {
        cut_lines(&self.source)
    }

    /// The lines of the transcript as values.
    pub fn lines(&self) -> &Lines {
        self.lines.get_or_init(|| {
            let source = self.source();
            read_lines(self.transcript(), |last| next_command(&source, last), 1)
        })
    }

    /// The lines of the script that wrote something, in their order.
    pub fn commands(&self) -> Vec<Command> {
        let source = self.source();
        let mut commands = Vec::new();
        for lines in self.lines().chunk_by(|one, other| one.command == other.command) {
            if let Some(number) = lines[0].command {
                let said = number.checked_sub(1).and_then(|at| source.get(at)).copied().unwrap_or("");
                commands.push(Command::new(self.past.clone(), number, said, Lines(lines.to_vec())));
            }
        }
        commands
    }

    /// The command in this line of the script, if it wrote something.
    pub fn get(&self, number: usize) -> Option<Command> {
        let lines: Vec<_> = self.lines().iter().filter(|line| line.command == Some(number)).cloned().collect();
        let source = self.source().get(number.checked_sub(1)?).copied().unwrap_or("");
        (!lines.is_empty()).then(|| Command::new(self.past.clone(), number, source, Lines(lines)))
    }

    /// The command in this line of the script.
    ///
    /// # Panics
    ///
    /// Where that line answers nothing.
    #[track_caller]
    pub fn command(&self, number: usize) -> Command {
        // Not in a closure, which would be told as the place in place of the caller.
        match self.get(number) {
            Some(command) => command,
            None => panic!("{}", self.unanswered(number)),
        }
    }

    fn unanswered(&self, number: usize) -> String {
        let source = self.source();
        let Some(line) = number.checked_sub(1).and_then(|at| source.get(at)) else {
            return format!("the script has no line {number}, but {} lines", source.len());
        };
        let unanswered = "a blank line, a comment or a part of a class";
        let why = if is_unanswered(line) { unanswered } else { "behind the end of the session" };
        format!("line {number} of the script answers nothing, being {why}: {line}")
    }

    /// The commands that are spelled so, in their order.
    pub fn find(&self, source: &str) -> Vec<Command> {
        self.commands().into_iter().filter(|command| command.source().trim_matches(' ') == source).collect()
    }

    /// The same script once more, with the trace.
    pub fn traced(&self) -> Result<Run, Error> {
        self.past.options.clone().trace(true).run(self.past.script())
    }

    /// Expects that it ended so.
    ///
    /// # Panics
    ///
    /// Where it did not; tells each line that was refused, or in which one the fuel was spent.
    #[track_caller]
    pub fn expect_status(&self, status: Status) {
        if self.status != status {
            let told =
                [block("expected:", &[status.to_string()]), block("came:", &[self.status.to_string()]), self.reasons()];
            panic!("{}", told.concat().join("\n"));
        }
    }

    fn reasons(&self) -> Vec<String> {
        let commands = self.commands();
        let refused = commands.iter().filter(|it| matches!(it.reply(), Some(Reply::Bad(_))));
        let mut told: Vec<String> =
            refused.map(|it| format!("line {}: {}: {}", it.number(), it.replied(), it.source())).collect();
        if let (Status::Fuel, Some(last)) = (self.status, commands.last()) {
            let fuel = self.past.options.fuel;
            told.push(format!("line {}, in which the fuel of {fuel} was spent: {}", last.number(), last.source()));
        }
        if told.is_empty() {
            told
        } else {
            block("since:", &told)
        }
    }
}
