//! One command, and what it wrote.
use crate::failure::{block, block_from, differing, indented, place, told_from};
use crate::lines::{Answer, Callback, Kind, Node, Reply};
use crate::past::Past;
use crate::selection::Lines;
use std::fmt;

/// A command of a script, or a line that was refused: its number, its text and the lines that it wrote.
///
/// As a text it says what it wrote, and its trace; so it can stand as the message of any assertion.
#[derive(Debug, Clone)]
pub struct Command {
    past: Past,
    number: usize,
    source: String,
    lines: Lines,
}

impl Command {
    pub(crate) fn new(past: Past, number: usize, source: &str, lines: Lines) -> Command {
        Command { past, number, source: source.into(), lines }
    }

    /// The number of its line in the script.
    pub fn number(&self) -> usize {
        self.number
    }

    /// Its text in the script.
    pub fn source(&self) -> &str {
        &self.source
    }

    /// The lines that it wrote, the reply last. In a session those of the refused parts of classes before it come first.
    pub fn lines(&self) -> &Lines {
        &self.lines
    }

    /// The lines as they stand in the transcript.
    pub fn texts(&self) -> Vec<&str> {
        self.lines.texts()
    }

    /// What it replied. None where the fuel was spent in it, and of a line that answers nothing.
    pub fn reply(&self) -> Option<&Reply> {
        match self.lines.last().map(|last| &last.kind) {
            Some(Kind::Reply(reply)) => Some(reply),
            _ => None,
        }
    }

    /// What it was asked, or the node that it gives.
    pub fn answer(&self) -> Option<&Answer> {
        match self.reply() {
            Some(Reply::Answered(answer)) => Some(answer),
            _ => None,
        }
    }

    /// The node that it gives.
    ///
    /// # Panics
    ///
    /// Where it gives none.
    #[track_caller]
    pub fn node(&self) -> Node {
        match self.answer() {
            Some(Answer::Node(node)) => *node,
            _ => self.fail("a reply that gives a node", &[self.replied()]),
        }
    }

    /// The reply as it stands, without the number.
    pub fn replied(&self) -> &str {
        match (self.reply(), self.lines.last()) {
            (Some(_), Some(last)) => last.text.split_once(": ").map_or("", |(_, reply)| reply),
            _ => "no reply",
        }
    }

    /// Expects that it wrote just these lines; the reply may be said without its number.
    ///
    /// # Panics
    ///
    /// Where it did not.
    #[track_caller]
    pub fn expect<'a>(&self, lines: impl IntoIterator<Item = &'a str>) {
        let mut expected: Vec<&str> = lines.into_iter().collect();
        let came = self.texts();
        if let (Some(_), Some(said), Some(reply)) = (self.reply(), expected.last_mut(), came.last()) {
            if *said == self.replied() {
                *said = reply;
            }
        }
        if expected != came {
            self.fail_with(differing(&expected, &came));
        }
    }

    /// Expects this reply, said without its number.
    ///
    /// # Panics
    ///
    /// Where it is another one.
    #[track_caller]
    pub fn expect_reply(&self, reply: &str) {
        if self.replied() != reply {
            self.fail(reply, &[self.replied()]);
        }
    }

    /// Expects that the element heard just these callbacks, said by their names, in this order.
    ///
    /// # Panics
    ///
    /// Where it heard others.
    #[track_caller]
    pub fn expect_heard<'a>(&self, element: impl Into<Node>, callbacks: impl IntoIterator<Item = &'a str>) {
        let element = element.into();
        let heard: Vec<&str> = self.lines.heard(element).into_iter().map(Callback::name).collect();
        let expected: Vec<&str> = callbacks.into_iter().collect();
        if heard != expected {
            let is_of_it = |kind: &Kind| matches!(kind, Kind::Call(it, _) if *it == element);
            let calls: Vec<&str> =
                self.lines.iter().filter(|it| is_of_it(&it.kind)).map(|it| it.text.as_str()).collect();
            let joined = expected.join(" ");
            let wanted = if expected.is_empty() { "no callback" } else { &joined };
            let first = told_from(place(&expected, &heard), calls.len());
            self.fail_with([block("expected:", &[wanted]), block_from(first, "came:", &calls)].concat());
        }
    }

    /// Expects that one form was submitted in it, and sent just these names and values, in this order.
    ///
    /// # Panics
    ///
    /// Where it did not.
    #[track_caller]
    pub fn expect_sent<'a>(&self, entries: impl IntoIterator<Item = (&'a str, &'a str)>) {
        let expected: Vec<(String, String)> =
            entries.into_iter().map(|(name, value)| (name.into(), value.into())).collect();
        let submissions = self.lines.submissions();
        if matches!(submissions.as_slice(), [one] if one.entries().as_ref() == Some(&expected)) {
            return;
        }
        let spelled =
            |entries: &[(String, String)]| -> Vec<String> { entries.iter().map(|it| format!("{it:?}")).collect() };
        let mut came = Vec::new();
        for line in self.lines.iter() {
            if let Kind::Submit(submit) = &line.kind {
                came.push(line.text.clone());
                came.extend(spelled(&submit.entries().unwrap_or_default()));
            }
        }
        let wanted = [vec!["one submission with".to_string()], spelled(&expected)].concat();
        let at = 1 + place(&wanted[1..], came.get(1..).unwrap_or(&[]));
        let first = told_from(at, wanted.len().max(came.len()));
        self.fail_with([block_from(first, "expected:", &wanted), block_from(first, "came:", &came)].concat())
    }

    #[track_caller]
    fn fail(&self, expected: &str, came: &[&str]) -> ! {
        self.fail_with([block("expected:", &[expected]), block("came:", came)].concat())
    }

    #[track_caller]
    fn fail_with(&self, told: Vec<String>) -> ! {
        panic!("{}", [vec![self.title()], told, self.trace()].concat().join("\n"))
    }

    fn title(&self) -> String {
        format!("line {} of the script: {}", self.number, self.source)
    }

    /// The trace of the line, as an outline under its title. Where the run was without it, the script is run again.
    fn trace(&self) -> Vec<String> {
        let run_again = if self.past.options.trace { Ok(self.lines.clone()) } else { self.past.traced() };
        match run_again {
            Ok(lines) => {
                let of_it = lines.iter().filter(|line| line.command == Some(self.number));
                let texts: Vec<&str> = of_it.map(|line| line.text.as_str()).collect();
                block("trace of the line:", &indented(&texts))
            }
            Err(error) => vec![format!("no trace: {error}")],
        }
    }
}

impl fmt::Display for Command {
    fn fmt(&self, out: &mut fmt::Formatter<'_>) -> fmt::Result {
        let told = [vec![self.title()], block("it wrote:", &self.texts()), self.trace()].concat();
        out.write_str(&told.join("\n"))
    }
}
