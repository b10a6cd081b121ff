//! What is asked of lines, of a whole run or of one command.
use crate::lines::{Callback, Fault, Kind, Line, Node, Submit};
use std::ops::Deref;

/// Lines of a transcript, in their order.
#[derive(Debug, Clone, Default, PartialEq, Eq)]
pub struct Lines(pub(crate) Vec<Line>);

impl Deref for Lines {
    type Target = [Line];

    fn deref(&self) -> &[Line] {
        &self.0
    }
}

impl Lines {
    fn select<'a, T>(&'a self, part: impl Fn(&'a Kind) -> Option<T>) -> Vec<T> {
        self.iter().filter_map(|line| part(&line.kind)).collect()
    }

    /// The lines as they stand in the transcript.
    pub fn texts(&self) -> Vec<&str> {
        self.iter().map(|line| line.text.as_str()).collect()
    }

    /// The callbacks that started, each with its element.
    pub fn calls(&self) -> Vec<(Node, &Callback)> {
        self.select(|kind| if let Kind::Call(element, callback) = kind { Some((*element, callback)) } else { None })
    }

    /// The callbacks that this element heard.
    pub fn heard(&self, element: impl Into<Node>) -> Vec<&Callback> {
        let element = element.into();
        self.calls().into_iter().filter(|(it, _)| *it == element).map(|(_, callback)| callback).collect()
    }

    /// The classes whose constructors started.
    pub fn constructs(&self) -> Vec<&str> {
        self.select(|kind| if let Kind::Construct(class) = kind { Some(class.as_str()) } else { None })
    }

    /// The texts of each line that a body logged.
    pub fn logs(&self) -> Vec<&[String]> {
        self.select(|kind| if let Kind::Log(texts) = kind { Some(texts.as_slice()) } else { None })
    }

    /// The faults that were reported.
    pub fn reports(&self) -> Vec<&Fault> {
        self.select(|kind| if let Kind::Report(fault) = kind { Some(fault) } else { None })
    }

    /// The submissions, blocked ones among them.
    pub fn submissions(&self) -> Vec<&Submit> {
        self.select(|kind| if let Kind::Submit(submit) = kind { Some(submit) } else { None })
    }
}
