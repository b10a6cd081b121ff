//! The lines of a transcript as values.
use crate::names::{Bad, Enqueued, FaultName, Flag, Mode, State};
use std::fmt;

/// A node, by its number; node 1 is the page's document.
#[derive(Debug, Clone, Copy, PartialEq, Eq, Hash, PartialOrd, Ord)]
pub struct Node(pub u64);

impl From<u64> for Node {
    fn from(number: u64) -> Node {
        Node(number)
    }
}

impl fmt::Display for Node {
    fn fmt(&self, out: &mut fmt::Formatter<'_>) -> fmt::Result {
        write!(out, "#{}", self.0)
    }
}

/// A line of a transcript.
#[derive(Debug, Clone, PartialEq, Eq)]
pub struct Line {
    /// The line as it stands, without its line feed.
    pub text: String,
    /// Its number in the transcript, from 1.
    pub number: usize,
    /// The number of the script's line that it answers. None of the last lines of a transcript that was read without its
    /// script.
    pub command: Option<usize>,
    /// What it tells.
    pub kind: Kind,
}

/// What a line tells.
#[derive(Debug, Clone, PartialEq, Eq)]
pub enum Kind {
    /// The constructor of this class starts.
    Construct(String),
    /// A callback of this element starts.
    Call(Node, Callback),
    /// A body logged these texts.
    Log(Vec<String>),
    /// A question in a body found this.
    Ask(Answer),
    /// A form is submitted, or its submission is blocked.
    Submit(Submit),
    /// A `try` of a body took the fault.
    Caught(Fault),
    /// A callback ended with the fault, or an upgrade or a creation threw it.
    Report(Fault),
    /// The reply of a line of the script, the last line that it writes.
    Reply(Reply),
    /// The fuel is spent.
    Fuel,
    /// A line of the trace.
    Trace(Trace),
    /// None of these, or the last line, where it was cut off.
    Other,
}

/// A callback, with its arguments.
#[derive(Debug, Clone, PartialEq, Eq)]
#[allow(missing_docs)]
pub enum Callback {
    Connected,
    Disconnected,
    /// The node document before, and since.
    Adopted {
        before: Node,
        since: Node,
    },
    Attribute {
        name: String,
        old: Option<String>,
        new: Option<String>,
    },
    /// The form owner.
    FormAssociated(Option<Node>),
    /// Whether it is disabled.
    FormDisabled(bool),
    FormReset,
    FormStateRestore {
        state: String,
        mode: Mode,
    },
}

impl Callback {
    /// The callback's name.
    pub fn name(&self) -> &'static str {
        match self {
            Callback::Connected => "connected",
            Callback::Disconnected => "disconnected",
            Callback::Adopted { .. } => "adopted",
            Callback::Attribute { .. } => "attribute",
            Callback::FormAssociated(_) => "formAssociated",
            Callback::FormDisabled(_) => "formDisabled",
            Callback::FormReset => "formReset",
            Callback::FormStateRestore { .. } => "formStateRestore",
        }
    }
}

/// What was asked.
#[derive(Debug, Clone, PartialEq, Eq)]
pub enum Answer {
    /// There is none.
    Null,
    /// A list of entries.
    List,
    /// A node.
    Node(Node),
    /// Nodes, two or more.
    Nodes(Vec<Node>),
    /// A text.
    Text(String),
    /// Texts, two or more.
    Texts(Vec<String>),
    /// No nodes, or no texts.
    Empty,
    /// Yes or no.
    Truth(bool),
    /// A custom element state.
    State(State),
    /// The validity flags, none of `valid`.
    Flags(Vec<Flag>),
}

/// The reply of a line.
#[derive(Debug, Clone, PartialEq, Eq)]
pub enum Reply {
    /// It was done, and gives no node.
    Ok,
    /// The control does not take what the user did.
    Ignored,
    /// It gives a node, or what was asked.
    Answered(Answer),
    /// It threw the fault.
    Threw(Fault),
    /// It was refused.
    Bad(Bad),
}

/// What was thrown.
#[derive(Debug, Clone, PartialEq, Eq)]
pub enum Fault {
    /// A fault of the engine.
    Named(FaultName),
    /// One that a body threw itself, with its text.
    User(String),
}

/// The submission of a form.
#[derive(Debug, Clone, PartialEq, Eq)]
pub struct Submit {
    /// The form.
    pub form: Node,
    /// What came of it.
    pub outcome: Outcome,
}

/// What came of a submission.
#[derive(Debug, Clone, PartialEq, Eq)]
#[allow(missing_docs)]
pub enum Outcome {
    Get { url: String },
    Post { url: String, media_type: String, body: String },
    Blocked(Cause),
}

/// What blocks a submission.
#[derive(Debug, Clone, PartialEq, Eq)]
pub enum Cause {
    /// The form is not connected.
    Disconnected,
    /// These controls are invalid.
    Invalid(Vec<Node>),
    /// The method is `dialog`.
    Dialog,
    /// The action does not parse.
    Url,
    /// The scheme is neither http nor https.
    Scheme,
    /// It is too long.
    Size,
    /// The boundary stands in an entry.
    Boundary,
}

/// A line of the trace: queues and reactions by their numbers.
#[derive(Debug, Clone, PartialEq, Eq)]
#[allow(missing_docs)]
pub enum Trace {
    Open(u64),
    Enqueue { reaction: u64, element: Node, what: Enqueued, queue: u64 },
    Drain(u64),
    Start(u64),
    Finish(u64),
    Up(Node),
    Done(Node),
    Drop(u64),
    Threw(Node),
    Close(u64),
}
