//! A line's text, spelled from its values alone: what the reader has lost shows as a difference.
use cepage::{Answer, Callback, Cause, Fault, Kind, Node, Outcome, Reply, Trace};

fn text(value: &str) -> String {
    let mut out = String::from("\"");
    for sign in value.chars() {
        match sign {
            '"' => out.push_str("\\\""),
            '\\' => out.push_str("\\\\"),
            '\n' => out.push_str("\\n"),
            '\r' => out.push_str("\\r"),
            '\t' => out.push_str("\\t"),
            '\0'..='\x1f' | '\x7f' => out.push_str(&format!("\\u{{{:x}}}", u32::from(sign))),
            _ => out.push(sign),
        }
    }
    out + "\""
}

fn or_null<T>(value: &Option<T>, spell: impl Fn(&T) -> String) -> String {
    value.as_ref().map_or("null".into(), spell)
}

fn each<T>(values: &[T], spell: impl Fn(&T) -> String) -> String {
    values.iter().map(spell).collect::<Vec<_>>().join(" ")
}

fn behind(word: &str, rest: String) -> String {
    if rest.is_empty() {
        word.into()
    } else {
        format!("{word} {rest}")
    }
}

fn fault(fault: &Fault) -> String {
    match fault {
        Fault::Named(name) => name.to_string(),
        Fault::User(said) => format!("user {}", text(said)),
    }
}

fn arguments(callback: &Callback) -> String {
    match callback {
        Callback::Connected | Callback::Disconnected | Callback::FormReset => String::new(),
        Callback::Adopted { before, since } => format!("{before} {since}"),
        Callback::Attribute { name, old, new } => {
            format!("{} {} {}", text(name), or_null(old, |it| text(it)), or_null(new, |it| text(it)))
        }
        Callback::FormAssociated(form) => or_null(form, Node::to_string),
        Callback::FormDisabled(disabled) => disabled.to_string(),
        Callback::FormStateRestore { state, mode } => format!("{} {mode}", text(state)),
    }
}

fn answer(answer: &Answer) -> String {
    match answer {
        Answer::Null => "null".into(),
        Answer::List => "list".into(),
        Answer::Empty => "empty".into(),
        Answer::Node(node) => node.to_string(),
        Answer::Nodes(nodes) => each(nodes, Node::to_string),
        Answer::Text(said) => text(said),
        Answer::Texts(texts) => each(texts, |it| text(it)),
        Answer::Truth(truth) => if *truth { "yes" } else { "no" }.into(),
        Answer::State(state) => state.to_string(),
        Answer::Flags(flags) if flags.is_empty() => "valid".into(),
        Answer::Flags(flags) => each(flags, |it| it.to_string()),
    }
}

fn outcome(outcome: &Outcome) -> String {
    let cause = match outcome {
        Outcome::Get { url } => return format!("get {}", text(url)),
        Outcome::Post { url, media_type, body } => {
            return format!("post {}", each(&[url, media_type, body], |it| text(it)))
        }
        Outcome::Blocked(cause) => cause,
    };
    let said = match cause {
        Cause::Disconnected => "disconnected",
        Cause::Invalid(nodes) => return behind("blocked invalid", each(nodes, Node::to_string)),
        Cause::Dialog => "dialog",
        Cause::Url => "url",
        Cause::Scheme => "scheme",
        Cause::Size => "size",
        Cause::Boundary => "boundary",
    };
    format!("blocked {said}")
}

fn reply(reply: &Reply) -> String {
    match reply {
        Reply::Ok => "ok".into(),
        Reply::Ignored => "ignored".into(),
        Reply::Answered(it) => answer(it),
        Reply::Threw(it) => format!("throw {}", fault(it)),
        Reply::Bad(why) => format!("bad {why}"),
    }
}

fn trace(trace: &Trace) -> String {
    match trace {
        Trace::Open(queue) => format!("open {queue}"),
        Trace::Enqueue { reaction, element, what, queue } => format!("enq {reaction} {element} {what} {queue}"),
        Trace::Drain(queue) => format!("drain {queue}"),
        Trace::Start(reaction) => format!("start {reaction}"),
        Trace::Finish(reaction) => format!("finish {reaction}"),
        Trace::Up(element) => format!("up {element}"),
        Trace::Done(element) => format!("done {element}"),
        Trace::Drop(reaction) => format!("drop {reaction}"),
        Trace::Threw(element) => format!("threw {element}"),
        Trace::Close(queue) => format!("close {queue}"),
    }
}

/// The text of a line of any kind but `Other`, of which it is empty; `command` is the number of a reply.
pub fn spelled(kind: &Kind, command: usize) -> String {
    match kind {
        Kind::Construct(class) => format!("construct {class}"),
        Kind::Call(element, callback) => behind(&format!("call {element} {}", callback.name()), arguments(callback)),
        Kind::Log(texts) => behind("log", each(texts, |it| text(it))),
        Kind::Ask(it) => format!("ask {}", answer(it)),
        Kind::Submit(it) => format!("submit {} {}", it.form, outcome(&it.outcome)),
        Kind::Caught(it) => format!("caught {}", fault(it)),
        Kind::Report(it) => format!("report {}", fault(it)),
        Kind::Reply(it) => format!("{command}: {}", reply(it)),
        Kind::Fuel => "fuel".into(),
        Kind::Trace(it) => format!("~ {}", trace(it)),
        Kind::Other => String::new(),
    }
}
