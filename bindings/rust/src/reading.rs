//! The reader of a transcript's lines.
//!
//! It is total: a line that it does not know is `Other`. It takes the lines that docs/transcript.md of cepage lists, as they
//! are written there, to the byte.
use crate::lines::{Answer, Callback, Cause, Fault, Kind, Line, Node, Outcome, Reply, Submit, Trace};
use crate::names::{Bad, Enqueued, FaultName, Flag, Mode, State};
use crate::script::{cut_lines, next_command};
use crate::selection::Lines;
use crate::tokens::Token::{self, Text, Word};
use crate::tokens::{number_of, replied, tokens_of};

/// What a line tells, which is given without its line feed.
pub fn read_line(line: &str) -> Kind {
    tokens_of(line).and_then(|tokens| kind_of(&tokens)).unwrap_or(Kind::Other)
}

/// The lines of a transcript that was kept. The script tells to which command the last lines belong, where the fuel was spent
/// in it; it may be empty.
pub fn read_transcript(transcript: &str, script: &str) -> Lines {
    let script = cut_lines(script);
    read_lines(transcript, |last| next_command(&script, last), 1)
}

/// The lines of a transcript, each with the number of the script's line that it answers.
///
/// What stands before a reply answers the same line. What stands behind the last one answers the command behind that. A last
/// line without a line feed was cut off; where its number is whole, it is that of the command.
pub(crate) fn read_lines(transcript: &str, command_behind: impl Fn(usize) -> Option<usize>, first: usize) -> Lines {
    let (whole, cut) = transcript.rsplit_once('\n').map_or((None, transcript), |(whole, cut)| (Some(whole), cut));
    let mut lines: Vec<Line> = Vec::new();
    let (mut unanswered, mut last) = (0, 0);
    for text in whole.into_iter().flat_map(|it| it.split('\n')) {
        lines.push(Line { text: text.into(), number: first + lines.len(), command: None, kind: read_line(text) });
        if let Some(reply) = replied(text) {
            lines[unanswered..].iter_mut().for_each(|line| line.command = Some(reply));
            (unanswered, last) = (lines.len(), reply);
        }
    }
    if !cut.is_empty() {
        lines.push(Line { text: cut.into(), number: first + lines.len(), command: None, kind: Kind::Other });
    }
    if unanswered < lines.len() {
        let command = replied(cut).or_else(|| command_behind(last));
        lines[unanswered..].iter_mut().for_each(|line| line.command = command);
    }
    Lines(lines)
}

fn kind_of(tokens: &[Token<'_>]) -> Option<Kind> {
    Some(match tokens {
        [Word("construct"), Word(class)] if is_class_name(class) => Kind::Construct((*class).into()),
        [Word("call"), Token::Node(element), rest @ ..] => Kind::Call(*element, callback_of(rest)?),
        [Word("log"), rest @ ..] => Kind::Log(texts_of(rest)?),
        [Word("ask"), rest @ ..] => Kind::Ask(answer_of(rest)?),
        [Word("submit"), Token::Node(form), rest @ ..] => {
            Kind::Submit(Submit { form: *form, outcome: outcome_of(rest)? })
        }
        [Word("caught"), rest @ ..] => Kind::Caught(fault_of(rest)?),
        [Word("report"), rest @ ..] => Kind::Report(fault_of(rest)?),
        [Word("fuel")] => Kind::Fuel,
        [Word("~"), rest @ ..] => Kind::Trace(trace_of(rest)?),
        [Word(number), rest @ ..] => {
            number_of(number.strip_suffix(':')?)?;
            Kind::Reply(reply_of(rest)?)
        }
        _ => return None,
    })
}

fn is_class_name(name: &str) -> bool {
    name.len() <= 32
        && name.starts_with(|sign: char| sign.is_ascii_uppercase())
        && name.bytes().all(|sign| sign.is_ascii_alphanumeric() || sign == b'_')
}

fn texts_of(tokens: &[Token<'_>]) -> Option<Vec<String>> {
    tokens.iter().map(|token| if let Text(text) = token { Some(text.clone()) } else { None }).collect()
}

fn nodes_of(tokens: &[Token<'_>]) -> Option<Vec<Node>> {
    tokens.iter().map(|token| if let Token::Node(node) = token { Some(*node) } else { None }).collect()
}

fn flags_of(tokens: &[Token<'_>]) -> Option<Vec<Flag>> {
    tokens.iter().map(|token| if let Word(name) = token { Flag::of(name) } else { None }).collect()
}

fn text_or_null(token: &Token<'_>) -> Option<Option<String>> {
    match token {
        Text(text) => Some(Some(text.clone())),
        Word("null") => Some(None),
        _ => None,
    }
}

fn callback_of(tokens: &[Token<'_>]) -> Option<Callback> {
    Some(match tokens {
        [Word("connected")] => Callback::Connected,
        [Word("disconnected")] => Callback::Disconnected,
        [Word("adopted"), Token::Node(before), Token::Node(since)] => {
            Callback::Adopted { before: *before, since: *since }
        }
        [Word("attribute"), Text(name), old, new] => {
            Callback::Attribute { name: name.clone(), old: text_or_null(old)?, new: text_or_null(new)? }
        }
        [Word("formAssociated"), Token::Node(form)] => Callback::FormAssociated(Some(*form)),
        [Word("formAssociated"), Word("null")] => Callback::FormAssociated(None),
        [Word("formDisabled"), Word("true")] => Callback::FormDisabled(true),
        [Word("formDisabled"), Word("false")] => Callback::FormDisabled(false),
        [Word("formReset")] => Callback::FormReset,
        [Word("formStateRestore"), Text(state), Word(mode)] => {
            Callback::FormStateRestore { state: state.clone(), mode: Mode::of(mode)? }
        }
        _ => return None,
    })
}

fn fault_of(tokens: &[Token<'_>]) -> Option<Fault> {
    match tokens {
        [Word("user"), Text(text)] => Some(Fault::User(text.clone())),
        [Word(name)] => FaultName::of(name).map(Fault::Named),
        _ => None,
    }
}

/// What was asked, behind `ask` or the number of a reply.
fn answer_of(tokens: &[Token<'_>]) -> Option<Answer> {
    Some(match tokens {
        [Text(text)] => Answer::Text(text.clone()),
        [Token::Node(node)] => Answer::Node(*node),
        [Text(_), ..] => Answer::Texts(texts_of(tokens)?),
        [Token::Node(_), ..] => Answer::Nodes(nodes_of(tokens)?),
        [Word("null")] => Answer::Null,
        [Word("list")] => Answer::List,
        [Word("empty")] => Answer::Empty,
        [Word("yes")] => Answer::Truth(true),
        [Word("no")] => Answer::Truth(false),
        [Word("valid")] => Answer::Flags(Vec::new()),
        [Word(name)] if State::of(name).is_some() => Answer::State(State::of(name)?),
        [Word(_), ..] => Answer::Flags(flags_of(tokens)?),
        [] => return None,
    })
}

fn reply_of(tokens: &[Token<'_>]) -> Option<Reply> {
    Some(match tokens {
        [Word("ok")] => Reply::Ok,
        [Word("ignored")] => Reply::Ignored,
        [Word("throw"), rest @ ..] => Reply::Threw(fault_of(rest)?),
        [Word("bad"), Word(why)] => Reply::Bad(Bad::of(why)?),
        _ => Reply::Answered(answer_of(tokens)?),
    })
}

fn outcome_of(tokens: &[Token<'_>]) -> Option<Outcome> {
    Some(match tokens {
        [Word("get"), Text(url)] => Outcome::Get { url: url.clone() },
        [Word("post"), Text(url), Text(media_type), Text(body)] => {
            Outcome::Post { url: url.clone(), media_type: media_type.clone(), body: body.clone() }
        }
        [Word("blocked"), Word("invalid"), controls @ ..] => Outcome::Blocked(Cause::Invalid(nodes_of(controls)?)),
        [Word("blocked"), Word(cause)] => Outcome::Blocked(match *cause {
            "disconnected" => Cause::Disconnected,
            "dialog" => Cause::Dialog,
            "url" => Cause::Url,
            "scheme" => Cause::Scheme,
            "size" => Cause::Size,
            "boundary" => Cause::Boundary,
            _ => return None,
        }),
        _ => return None,
    })
}

fn trace_of(tokens: &[Token<'_>]) -> Option<Trace> {
    Some(match tokens {
        [Word("enq"), Word(reaction), Token::Node(element), Word(what), Word(queue)] => Trace::Enqueue {
            reaction: number_of(reaction)?,
            element: *element,
            what: Enqueued::of(what)?,
            queue: number_of(queue)?,
        },
        [Word("open"), Word(queue)] => Trace::Open(number_of(queue)?),
        [Word("drain"), Word(queue)] => Trace::Drain(number_of(queue)?),
        [Word("close"), Word(queue)] => Trace::Close(number_of(queue)?),
        [Word("start"), Word(reaction)] => Trace::Start(number_of(reaction)?),
        [Word("finish"), Word(reaction)] => Trace::Finish(number_of(reaction)?),
        [Word("drop"), Word(reaction)] => Trace::Drop(number_of(reaction)?),
        [Word("up"), Token::Node(element)] => Trace::Up(*element),
        [Word("done"), Token::Node(element)] => Trace::Done(*element),
        [Word("threw"), Token::Node(element)] => Trace::Threw(*element),
        _ => return None,
    })
}
