//! The reader of a transcript's lines.
use crate::spelled::spelled;
use crate::support::examples;
use cepage::{
    read_line, read_transcript, Answer, Bad, Callback, Cause, Enqueued, Fault, FaultName, Flag, Kind, Mode, Node,
    Options, Outcome, Reply, State, Submit, Trace,
};
use std::collections::BTreeSet;
use std::fs;
use std::path::Path;

fn call(callback: Callback) -> Kind {
    Kind::Call(Node(3), callback)
}

fn submit(outcome: Outcome) -> Kind {
    Kind::Submit(Submit { form: Node(3), outcome })
}

fn texts(texts: &[&str]) -> Vec<String> {
    texts.iter().map(|it| it.to_string()).collect()
}

fn answered(answer: Answer) -> Kind {
    Kind::Reply(Reply::Answered(answer))
}

/// A line, and what it tells.
fn lines() -> Vec<(&'static str, Kind)> {
    let (name, url) = ("open".to_string(), "http://h/?a=b".to_string());
    vec![
        ("construct Card", Kind::Construct("Card".into())),
        ("call #3 connected", call(Callback::Connected)),
        ("call #3 disconnected", call(Callback::Disconnected)),
        (
            "call #3 attribute \"open\" null \"\"",
            call(Callback::Attribute { name, old: None, new: Some(String::new()) }),
        ),
        ("call #3 adopted #1 #7", call(Callback::Adopted { before: Node(1), since: Node(7) })),
        ("call #3 formAssociated #4", call(Callback::FormAssociated(Some(Node(4))))),
        ("call #3 formAssociated null", call(Callback::FormAssociated(None))),
        ("call #3 formDisabled true", call(Callback::FormDisabled(true))),
        ("call #3 formDisabled false", call(Callback::FormDisabled(false))),
        ("call #3 formReset", call(Callback::FormReset)),
        (
            "call #3 formStateRestore \"s\" autocomplete",
            call(Callback::FormStateRestore { state: "s".into(), mode: Mode::Autocomplete }),
        ),
        ("log \"a b\" \"\" \"é\"", Kind::Log(texts(&["a b", "", "é"]))),
        (r#"log "\"\\\n\r\t\u{0}\u{7f}\\n""#, Kind::Log(texts(&["\"\\\n\r\t\0\x7f\\n"]))),
        ("log", Kind::Log(Vec::new())),
        ("ask null", Kind::Ask(Answer::Null)),
        ("ask #1", Kind::Ask(Answer::Node(Node(1)))),
        ("caught TypeError", Kind::Caught(Fault::Named(FaultName::TypeError))),
        ("report user \"no\"", Kind::Report(Fault::User("no".into()))),
        ("submit #3 get \"http://h/?a=b\"", submit(Outcome::Get { url: url.clone() })),
        (
            "submit #3 post \"http://h/?a=b\" \"text/plain\" \"a=b\\r\\n\"",
            submit(Outcome::Post { url, media_type: "text/plain".into(), body: "a=b\r\n".into() }),
        ),
        ("submit #3 blocked invalid #5 #4", submit(Outcome::Blocked(Cause::Invalid(vec![Node(5), Node(4)])))),
        ("submit #3 blocked url", submit(Outcome::Blocked(Cause::Url))),
        ("7: ok", Kind::Reply(Reply::Ok)),
        ("7: ignored", Kind::Reply(Reply::Ignored)),
        ("7: #12", answered(Answer::Node(Node(12)))),
        ("7: #12 #9", answered(Answer::Nodes(vec![Node(12), Node(9)]))),
        ("7: \"ok\"", answered(Answer::Text("ok".into()))),
        ("7: \"a\" \"b\"", answered(Answer::Texts(texts(&["a", "b"])))),
        ("7: null", answered(Answer::Null)),
        ("7: empty", answered(Answer::Empty)),
        ("7: list", answered(Answer::List)),
        ("7: yes", answered(Answer::Truth(true))),
        ("7: no", answered(Answer::Truth(false))),
        ("7: precustomized", answered(Answer::State(State::Precustomized))),
        ("7: valid", answered(Answer::Flags(Vec::new()))),
        ("7: valueMissing customError", answered(Answer::Flags(vec![Flag::ValueMissing, Flag::CustomError]))),
        ("7: throw NotFoundError", Kind::Reply(Reply::Threw(Fault::Named(FaultName::NotFoundError)))),
        ("7: throw user \"#2\"", Kind::Reply(Reply::Threw(Fault::User("#2".into())))),
        ("7: bad place", Kind::Reply(Reply::Bad(Bad::Place))),
        ("fuel", Kind::Fuel),
        ("~ open 5", Kind::Trace(Trace::Open(5))),
        (
            "~ enq 1 #3 upgrade 0",
            Kind::Trace(Trace::Enqueue { reaction: 1, element: Node(3), what: Enqueued::Upgrade, queue: 0 }),
        ),
        ("~ drain 0", Kind::Trace(Trace::Drain(0))),
        ("~ start 2", Kind::Trace(Trace::Start(2))),
        ("~ finish 2", Kind::Trace(Trace::Finish(2))),
        ("~ up #3", Kind::Trace(Trace::Up(Node(3)))),
        ("~ done #3", Kind::Trace(Trace::Done(Node(3)))),
        ("~ drop 2", Kind::Trace(Trace::Drop(2))),
        ("~ threw #3", Kind::Trace(Trace::Threw(Node(3)))),
        ("~ close 5", Kind::Trace(Trace::Close(5))),
    ]
}

/// Lines that no transcript has, one a line.
const OTHERS: &str = r##"
construct
construct card
construct A B
construct AAAAAAAAAAAAAAAAAAAAAAAAAAAAAAAAA
call
call #3
call 3 connected
call #3 clicked
call #3 connected 
call  #3 connected
call #03 connected
call #3 adopted #1
call #3 adopted #1 null
call #3 attribute "k" null
call #3 attribute null null ""
call #3 formDisabled yes
call #3 formStateRestore "s" other
log a
log"a"
log "a
log "a""b"
log "a"x"b"
log "\u{007f}"
log "\q"
log "\u{}"
log "\u{7F}"
log "\u{+7}"
log "\u{41}"
log "\u{a}"
log "\u{01}"
log "\u{80}"
ask
ask ok
ask a
caught
caught Error
caught user
report TypeError x
submit #3
submit #3 get
submit #3 get http://h/
submit #3 post "u" "t"
submit #3 blocked
submit #3 blocked late
submit #3 blocked invalid x
7:
7: 
7 : ok
07: ok
x7: ok
7: OK
7: ok ok
7: throw
7: throw user
7: bad
7: bad later
7: #1 x
7: "a" #1
7: valid valueMissing
7: valueMissing valid
1234567890123456: ok
fuel 
fuel 1
~
~ open
~ open #1
~ open +1
~ enq 1 #3 constructor 0
~ enq 1 #3 upgrade
~ up 3
~open 5
-7: ok
٧: ok
"##;

#[test]
fn each_kind_of_line_has_its_parts() {
    for (text, kind) in lines() {
        assert_eq!(read_line(text), kind, "{text}");
        assert_eq!(spelled(&kind, 7), text);
    }
}

#[test]
fn what_no_transcript_has_is_other() {
    for text in OTHERS.split('\n').chain([" ", "log \"\t\""]) {
        assert_eq!(read_line(text), Kind::Other, "{text}");
    }
}

#[test]
fn no_line_is_too_odd() {
    let (lines, signs) = (lines(), ['"', '\\', ' ', '#', '~', ':', 'u', '{', '}', '0', 'a', '\n', '\u{2028}', 'é']);
    let mut state: u64 = 7;
    let mut below = |bound: usize| {
        state = state * 48271 % 0x7fff_ffff;
        usize::try_from(state).unwrap() % bound
    };
    let mut known = 0;
    for _ in 0..5000 {
        let mut text: Vec<char> = lines[below(lines.len())].0.chars().collect();
        for _ in 0..=below(3) {
            let at = below(text.len() + 1);
            let end = text.len().min(at + below(3));
            text.splice(at..end, [signs[below(signs.len())]]);
        }
        let text: String = text.into_iter().collect();
        known += usize::from(read_line(&text) != Kind::Other);
    }
    assert!(known > 100);
}

fn transcripts(folder: &Path, found: &mut Vec<std::path::PathBuf>) {
    for entry in fs::read_dir(folder).unwrap() {
        let path = entry.unwrap().path();
        if path.is_dir() {
            transcripts(&path, found);
        } else if path.extension().is_some_and(|it| it == "transcript") {
            found.push(path);
        }
    }
}

#[test]
fn the_examples_are_read_whole() {
    let (mut files, mut kinds) = (Vec::new(), BTreeSet::new());
    transcripts(&examples(), &mut files);
    for file in files {
        for line in read_transcript(&fs::read_to_string(&file).unwrap(), "").iter() {
            assert_eq!(spelled(&line.kind, line.command.unwrap_or(0)), line.text, "{}", file.display());
            kinds.insert(
                line.text
                    .split(' ')
                    .next()
                    .unwrap()
                    .trim_end_matches(|it: char| it.is_ascii_digit() || it == ':')
                    .to_string(),
            );
        }
    }
    let words = ["", "ask", "call", "caught", "construct", "fuel", "log", "report", "submit", "~"];
    assert_eq!(kinds.into_iter().collect::<Vec<_>>(), words);
}

#[test]
fn a_line_belongs_to_the_reply_behind_it() {
    let lines = read_transcript("construct A\n5: #2\ncall #2 connected\nlog \"k\"\n16: ok\n", "");
    let commands: Vec<_> = lines.iter().map(|line| (line.number, line.command)).collect();
    assert_eq!(commands, [(1, Some(5)), (2, Some(5)), (3, Some(16)), (4, Some(16)), (5, Some(16))]);
}

#[test]
fn what_the_fuel_cuts_off_belongs_to_the_next_command() {
    let script = "create $a p\n\n# a comment\n  class A\non A connected : log in\nask kids doc\nask kids doc\n";
    let ended = Options::new().fuel(2).trace(true).run(script).unwrap();
    let last = ended.lines().last().unwrap();
    assert_eq!((&last.kind, last.command), (&Kind::Fuel, Some(6)));
    assert_eq!(read_transcript("~ open 1\nfuel\n", "")[0].command, None);
}

#[test]
fn a_line_that_is_cut_off_is_other() {
    let lines = read_transcript("1: #2\n2: #1", "create $a p\ncreate $b p\n");
    assert_eq!(lines.len(), 2);
    assert_eq!((&lines[1].kind, lines[1].command, lines[1].number), (&Kind::Other, Some(2), 2));
    assert_eq!(read_transcript("1: #", "create $a p")[0].command, Some(1));
    let part = read_transcript("1: #2\n2: bad ar", "create $a p\nclass\ncreate $b p\n");
    assert_eq!((&part[1].kind, part[1].command), (&Kind::Other, Some(2)));
    assert!(read_transcript("", "create $a p").is_empty());
}

#[test]
fn a_line_ends_at_a_line_feed_alone() {
    let lines = read_transcript("log \"\u{85}\u{2028}\"\n1: ok\n", "");
    assert_eq!(lines.len(), 2);
    assert_eq!(lines[0].kind, Kind::Log(texts(&["\u{85}\u{2028}"])));
}
