//! Failures that read well.
use crate::support::{example, told};
use cepage::{run, Options, Session, Status};

const CARD: &str = "class Card
on Card connected : log in
define x-card Card
create $html html
append doc $html
create $card x-card
append $html $card
";

const TOLD: &str = "line 7 of the script: append $html $card
expected:
      call #3 connected
    > log \"out\"
      7: ok
came:
      call #3 connected
    > log \"in\"
      7: ok
trace of the line:
    ~ open 5
      ~ enq 1 #3 connected 5
      ~ drain 5
      ~ start 1
        call #3 connected
        log \"in\"
      ~ finish 1
    ~ close 5
    7: ok";

fn last() -> cepage::Command {
    run(CARD).unwrap().command(7)
}

#[test]
fn the_line_what_was_expected_what_came_and_the_trace() {
    assert_eq!(told(|| last().expect(["call #3 connected", "log \"out\"", "ok"])), TOLD);
}

#[test]
fn the_same_in_a_session_and_with_the_trace() {
    let mut page = Session::new().unwrap();
    let came = page.feed(CARD).unwrap().pop().unwrap();
    page.command("detach $card").unwrap();
    assert_eq!(told(move || came.expect(["call #3 connected", "log \"out\"", "ok"])), TOLD);
    let traced = Options::new().trace(true).run(CARD).unwrap().command(7);
    assert!(told(move || traced.expect(["ok"])).contains("trace of the line:\n    ~ open 5\n"));
}

#[test]
fn what_is_as_expected_fails_nothing() {
    run(CARD).unwrap().expect_status(Status::Done);
    last().expect(["call #3 connected", "log \"in\"", "ok"]);
    last().expect(["call #3 connected", "log \"in\"", "7: ok"]);
    last().expect_reply("ok");
    last().expect_heard(3, ["connected"]);
    last().expect_heard(2, []);
}

#[test]
fn a_line_too_few_or_too_many() {
    let others: [&'static [&'static str]; 5] = [
        &["call #3 connected", "ok"],
        &["call #3 connected", "log \"in\"", "log \"in\"", "ok"],
        &["7: ok", "ok"],
        &["call #3 connected", "log \"in\"", "#9"],
        &[],
    ];
    for lines in others {
        assert!(told(|| last().expect(lines.iter().copied())).contains("expected:\n"));
    }
    assert!(told(|| last().expect([])).contains("expected:\n    nothing\n"));
}

#[test]
fn a_reply() {
    assert!(told(|| last().expect_reply("throw TypeError"))
        .contains("expected:\n    throw TypeError\ncame:\n    ok\ntrace"));
    let spent = Options::new().fuel(1).run(CARD).unwrap().commands().pop().unwrap();
    assert!(told(move || spent.expect_reply("ok")).contains("came:\n    no reply\n"));
}

#[test]
fn what_an_element_heard() {
    let message = told(|| last().expect_heard(3, ["disconnected", "connected"]));
    assert!(message.contains("expected:\n    disconnected connected\ncame:\n    call #3 connected\n"));
    assert!(told(|| last().expect_heard(3, [])).contains("expected:\n    no callback\n"));
}

#[test]
fn what_was_sent() {
    let review = || run(example("review.script")).unwrap();
    let pressed = |at: usize| review().find("user press $publish").swap_remove(at);
    pressed(1).expect_sent([("title", "Good tea"), ("stars", "4"), ("do", "publish")]);
    let message = told(|| pressed(1).expect_sent([("title", "Good tea"), ("stars", "5"), ("do", "publish")]));
    assert!(message.contains("    (\"stars\", \"5\")\n") && message.contains("    (\"stars\", \"4\")\n"));
    let message = told(|| pressed(0).expect_sent([("title", "Good tea")]));
    assert!(message.contains("came:\n    submit #3 blocked invalid #5\n"));
    assert!(told(|| review().command(46).expect_sent([])).contains("came:\n    nothing\n"));
}

#[test]
fn what_was_sent_twice() {
    let class = "class A\non A connected : submit $f\non A connected : submit $f\ndefine x-a A\n";
    let page = "create $h html\nappend doc $h\ncreate $f form\nappend $h $f\ncreate $a x-a\nappend $f $a\n";
    let twice = run(format!("{class}{page}")).unwrap().commands().pop().unwrap();
    assert_eq!(twice.lines().submissions().len(), 2);
    let message = told(move || twice.expect_sent([]));
    assert!(message.contains("expected:\n    one submission with\ncame:\n    submit #3 get"), "{message}");
}

#[test]
fn a_node() {
    assert!(told(|| _ = last().node()).contains("a reply that gives a node"));
}

#[test]
fn the_message_of_any_assertion() {
    let message = last().to_string();
    assert!(message.starts_with("line 7 of the script: append $html $card\nit wrote:\n    call #3 connected\n"));
    assert!(message.ends_with("    ~ close 5\n    7: ok"));
}

#[test]
fn a_status() {
    let message = told(|| run("frob\nclass A\non A x : y\ncreate $a p\n").unwrap().expect_status(Status::Done));
    let wanted = "came:\n    BadLines\nsince:\n    line 1: bad word: frob\n    line 3: bad word: on A x : y";
    assert!(message.contains(wanted), "{message}");
    let spent = || Options::new().fuel(3).run("create $a p\nclass A\n\ncreate $b p").unwrap();
    let message = told(|| spent().expect_status(Status::Done));
    assert!(message.contains("line 4, in which the fuel of 3 was spent: create $b p"), "{message}");
}

#[test]
fn of_very_many_lines_the_first_are_told() {
    let script =
        "class A\nobserve A k\non A attribute : setattr this k v\ndefine x-a A\ncreate $a x-a\nsetattr $a k v\n";
    let spent = Options::new().fuel(1000).run(script).unwrap().commands().pop().unwrap();
    let message = told(move || spent.expect(["ok"]));
    assert!(message.contains(" lines more") && message.lines().count() < 500);
}

#[test]
fn of_very_many_lines_those_about_the_difference_are_told() {
    let parts = format!("class A\n{}define x-a A\n", "on A connected : log in\n".repeat(300));
    let script = format!("{parts}create $h html\nappend doc $h\ncreate $a x-a\nappend $h $a\n");
    let many = run(&script).unwrap().commands().pop().unwrap();
    let mut wanted: Vec<String> = many.texts().iter().map(|text| text.to_string()).collect();
    let place = wanted.len() - 2;
    wanted[place] = "log \"out\"".into();
    let message = told(move || many.expect(wanted.iter().map(String::as_str)));
    assert!(message.contains("    > log \"out\"\n      306: ok\ncame:\n    behind 200 lines\n"), "{message}");
    assert!(message.contains("    > log \"in\"\n      306: ok\ntrace"), "{message}");
}

#[test]
fn of_many_lines_all_are_told() {
    let parts = format!("class A\n{}define x-a A\n", "on A connected : log in\n".repeat(150));
    let many = run(format!("{parts}create $h html\nappend doc $h\ncreate $a x-a\nappend $h $a\n")).unwrap();
    let message = told(move || {
        let last = many.commands().pop().unwrap();
        let texts = last.texts();
        last.expect(texts[..texts.len() - 2].iter().copied().chain(["log \"out\"", "ok"]))
    });
    assert!(!message.contains("behind"), "{message}");
}

#[test]
fn of_very_many_callbacks_and_entries_those_about_the_difference_are_told() {
    let parts = "on A connected : setattr this k v\n".repeat(300);
    let class = format!("class A\nobserve A k\nhas A attribute\n{parts}define x-a A\n");
    let many = run(format!("{class}create $h html\nappend doc $h\ncreate $a x-a\nappend $h $a\n")).unwrap();
    let heard = ["connected"].into_iter().chain(["attribute"; 299]).chain(["connected"]);
    let message = told(move || many.commands().pop().unwrap().expect_heard(3, heard));
    assert!(message.contains("came:\n    behind 200 lines\n"), "{message}");
    assert_eq!(message.split("trace of").next().unwrap().matches("    call #3 attribute").count(), 101);
    let numbers: Vec<String> = (0..300).map(|k| k.to_string()).collect();
    let input = |k: &String| format!("create $i input\nsetattr $i name n\nsetattr $i value {k}\nappend $f $i\n");
    let inputs: String = numbers.iter().map(input).collect();
    let page = format!("create $h html\nappend doc $h\ncreate $f form\nappend $h $f\n{inputs}submit $f\n");
    let sent = run(page).unwrap().commands().pop().unwrap();
    let entries: Vec<(&str, &str)> = numbers.iter().map(|k| ("n", k.as_str())).collect();
    sent.expect_sent(entries.clone());
    let other = entries[..299].iter().copied().chain([("n", "other")]);
    let message = told(|| sent.expect_sent(other));
    assert!(message.contains("    (\"n\", \"other\")\ncame:\n    behind 200 lines\n"), "{message}");
    assert!(message.contains("    (\"n\", \"299\")\ntrace"), "{message}");
}
