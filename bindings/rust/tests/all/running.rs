//! A script that is run.
use crate::support::{example, program_of, told};
use cepage::{has_library, run, Callback, Cause, Error, Node, Options, Outcome, Reply, Status};

#[test]
fn the_status_and_the_transcript() {
    let first = run(example("first.script")).unwrap();
    assert_eq!(first.status(), Status::Done);
    assert_eq!(first.transcript(), example("first.transcript"));
    assert_eq!(first.bytes(), example("first.transcript").as_bytes());
}

#[test]
fn each_status_has_its_name() {
    let first = example("first.script");
    assert_eq!(run("frob").unwrap().status(), Status::BadLines);
    assert_eq!(Options::new().fuel(0).run(&first).unwrap().status(), Status::Usage);
    assert_eq!(Options::new().fuel(1).run(&first).unwrap().status(), Status::Fuel);
    let long = format!("{}\n", "#".repeat(4096)).repeat(4096);
    assert_eq!(run(&long).unwrap().status(), Status::TooLong);
    assert_eq!(Options::new().fuel(0).run(&long).unwrap().status(), Status::Usage);
    for number in 0..8 {
        assert_eq!(Status::of(number).unwrap().number(), number);
    }
    assert_eq!((Status::of(8), Status::of(-1)), (None, None));
}

#[test]
fn options_that_are_refused() {
    for options in [
        Options::new().fuel(200_001),
        Options::new().fuel(u32::MAX),
        Options::new().url("page.test"),
        Options::new().boundary("a-b"),
        Options::new().url(format!("http://h/{}", "a".repeat(300_000))),
        Options::new().boundary("B".repeat(300_000)),
    ] {
        for options in [options.clone(), options.without_library()] {
            let refused = options.run("create $a p").unwrap();
            assert_eq!((refused.status(), refused.transcript()), (Status::Usage, ""));
        }
    }
    assert!(matches!(Options::new().url("http://h/\0").run(""), Err(Error::Nul)));
    assert!(matches!(Options::new().boundary("\0").session(), Err(Error::Nul)));
}

#[test]
fn each_option_says_what_its_word_says() {
    let said =
        Options::new().boundary("0D").url("https://shop.test/").run(example("submission/boundaries.script")).unwrap();
    assert!(said.transcript().contains("boundary=0D") && said.transcript().contains("\"https://shop.test/\""));
    let first = example("first.script");
    assert_eq!(Options::new().url("").boundary("").run(&first).unwrap().bytes(), run(&first).unwrap().bytes());
    let traced = Options::new().trace(true).run(&first).unwrap();
    assert!(traced.transcript().starts_with("~ open 1\n"));
    assert_eq!(run(&first).unwrap().traced().unwrap().bytes(), traced.bytes());
}

#[test]
fn a_script_of_bytes() {
    assert_eq!(run(b"\xff\ncreate $a p").unwrap().transcript(), "1: bad utf8\n2: #2\n");
    assert_eq!(run("").unwrap().transcript(), "");
}

#[test]
fn a_transcript_that_is_long() {
    let script =
        format!("create $a p\ntext $t \"{}\"\nappend $a $t\n{}", "é".repeat(2000), "ask kids $a\n".repeat(9_000));
    let long = run(&script).unwrap();
    assert!(long.bytes().len() > 65_536);
    assert_eq!(long.bytes(), Options::new().without_library().run(&script).unwrap().bytes());
}

#[test]
fn eight_threads_at_once() {
    let script = example("review.script");
    let wanted = [false, true].map(|trace| Options::new().trace(trace).run(&script).unwrap());
    std::thread::scope(|threads| {
        for _ in 0..8 {
            threads.spawn(|| {
                for trace in [false, true, false, true, false, true] {
                    let came = Options::new().trace(trace).run(&script).unwrap();
                    assert_eq!(came.bytes(), wanted[usize::from(trace)].bytes());
                }
            });
        }
    });
}

#[test]
fn what_a_line_did() {
    let component = run(example("component.script")).unwrap();
    let opened = component.command(13);
    assert_eq!((opened.number(), opened.source()), (13, "setattr $card open \"\""));
    assert_eq!(opened.texts(), ["call #3 attribute \"open\" null \"\"", "log \"open\" \"\" \"\"", "13: ok"]);
    assert_eq!(opened.lines().logs(), [["open", "", ""]]);
    assert_eq!((opened.reply(), opened.answer()), (Some(&Reply::Ok), None));
    assert_eq!(component.commands().iter().map(|it| it.number()).take(3).collect::<Vec<_>>(), [7, 9, 10]);
}

#[test]
fn what_an_element_heard() {
    let component = run(example("component.script")).unwrap();
    let card = component.find("create $card x-card")[0].node();
    assert_eq!(card, Node(3));
    let heard: Vec<_> = component.lines().heard(card).into_iter().map(Callback::name).collect();
    assert_eq!(heard, ["connected", "attribute", "attribute", "disconnected"]);
    assert!(component.lines().heard(4).is_empty());
    assert_eq!(component.lines().constructs(), ["Card"]);
    assert_eq!(component.lines().calls().len(), 4);
}

#[test]
fn what_a_form_sent() {
    let review = run(example("review.script")).unwrap();
    let submissions = review.lines().submissions();
    assert_eq!(submissions.len(), 3);
    assert_eq!(submissions[0].form, Node(3));
    assert_eq!(submissions[0].outcome, Outcome::Blocked(Cause::Invalid(vec![Node(5)])));
    let entries = submissions[1].entries().unwrap();
    let wanted = [("title", "Good tea"), ("stars", "4"), ("do", "publish")];
    assert_eq!(entries, wanted.map(|(name, value)| (name.to_string(), value.to_string())));
    assert_eq!(submissions[2].entries(), None);
}

#[test]
fn what_was_reported() {
    let throws = run(example("throws.script")).unwrap();
    assert_eq!(throws.lines().reports().len(), throws.transcript().matches("\nreport ").count());
    assert!(!throws.lines().reports().is_empty());
}

#[test]
fn a_line_that_answers_nothing() {
    let component = run(example("component.script")).unwrap();
    assert!(component.get(2).is_none() && component.get(0).is_none() && component.get(99).is_none());
    assert!(told(|| drop(component.command(2))).contains("a part of a class: class Card"));
    let component = run(example("component.script")).unwrap();
    assert!(told(|| drop(component.command(99))).contains("no line 99"));
    let ended = Options::new().fuel(1).run("ask kids doc\nask kids doc\nask kids doc\n").unwrap();
    assert!(told(|| drop(ended.command(3))).contains("behind the end of the session: ask kids doc"));
}

#[test]
fn the_program_that_is_given_is_started() {
    let given = program_of("cat > /dev/null; echo 'log \"given\"'");
    assert_eq!(Options::new().program(given).run("").unwrap().transcript(), "log \"given\"\n");
}

#[test]
fn a_program_that_is_not_there() {
    let missing = Options::new().program("/nowhere/cepage").run("").unwrap_err();
    assert!(matches!(missing, Error::ProgramMissing { .. }));
    assert!(format!("{missing:?}").contains("no program `/nowhere/cepage`, which Options::program names"));
}

#[test]
fn a_program_that_does_not_start() {
    let file = program_of("");
    for text in ["\x7fELF", "#!/nowhere/sh\n"] {
        let written =
            std::process::Command::new("sh").args(["-c", "printf %s \"$1\" > \"$0\""]).arg(&file).arg(text).status();
        assert!(written.is_ok_and(|it| it.success()));
        let unfit = Options::new().program(&file).run("").unwrap_err();
        assert!(matches!(unfit, Error::ProgramUnfit { .. }), "{unfit}");
        let wanted = format!("the program `{}` of Options::program could not be used: ", file.display());
        assert!(unfit.to_string().starts_with(&wanted), "{unfit}");
    }
}

#[test]
fn a_program_that_dies() {
    let died = |text: &str| Options::new().program(program_of(text)).run("").unwrap_err().to_string();
    assert!(died("kill -9 $$").ends_with("by the signal 9"));
    assert!(died("echo no room >&2; exit 127").ends_with("with status 127: no room"));
}

#[test]
fn the_library_is_there_where_it_was_built_in() {
    assert_eq!(has_library(), option_env!("CEPAGE_ARCHIVE").is_some_and(|it| !it.is_empty()));
}
