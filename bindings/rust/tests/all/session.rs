//! A session.
use crate::support::{example, program_of};
use cepage::{Answer, Error, Node, Options, Session, Status};
use std::path::Path;

const CARD: &str = "class Card\non Card connected : log in\n\n# the class is whole\ndefine x-card Card\n";

fn is_running(process: u32) -> bool {
    Path::new(&format!("/proc/{process}")).exists()
}

#[test]
fn a_command_gives_what_it_wrote() {
    let mut page = Session::new().unwrap();
    page.feed(CARD).unwrap();
    page.feed("create $html html\nappend doc $html\ncreate $card x-card\n").unwrap();
    let came = page.command("append $html $card").unwrap();
    assert_eq!(came.texts(), ["call #3 connected", "log \"in\"", "9: ok"]);
    let places: Vec<_> = came.lines().iter().map(|line| (line.number, line.command)).collect();
    assert_eq!(places, [(6, Some(9)), (7, Some(9)), (8, Some(9))]);
    assert_eq!(page.command("ask parent $card").unwrap().answer(), Some(&Answer::Node(Node(2))));
    assert_eq!(page.close().unwrap().status(), Status::Done);
}

#[test]
fn an_example_is_what_it_is_in_one_piece() {
    for (name, trace) in [("review", true), ("faults", false), ("component", false), ("tabs", false)] {
        let mut page = Options::new().trace(trace).session().unwrap();
        page.feed(&example(&format!("{name}.script"))).unwrap();
        let whole = page.close().unwrap();
        assert_eq!(whole.transcript(), example(&format!("{name}.transcript")));
        assert_eq!(whole.status(), if name == "faults" { Status::BadLines } else { Status::Done });
    }
}

#[test]
fn some_lines_are_not_waited_for() {
    let mut page = Session::new().unwrap();
    let parts =
        ["class A", "on A connected : log in", "observe A k", " has A adopted", "associate A", "disable A shadow"];
    for line in ["", "  ", "# a comment", "  # another"].into_iter().chain(parts) {
        let came = page.command(line).unwrap();
        assert!(came.lines().is_empty() && came.reply().is_none());
    }
    assert_eq!(page.line(), 10);
    assert_eq!(page.command("define x-a A").unwrap().texts(), ["11: ok"]);
}

#[test]
fn a_refused_part_is_answered_with_the_next_command() {
    let mut page = Session::new().unwrap();
    assert!(page.command("on A connected : user press this").unwrap().lines().is_empty());
    assert!(page.command("observe A k").unwrap().lines().is_empty());
    let came = page.command("create $a p").unwrap();
    assert_eq!(came.texts(), ["1: bad place", "2: throw TypeError", "3: #2"]);
    assert_eq!(came.lines().iter().filter_map(|line| line.command).collect::<Vec<_>>(), [1, 2, 3]);
    assert_eq!(came.node(), Node(2));
    page.command("has B connected").unwrap();
    assert_eq!(page.close().unwrap().transcript(), "1: bad place\n2: throw TypeError\n3: #2\n4: throw TypeError\n");
}

#[test]
fn a_refused_line_is_answered() {
    let mut page = Session::new().unwrap();
    assert_eq!(page.command("frob").unwrap().texts(), ["1: bad word"]);
    assert_eq!(page.command(&format!("text $t {}", "x".repeat(5000))).unwrap().texts(), ["2: bad long"]);
    assert_eq!(page.command("class\tA").unwrap().texts(), ["3: bad word"]);
}

#[test]
fn a_line_feed_is_refused() {
    let mut page = Session::new().unwrap();
    assert!(matches!(page.command("create $a p\ncreate $b p"), Err(Error::LineFeed)));
    assert_eq!(page.command("create $a p").unwrap().texts(), ["1: #2"]);
}

#[test]
fn many_refused_parts_do_not_hang() {
    let mut page = Session::new().unwrap();
    for _ in 0..8_000 {
        page.command(&format!("class a{}", " ".repeat(40))).unwrap();
    }
    let came = page.command("create $a p").unwrap();
    assert_eq!((came.lines().len(), came.node()), (8_001, Node(2)));
}

#[test]
fn the_fuel_ends_it() {
    let mut page = Options::new().fuel(2).trace(true).session().unwrap();
    assert_eq!(page.command("create $a p").unwrap().texts()[0], "~ open 1");
    let spent = page.command("create $a p").unwrap();
    assert_eq!((spent.texts(), spent.reply()), (vec!["fuel"], None));
    assert_eq!(spent.lines()[0].command, Some(2));
    assert!(!is_running(page.process()));
    let over = page.command("create $a p").unwrap_err();
    assert!(matches!(over, Error::SessionEnded { status: Some(Status::Fuel), .. }));
    assert!(over.to_string().contains("the fuel was spent in line 2: create $a p"));
    assert_eq!(page.close().unwrap().status(), Status::Fuel);
}

#[test]
fn the_fuel_ends_one_that_reads_on() {
    let program = program_of("read line; echo fuel; cat > /dev/null; exit 3");
    let mut page = Options::new().program(program).session().unwrap();
    assert_eq!(page.command("create $a p").unwrap().texts(), ["fuel"]);
    let over = page.command("create $b p").unwrap_err();
    assert!(matches!(over, Error::SessionEnded { status: Some(Status::Fuel), .. }));
}

#[test]
fn refused_options_end_it() {
    let mut page = Options::new().boundary("a-b").session().unwrap();
    let over = page.command("create $a p").unwrap_err();
    assert!(matches!(over, Error::SessionEnded { status: Some(Status::Usage), .. }));
    assert!(over.to_string().contains("with status 2, Usage, at line 1: create $a p"));
    assert_eq!(page.close().unwrap().status(), Status::Usage);
}

#[test]
fn a_dead_program_is_told() {
    let program = program_of("read line; echo 'log \"in\"'; kill -9 $$");
    let mut page = Options::new().program(program).session().unwrap();
    for _ in 0..2 {
        let over = page.command("create $a p").unwrap_err();
        assert!(over.to_string().contains("by the signal 9, at line 1: create $a p"), "{over}");
    }
    assert!(matches!(page.close(), Err(Error::ProgramDied { .. })));
}

#[test]
fn a_program_that_is_killed_between_two_lines() {
    let mut page = Session::new().unwrap();
    page.command("create $a p").unwrap();
    let kill = std::process::Command::new("kill").arg("-9").arg(page.process().to_string()).status();
    assert!(kill.is_ok_and(|it| it.success()));
    page.command("class A").unwrap();
    assert!(page.command("create $b p").unwrap_err().to_string().contains("by the signal 9"));
}

#[test]
fn a_script_that_is_too_long() {
    let mut page = Session::new().unwrap();
    let comment = "#".repeat(1_000_000);
    let mut talk =
        || (0..20).try_for_each(|_| page.command(&comment).map(drop)).and_then(|()| page.command("create $a p"));
    assert!(talk().unwrap_err().to_string().contains("TooLong"));
    assert_eq!(page.close().unwrap().status(), Status::TooLong);
    let told = Session::new().unwrap().command(&"a".repeat(17_000_000)).unwrap_err().to_string();
    assert!(told.contains("TooLong, at line 1: aaaa") && told.ends_with(" … and 16999700 characters more"));
    assert!(told.len() < 500);
}

#[test]
fn no_process_is_left() {
    let mut page = Session::new().unwrap();
    page.command("create $a p").unwrap();
    let process = page.process();
    assert!(is_running(process));
    drop(page);
    assert!(!is_running(process));
    let page = Session::new().unwrap();
    let process = page.process();
    page.close().unwrap();
    assert!(!is_running(process));
}

#[test]
fn one_that_does_not_end_is_killed() {
    let page = Options::new().program(program_of("exec sleep 600")).session().unwrap();
    let process = page.process();
    drop(page);
    assert!(!is_running(process));
}

#[test]
fn a_line_that_is_cut_off_is_kept() {
    let program = program_of("read line; printf '1: #2\\n2: #'; exit 6");
    let mut page = Options::new().program(program).session().unwrap();
    assert_eq!(page.command("create $a p").unwrap().node(), Node(2));
    let over = page.command("create $b p").unwrap_err();
    assert!(over.to_string().contains("with status 6, NoMemory, at line 2: create $b p"), "{over}");
    let whole = page.close().unwrap();
    assert_eq!((whole.status(), whole.transcript()), (Status::NoMemory, "1: #2\n2: #"));
}
