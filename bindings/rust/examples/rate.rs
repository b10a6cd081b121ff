//! rate SCRIPT CALLS: how often a second Rust runs a script, by the library where it was built in, by starting the program that
//! CEPAGE names, and how long a line of a session takes.
use cepage::{has_library, run, Error, Options, Session, Status};
use std::time::Instant;

/// How many calls a second.
fn rate(calls: u32, mut call: impl FnMut() -> Result<(), Error>) -> Result<f64, Error> {
    call()?;
    let begun = Instant::now();
    for _ in 0..calls {
        call()?;
    }
    Ok(f64::from(calls) / begun.elapsed().as_secs_f64())
}

fn session(text: &str) -> Result<(), Error> {
    let mut page = Session::new()?;
    page.feed(text)?;
    page.close().map(drop)
}

fn main() -> Result<(), Error> {
    let mut words = std::env::args().skip(1);
    let text = std::fs::read_to_string(words.next().unwrap_or_default())?;
    let calls: u32 = words.next().and_then(|word| word.parse().ok()).unwrap_or(1000);
    let starts = (calls / 20).max(20);
    run(&text)?.expect_status(Status::Done);
    let mut told = Vec::new();
    if has_library() {
        told.push(format!("{:.0} calls a second", rate(calls, || run(&text).map(drop))?));
        told.push(format!("{:.0} with the lines read", rate(calls, || run(&text).map(|it| _ = it.lines().len()))?));
    }
    told.push(format!("{:.0} starts", rate(starts, || Options::new().without_library().run(&text).map(drop))?));
    told.push(format!("{:.0} sessions", rate(starts, || session(&text))?));
    let mut page = Options::new().fuel(200_000).session()?;
    page.command("create $a p")?;
    let lines = rate(calls, || page.command("setattr $a title x").map(drop))?;
    told.push(format!("{:.1} microseconds a line of one", 1e6 / lines));
    println!("rate from Rust: {}", told.join(", "));
    Ok(())
}
