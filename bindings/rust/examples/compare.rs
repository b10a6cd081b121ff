//! compare LIST CASES LINES [library]: runs each case of the list, by the library where that is said, and else by the program that
//! CEPAGE names. A row of the list has its name, its status, its script and its words, with tabs between them; the bytes have to be
//! those of CASES/NAME. Writes to LINES what the reader makes of each transcript, for the other languages to be held against.
use cepage::{has_library, Kind, Line, Options};
use std::error::Error;
use std::fs;
use std::path::Path;

/// The options that words say.
fn options_of<'a>(mut words: impl Iterator<Item = &'a str>) -> Result<Options, Box<dyn Error>> {
    let mut options = Options::new();
    while let Some(word) = words.next() {
        let mut value = || words.next().ok_or("a value is missing");
        options = match word {
            "--trace" => options.trace(true),
            "--fuel" => options.fuel(value()?.parse()?),
            "--url" => options.url(value()?),
            "--boundary" => options.boundary(value()?),
            _ => return Err(word.into()),
        };
    }
    Ok(options)
}

fn hex(text: &str) -> String {
    text.bytes().map(|byte| format!("{byte:02x}")).collect()
}

fn kind_of(kind: &Kind) -> &'static str {
    match kind {
        Kind::Construct(_) => "construct",
        Kind::Call(..) => "call",
        Kind::Log(_) => "log",
        Kind::Ask(_) => "ask",
        Kind::Submit(_) => "submit",
        Kind::Caught(_) => "caught",
        Kind::Report(_) => "report",
        Kind::Reply(_) => "reply",
        Kind::Fuel => "fuel",
        Kind::Trace(_) => "trace",
        Kind::Other => "other",
    }
}

/// The number of its command, its kind, and what a form sent.
fn told(line: &Line) -> String {
    let entries = if let Kind::Submit(submit) = &line.kind { submit.entries() } else { None };
    let sent = entries.map_or(String::new(), |entries| {
        let each = entries.iter().map(|(name, value)| format!(" {}={}", hex(name), hex(value)));
        format!(" sent{}", each.collect::<String>())
    });
    format!("{} {}{sent}\n", line.command.unwrap_or(0), kind_of(&line.kind))
}

/// What is wrong with a case, if something is, and what the reader makes of it.
fn compare(row: &str, cases: &Path, by_library: bool) -> Result<(Option<String>, String), Box<dyn Error>> {
    let mut parts = row.split('\t');
    let mut part = || parts.next().ok_or("a part of the row is missing");
    let (name, status, script) = (part()?, part()?.parse::<i32>()?, part()?);
    let options = options_of(parts)?;
    let options = if by_library { options } else { options.without_library() };
    let came = options.run(fs::read(script)?)?;
    let mut made = format!("{name}\n");
    made.extend(came.lines().iter().map(told));
    let other = came.lines().iter().find(|line| line.kind == Kind::Other);
    let why = if came.status().number() != status {
        Some(format!("{name}: the status is {}", came.status()))
    } else if came.bytes() != fs::read(cases.join(name))? {
        Some(format!("{name}: the transcript differs"))
    } else {
        other.map(|line| format!("{name}: a line is not known: {}", line.text))
    };
    Ok((why, made))
}

fn main() -> Result<(), Box<dyn Error>> {
    let words: Vec<String> = std::env::args().skip(1).collect();
    let [list, cases, lines, rest @ ..] = words.as_slice() else {
        return Err("compare LIST CASES LINES [library]".into());
    };
    let by_library = rest == ["library"];
    if by_library && !has_library() {
        return Err("the crate was built without the library".into());
    }
    let list = fs::read_to_string(list)?;
    let (mut out, mut failed) = (String::new(), 0);
    for row in list.lines() {
        let (why, made) = compare(row, Path::new(cases), by_library)?;
        out += &made;
        if let Some(why) = why {
            println!("{why}");
            failed += 1;
        }
    }
    fs::write(lines, out)?;
    let door = if by_library { "library" } else { "program" };
    println!("rust, {door}: {} runs, {failed} differ", list.lines().count());
    if failed > 0 || list.is_empty() {
        std::process::exit(1);
    }
    Ok(())
}
