//! What a form sent: the entries of a URL's query, or of a body.
use crate::lines::{Outcome, Submit};

const URLENCODED: &str = "application/x-www-form-urlencoded";
const MULTIPART: &str = "multipart/form-data; boundary=";
const NAME: &str = "\r\nContent-Disposition: form-data; name=\"";

impl Submit {
    /// The names and values that were sent, in order. None of one that is blocked, and of a plain text that tells no entries.
    pub fn entries(&self) -> Option<Vec<(String, String)>> {
        match &self.outcome {
            Outcome::Get { url } => entries_sent(url, None),
            Outcome::Post { url, media_type, body } => entries_sent(url, Some((media_type, body))),
            Outcome::Blocked(_) => None,
        }
    }
}

/// The names and values that were sent to a URL: in its query, or in a body of this type. None where they can't be told.
pub fn entries_sent(url: &str, body: Option<(&str, &str)>) -> Option<Vec<(String, String)>> {
    let Some((media_type, body)) = body else {
        let (front, _) = url.split_once('#').unwrap_or((url, ""));
        return Some(urlencoded(front.split_once('?').map_or("", |(_, query)| query)));
    };
    match media_type {
        URLENCODED => Some(urlencoded(body)),
        "text/plain" => plain(body),
        _ => multipart(body, media_type.strip_prefix(MULTIPART)?),
    }
}

fn urlencoded(text: &str) -> Vec<(String, String)> {
    let pairs = text.split('&').filter(|pair| !pair.is_empty());
    pairs
        .map(|pair| pair.split_once('=').unwrap_or((pair, "")))
        .map(|(name, value)| (decoded(name), decoded(value)))
        .collect()
}

fn decoded(text: &str) -> String {
    let bytes = text.as_bytes();
    let mut out = Vec::with_capacity(bytes.len());
    let mut at = 0;
    while at < bytes.len() {
        let hexadecimal = text.get(at + 1..at + 3).filter(|it| it.bytes().all(|sign| sign.is_ascii_hexdigit()));
        match (bytes[at], hexadecimal.and_then(|it| u8::from_str_radix(it, 16).ok())) {
            (b'%', Some(byte)) => {
                out.push(byte);
                at += 2;
            }
            (b'+', _) => out.push(b' '),
            (byte, _) => out.push(byte),
        }
        at += 1;
    }
    String::from_utf8_lossy(&out).into_owned()
}

/// A line for each entry. A name with `=`, or a line end in a name or a value, makes it the body of other entries, or of none.
fn plain(body: &str) -> Option<Vec<(String, String)>> {
    let mut lines: Vec<&str> = body.split("\r\n").collect();
    lines.pop().filter(|rest| rest.is_empty())?;
    lines.into_iter().map(|line| cut_in_two(line, "=")).collect()
}

/// The parts between the boundaries. In a name `%22`, `%0D` and `%0A` stay as they were sent: they may have been typed.
fn multipart(body: &str, boundary: &str) -> Option<Vec<(String, String)>> {
    let whole = format!("\r\n{body}");
    let mut parts: Vec<&str> = whole.split(&format!("\r\n--{boundary}")).collect();
    parts.pop().filter(|rest| *rest == "--\r\n")?;
    let (first, parts) = parts.split_first()?;
    let cut = |part: &&str| part.strip_prefix(NAME).and_then(|rest| cut_in_two(rest, "\"\r\n\r\n"));
    first.is_empty().then(|| parts.iter().map(cut).collect())?
}

fn cut_in_two(text: &str, sign: &str) -> Option<(String, String)> {
    text.split_once(sign).map(|(name, value)| (name.into(), value.into()))
}
