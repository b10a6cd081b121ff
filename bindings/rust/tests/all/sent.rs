//! What a form sent.
use crate::support::example;
use cepage::{entries_sent, run, Outcome};

const URLENCODED: &str = "application/x-www-form-urlencoded";
const MULTIPART: &str = "multipart/form-data; boundary=B";

fn owned(entries: &[(&str, &str)]) -> Vec<(String, String)> {
    entries.iter().map(|(name, value)| (name.to_string(), value.to_string())).collect()
}

fn part(name: &str, value: &str) -> String {
    format!("--B\r\nContent-Disposition: form-data; name=\"{name}\"\r\n\r\n{value}\r\n")
}

#[test]
fn a_query() {
    for (url, entries) in [
        ("http://h/?a=b+c&d=%26%C3%A1#e?f=g", vec![("a", "b c"), ("d", "&á")]),
        ("http://h/?", vec![]),
        ("http://h/", vec![]),
        ("http://h/??a=b", vec![("?a", "b")]),
        ("http://h/?=&a=", vec![("", ""), ("a", "")]),
        ("http://h/?a=%zz%4&b=%+1&c=%é1", vec![("a", "%zz%4"), ("b", "% 1"), ("c", "%é1")]),
    ] {
        assert_eq!(entries_sent(url, None), Some(owned(&entries)), "{url}");
    }
}

#[test]
fn a_body() {
    let parts = format!("{}{}--B--\r\n", part("a%22\\", "x\r\n--C\r\n"), part("", "é"));
    for (media_type, body, entries) in [
        (URLENCODED, "a=b+c&a=%3D", Some(vec![("a", "b c"), ("a", "=")])),
        (URLENCODED, "", Some(vec![])),
        ("text/plain", "a=b=c\r\nd=\r\n", Some(vec![("a", "b=c"), ("d", "")])),
        ("text/plain", "", Some(vec![])),
        ("text/plain", "a\r\nb=c\r\n", None),
        ("text/plain", "a=b", None),
        (MULTIPART, &parts, Some(vec![("a%22\\", "x\r\n--C\r\n"), ("", "é")])),
        (MULTIPART, "--B--\r\n", Some(vec![])),
        (MULTIPART, &part("a", "b"), None),
        (MULTIPART, "--B\r\n\r\nb\r\n--B--\r\n", None),
        (MULTIPART, &format!("x\r\n{}--B--\r\n", part("a", "b")), None),
        (MULTIPART, &format!("{}--B--\r\n", part("a", "b").replace("form", "from")), None),
        (MULTIPART, "", None),
        ("application/json", "{}", None),
    ] {
        assert_eq!(entries_sent("http://h/", Some((media_type, body))), entries.map(|it| owned(&it)), "{body}");
    }
}

#[test]
fn a_form_that_sends_by_each_encoding() {
    let sent = run(example("submission/encodings.script")).unwrap();
    let entries = [("full name", "Ána Lee"), ("note", "50% & more\r\n1 + 1 = 2"), ("a\"b\r\nc", "*-._~")];
    let mut types = Vec::new();
    for submit in sent.lines().submissions() {
        let media_type = if let Outcome::Post { media_type, .. } = &submit.outcome { media_type } else { "" };
        let wanted = match media_type {
            "" | URLENCODED => Some(owned(&entries)),
            "text/plain" => None,
            _ => Some(owned(&[entries[0], entries[1], ("a%22b%0D%0Ac", "*-._~")])),
        };
        assert_eq!(submit.entries(), wanted, "{media_type}");
        types.push(media_type);
    }
    types.sort_unstable();
    types.dedup();
    assert_eq!(types.len(), 4);
}
