//! The tokens of a transcript's line.
use crate::lines::Node;

/// A quoted text, a node, or any other token.
#[derive(Debug)]
pub(crate) enum Token<'a> {
    Text(String),
    Node(Node),
    Word(&'a str),
}

/// The tokens of a line, with one space between them.
pub(crate) fn tokens_of(line: &str) -> Option<Vec<Token<'_>>> {
    let mut tokens = Vec::new();
    let mut rest = line;
    loop {
        let (token, behind) = token_of(rest)?;
        tokens.push(token);
        if behind.is_empty() {
            return Some(tokens);
        }
        rest = behind.strip_prefix(' ')?;
    }
}

fn token_of(rest: &str) -> Option<(Token<'_>, &str)> {
    if let Some(quoted) = rest.strip_prefix('"') {
        return text_of(quoted).map(|(text, behind)| (Token::Text(text), behind));
    }
    let (token, behind) = rest.split_at(rest.find([' ', '"']).unwrap_or(rest.len()));
    if let Some(digits) = token.strip_prefix('#') {
        return Some((Token::Node(Node(number_of(digits)?)), behind));
    }
    (!token.is_empty() && !token.contains('"')).then_some((Token::Word(token), behind))
}

/// The text up to the next quote, and what stands behind that.
fn text_of(quoted: &str) -> Option<(String, &str)> {
    let mut text = String::new();
    let mut rest = quoted;
    loop {
        let at = rest.find(|sign: char| matches!(sign, '"' | '\\' | '\0'..='\x1f' | '\x7f'))?;
        text.push_str(&rest[..at]);
        let behind = &rest[at + 1..];
        match rest.as_bytes()[at] {
            b'"' => return Some((text, behind)),
            b'\\' => {
                let (sign, behind) = escape_of(behind)?;
                text.push(sign);
                rest = behind;
            }
            _ => return None,
        }
    }
}

/// The character that an escape says, and what stands behind it. A transcript has `\u{h}` for the control characters that have
/// no sign of their own.
fn escape_of(rest: &str) -> Option<(char, &str)> {
    let sign = rest.chars().next()?;
    let behind = &rest[sign.len_utf8()..];
    let said = match sign {
        '"' | '\\' => sign,
        'n' => '\n',
        'r' => '\r',
        't' => '\t',
        'u' => {
            let (digits, behind) = behind.strip_prefix('{')?.split_once('}')?;
            let code = u8::from_str_radix(digits, 16).ok()?;
            let fits = matches!(code, 0..=8 | 11 | 12 | 14..=31 | 127) && digits == format!("{code:x}");
            return fits.then_some((char::from(code), behind));
        }
        _ => return None,
    };
    Some((said, behind))
}

/// A number in decimal. Numbers of more digits stand in no transcript, and not every language could hold them.
pub(crate) fn number_of(digits: &str) -> Option<u64> {
    let fits = digits == "0" || (1..=15).contains(&digits.len()) && !digits.starts_with('0');
    if fits && digits.bytes().all(|it| it.is_ascii_digit()) {
        digits.parse().ok()
    } else {
        None
    }
}

/// The number of the script's line to which this line is the reply.
pub(crate) fn replied(line: &str) -> Option<usize> {
    let (digits, _) = line.split_once(':')?;
    number_of(digits).and_then(|number| usize::try_from(number).ok())
}
