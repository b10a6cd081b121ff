//! Failures that read well.
const MOST_LINES: usize = 200;

/// The title, and the lines below it, set in; of very many the first ones.
pub(crate) fn block<T: AsRef<str>>(title: &str, lines: &[T]) -> Vec<String> {
    block_from(0, title, lines)
}

/// The same, where the lines before a place are left out.
pub(crate) fn block_from<T: AsRef<str>>(first: usize, title: &str, lines: &[T]) -> Vec<String> {
    let mut block = vec![title.to_string()];
    if first > 0 {
        block.push(format!("    behind {first} lines"));
    }
    block.extend(lines.iter().skip(first).take(MOST_LINES).map(|line| format!("    {}", line.as_ref())));
    if lines.is_empty() {
        block.push("    nothing".into());
    }
    if lines.len() > first + MOST_LINES {
        block.push(format!("    and {} lines more", lines.len() - first - MOST_LINES));
    }
    block
}

/// Where the first one stands that differs.
pub(crate) fn place<T: PartialEq>(expected: &[T], came: &[T]) -> usize {
    expected.iter().zip(came).take_while(|(one, other)| one == other).count()
}

/// From where on lines are told, so that those about a place are: from the first on, unless there are very many.
pub(crate) fn told_from(at: usize, lines: usize) -> usize {
    if lines > MOST_LINES {
        at.saturating_sub(MOST_LINES / 2)
    } else {
        0
    }
}

/// What was expected and what came, with a sign before the first line that differs; of very many lines those about it.
pub(crate) fn differing(expected: &[&str], came: &[&str]) -> Vec<String> {
    let at = place(expected, came);
    let marked = |lines: &[&str]| -> Vec<String> {
        lines.iter().enumerate().map(|(k, line)| format!("{} {line}", if k == at { '>' } else { ' ' })).collect()
    };
    let first = told_from(at, expected.len().max(came.len()));
    [block_from(first, "expected:", &marked(expected)), block_from(first, "came:", &marked(came))].concat()
}

/// A trace as an outline: what stands deeper ran within what stands around it.
pub(crate) fn indented(trace: &[&str]) -> Vec<String> {
    let mut depth: usize = 0;
    let outline = trace.iter().map(|line| {
        let word = line.strip_prefix("~ ").and_then(|rest| rest.split(' ').next()).unwrap_or("");
        if matches!(word, "finish" | "done" | "threw" | "close") {
            depth = depth.saturating_sub(1);
        }
        let shown = format!("{}{line}", "  ".repeat(depth));
        if matches!(word, "open" | "start" | "up") || *line == "~ drain 0" {
            depth += 1;
        }
        shown
    });
    outline.collect()
}
