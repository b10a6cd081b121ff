//! What the text of a script tells before it is run: its lines, and which of them are answered.
const CLASS_PARTS: [&str; 6] = ["class", "on", "observe", "has", "associate", "disable"];

/// The lines of a text: it is cut at each line feed alone, and what stands behind the last one counts where it is not empty.
pub(crate) fn cut_lines(text: &str) -> Vec<&str> {
    let mut lines: Vec<&str> = text.split('\n').collect();
    if lines.last() == Some(&"") {
        lines.pop();
    }
    lines
}

/// Whether a line answers nothing where it is accepted: a blank one, a comment, and a part of a class.
pub(crate) fn is_unanswered(line: &str) -> bool {
    let rest = line.trim_start_matches(' ');
    rest.is_empty() || rest.starts_with('#') || CLASS_PARTS.contains(&rest.split(' ').next().unwrap_or(""))
}

/// The number of the first command behind a line: what a transcript has last, without a reply, belongs to it.
pub(crate) fn next_command(lines: &[&str], behind: usize) -> Option<usize> {
    (behind..lines.len()).find(|at| !is_unanswered(lines[*at])).map(|at| at + 1)
}
