//! What changes in a source, and what comes out with its layout kept.

use std::ops::Range;

#[derive(Debug)]
struct Edit {
    range: Range<usize>,
    text: String,
    /// Whether the lines go on which nothing else stands.
    is_of_lines: bool,
}

/// The changes of a source.
#[derive(Debug, Default)]
pub(crate) struct Edits(Vec<Edit>);

impl Edits {
    /// Other text in a place. Where two changes overlap, the one that begins first holds.
    pub fn replace(&mut self, range: Range<usize>, text: impl Into<String>) {
        self.0.push(Edit { range, text: text.into(), is_of_lines: false });
    }

    pub fn insert(&mut self, at: usize, text: impl Into<String>) {
        self.replace(at..at, text);
    }

    pub fn delete(&mut self, range: Range<usize>) {
        self.replace(range, "");
    }

    /// Takes out an item with the lines that it stands on alone.
    pub fn delete_lines(&mut self, range: Range<usize>) {
        self.0.push(Edit { range, text: String::new(), is_of_lines: true });
    }

    /// The source with its changes.
    pub fn apply(mut self, source: &str) -> String {
        // Of two that begin at one place, what is inserted comes first.
        self.0.sort_by_key(|edit| (edit.range.start, edit.range.end));
        let (mut out, mut at) = (String::with_capacity(source.len()), 0);
        for edit in self.0 {
            if edit.range.start < at {
                continue;
            }
            out.push_str(&source[at..edit.range.start]);
            out.push_str(&edit.text);
            at = edit.range.end;
            if edit.is_of_lines {
                at += close_up(&mut out, &source[at..]);
            }
        }
        out.push_str(&source[at..]);
        out
    }
}

/// Closes the gap between what is out and the rest, which stood after lines that went: how much of the rest goes. One
/// blank line stays between items, and none beside the brackets around them.
fn close_up(out: &mut String, rest: &str) -> usize {
    let blank = |line: &str| line.trim().is_empty();
    let (line, _) = rest.split_once('\n').unwrap_or((rest, ""));
    let indent = out.len() - out.trim_end_matches([' ', '\t']).len();
    let is_alone = out.len() == indent || out[..out.len() - indent].ends_with('\n');
    if !is_alone || !blank(line) {
        return 0;
    }
    out.truncate(out.len() - indent);
    let mut gone = (line.len() + 1).min(rest.len());
    let begins = out.is_empty() || out.ends_with("\n\n") || out.trim_end().ends_with('{');
    while let Some((line, _)) =
        rest[gone..].split_once('\n').filter(|(line, _)| begins && blank(line))
    {
        gone += line.len() + 1;
    }
    let next = rest[gone..].trim_start();
    if next.is_empty() || next.starts_with('}') {
        out.truncate(out.trim_end().len());
        match next.starts_with('}') && out.ends_with('{') {
            true => gone = rest.len() - next.len(),
            false if !out.is_empty() => out.push('\n'),
            false => {}
        }
    }
    gone
}

#[cfg(test)]
mod tests {
    use super::*;

    // What is left of a source where `x` and `y` go.
    fn left(source: &str) -> String {
        let mut edits = Edits::default();
        for (at, _) in source.match_indices(['x', 'y']) {
            edits.delete_lines(at..at + 1);
        }
        edits.apply(source)
    }

    #[test]
    fn one_blank_line_stays() {
        assert_eq!(left("a\n\nx\n\nb\n"), "a\n\nb\n");
        assert_eq!(left("a\n\nx\ny\n\nb\n"), "a\n\nb\n");
        assert_eq!(left("a\nx\n\nb\n"), "a\n\nb\n");
        assert_eq!(left("a\nx\nb\n"), "a\nb\n");
    }

    #[test]
    fn none_stays_beside_brackets() {
        assert_eq!(left("a {\n    x\n\n    b\n}\n"), "a {\n    b\n}\n");
        assert_eq!(left("a {\n    b\n\n    x\n}\n"), "a {\n    b\n}\n");
        assert_eq!(left("a {\n    x\n}\n"), "a {}\n");
    }

    #[test]
    fn what_stands_beside_others_leaves_their_line() {
        assert_eq!(left("a { b, x }"), "a { b,  }");
    }

    #[test]
    fn the_first_of_two_holds() {
        let mut edits = Edits::default();
        edits.delete(0..4);
        edits.replace(1..2, "z");
        assert_eq!(edits.apply("abcdef"), "ef");
    }
}
