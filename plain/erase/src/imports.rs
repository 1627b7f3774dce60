//! Imports, of which those go that only contracts use.

use crate::eraser::Eraser;
use crate::Refusal;
use std::ops::Range;

/// A private `use`, by the indexes of its tokens.
#[derive(Debug)]
pub(crate) struct Import {
    first: usize,
    end: usize,
    /// What is imported: the group in braces, or the last name.
    names: Range<usize>,
    /// Each name of it.
    leaves: Vec<Range<usize>>,
}

impl<'a> Eraser<'a> {
    /// A `use`. What of it goes is decided at the end.
    pub fn import(&mut self, first: usize) -> Result<(), Refusal> {
        let is_private = self.at == first;
        self.at += 1;
        let begin = self.at;
        self.go_to(&[";"], self.tokens.len())?;
        let end = self.at;
        self.at += 1;
        self.path(begin)?;
        if is_private {
            let names = self.names_of(begin, end);
            let leaves = self.leaves_of(names.clone());
            self.imports.push(Import { first, end: self.at, names, leaves });
        }
        Ok(())
    }

    // The group of an import, or its last name.
    fn names_of(&self, begin: usize, end: usize) -> Range<usize> {
        let mut names = begin;
        let mut index = begin;
        while index < end {
            if self.text_at(index) == "::" {
                names = index + 1;
            }
            index = self.tokens[index].close + 1;
        }
        names..end
    }

    fn leaves_of(&self, names: Range<usize>) -> Vec<Range<usize>> {
        if self.text_at(names.start) != "{" {
            return vec![names];
        }
        let (mut leaves, mut from) = (Vec::new(), names.start + 1);
        let mut index = from;
        while index < names.end {
            if [",", "}"].contains(&self.text_at(index)) {
                if from < index {
                    leaves.push(from..index);
                }
                from = index + 1;
            }
            index = self.tokens[index].close + 1;
        }
        leaves
    }

    /// Takes out what no code uses: `Model`, and constants that contracts alone name.
    pub fn clean_imports(&mut self) {
        for import in std::mem::take(&mut self.imports) {
            let (gone, kept): (Vec<_>, Vec<_>) =
                import.leaves.iter().partition(|leaf| self.is_of_contracts(leaf));
            let kept: Vec<&str> = kept.into_iter().map(|leaf| self.texts(leaf)).collect();
            let gone: Vec<_> = gone
                .into_iter()
                .map(|leaf| (self.texts(leaf), self.path_to(&import, leaf)))
                .collect();
            self.gone.extend(gone);
            let names = self.tokens[import.names.start].at..self.tokens[import.names.end - 1].end();
            match kept[..] {
                _ if kept.len() == import.leaves.len() => {}
                [] => {
                    let range = self.leads_of(import.first)..self.tokens[import.end - 1].end();
                    self.edits.delete_lines(range);
                }
                [one] => self.edits.replace(names, one),
                _ => self.edits.replace(names, format!("{{{}}}", kept.join(", "))),
            }
        }
    }

    // The path of what is imported, as it becomes. It was refused before where it isn't known.
    fn path_to(&self, import: &Import, leaf: &Range<usize>) -> String {
        let begin = import.first + 1;
        let first = self.text_at(begin);
        let becomes = self.names.first(first, self.text_at(begin + 2)).ok().flatten();
        let rest: String =
            (begin + 1..import.names.start).map(|index| self.text_at(index)).collect();
        format!("{}{rest}{}", becomes.as_deref().unwrap_or(first), self.texts(leaf))
    }

    fn is_of_contracts(&self, leaf: &Range<usize>) -> bool {
        let name = self.text_at(leaf.end - 1);
        let is_constant =
            name.chars().all(|c| c == '_' || c.is_ascii_uppercase() || c.is_ascii_digit());
        name == "Model" || is_constant && self.said.contains(name) && !self.used.contains(name)
    }

    fn texts(&self, range: &Range<usize>) -> &'a str {
        &self.source[self.tokens[range.start].at..self.tokens[range.end - 1].end()]
    }
}

#[cfg(test)]
mod tests {
    use crate::tests::erased;

    #[test]
    fn models() {
        assert_eq!(erased("use std::marker::Model;\nuse a::B;\n"), "use a::B;\n");
        assert_eq!(
            erased("use std::marker::{Model, PhantomData};\n"),
            "use core::marker::PhantomData;\n"
        );
    }

    #[test]
    fn constants_of_contracts() {
        let used = "fn f(x: u8)\n    requires { x ≤ MAX }\n{\n    x;\n}\n";
        assert_eq!(
            erased(&format!("use a::{{B, C, MAX}};\n\n{used}")),
            "use a::{B, C};\n\nfn f(x: u8) {\n    x;\n}\n"
        );
        assert_eq!(
            erased(&format!("use a::MAX;\nuse a::B;\n\n{used}")),
            "use a::B;\n\nfn f(x: u8) {\n    x;\n}\n"
        );
    }

    #[test]
    fn constants_that_code_names_stay() {
        let source = "use a::{B, MAX};\n\nfn f(x: [u8; MAX]) {}\n";
        assert_eq!(erased(source), source);
        let public = "pub use a::{B, MAX};\n";
        assert_eq!(erased(public), public);
    }
}
