//! Attributes: those of the prover go.

use crate::eraser::Eraser;
use crate::Refusal;

/// What the attributes of an item say.
#[derive(Clone, Copy, Debug, Default)]
pub(crate) struct Attributes {
    pub is_test: bool,
    pub derives_without_bounds: bool,
}

/// Those that are Rust's, and stay.
const OF_RUST: [&str; 6] = ["cold", "inline", "must_use", "non_exhaustive", "repr", "unsafe"];

/// Traits that Rust derives.
const DERIVED: [&str; 8] =
    ["Clone", "Copy", "Debug", "Default", "Eq", "Ord", "PartialEq", "PartialOrd"];

impl<'a> Eraser<'a> {
    /// The attributes in front of an item.
    pub fn attributes(&mut self) -> Result<Attributes, Refusal> {
        let mut all = Attributes::default();
        while self.text(0) == "#" {
            let first = self.at;
            self.at += 1;
            let inner = self.group("[")?;
            let after = self.at;
            self.at = inner.start;
            match self.text(0) {
                "tactic" => {
                    self.at = after;
                    self.delete_line_of(first);
                }
                "test" => all.is_test = true,
                "derive" => self.derived(first, after)?,
                "derive_where" => {
                    self.without_bounds(after)?;
                    self.delete_line_of(first);
                    all.derives_without_bounds = true;
                }
                name if OF_RUST.contains(&name) => {}
                _ => return self.refuse("an attribute that isn't known"),
            }
            self.at = after;
        }
        Ok(all)
    }

    /// `#![tactic(..)]`, which goes.
    pub fn inner_attribute(&mut self) -> Result<(), Refusal> {
        let first = self.at;
        self.at += 2;
        if self.text(1) != "tactic" {
            self.at += 1;
            return self.refuse("an attribute of a file that isn't known");
        }
        self.group("[")?;
        self.delete_line_of(first);
        Ok(())
    }

    // The attribute that begins at a token and ends here, without the comments above it.
    fn delete_line_of(&mut self, first: usize) {
        let range = self.tokens[first].at..self.end_of_last();
        self.edits.delete_lines(range);
    }

    // The names of a derive, of which `Drop` goes.
    fn derived(&mut self, first: usize, after: usize) -> Result<(), Refusal> {
        let names = self.names_of_derive()?;
        self.at = after;
        let kept: Vec<&str> = names.iter().copied().filter(|name| *name != "Drop").collect();
        if kept.is_empty() {
            self.delete_line_of(first);
        } else if kept.len() < names.len() {
            let range = self.tokens[first].at..self.end_of_last();
            self.edits.replace(range, format!("#[derive({})]", kept.join(", ")));
        }
        Ok(())
    }

    fn names_of_derive(&mut self) -> Result<Vec<&'a str>, Refusal> {
        self.at += 1;
        let inner = self.group("(")?;
        self.at = inner.start;
        let mut names = Vec::new();
        while self.at < inner.end {
            if self.text(0) != "Drop" && !DERIVED.contains(&self.text(0)) {
                return self.refuse("nothing that is known to be derived");
            }
            names.push(self.text(0));
            self.at += 1;
            if self.at < inner.end {
                self.expect(",")?;
            }
        }
        Ok(names)
    }

    // `derive_where(Clone, Copy)` is the one that is known.
    fn without_bounds(&mut self, after: usize) -> Result<(), Refusal> {
        if self.names_of_derive()? != ["Clone", "Copy"] {
            return self.refuse("only Clone and Copy are known without bounds");
        }
        self.at = after;
        Ok(())
    }

    /// `Clone` and `Copy` after the struct that ends here, for any parameters.
    pub fn derive(&mut self, keyword: usize) -> Result<(), Refusal> {
        let (name, open) = (self.text_at(keyword + 1), keyword + 2);
        if self.text_at(open) != "<" {
            self.at = open;
            return self.refuse("a type with parameters is due");
        }
        let end = self.after_angles(open);
        let names: Vec<&str> = (open + 1..end - 1)
            .filter(|at| ["<", ","].contains(&self.text_at(at - 1)))
            .map(|at| self.text_at(at))
            .collect();
        let declared = &self.source[self.tokens[open].at..self.tokens[end - 1].end()];
        let used = names.join(", ");
        self.edits.insert(
            self.end_of_last(),
            format!(
                "\n\nimpl{declared} Clone for {name}<{used}> {{\n    #[inline(always)]\n    fn clone(&self) -> Self {{\n        \
                 *self\n    }}\n}}\n\nimpl{declared} Copy for {name}<{used}> {{}}"
            ),
        );
        Ok(())
    }
}

#[cfg(test)]
mod tests {
    use crate::tests::{erased, refused};

    #[test]
    fn tactics() {
        assert_eq!(erased("//! Doc.\n#![tactic(auto)]\n\nmod a;\n"), "//! Doc.\n\nmod a;\n");
        assert_eq!(
            erased("/// F.\n#[inline]\n#[tactic(auto, using(a::b))]\nfn f() {}\n"),
            "/// F.\n#[inline]\nfn f() {}\n"
        );
    }

    #[test]
    fn derives() {
        assert_eq!(
            erased("#[derive(Debug, Drop, PartialEq)]\nstruct A;\n"),
            "#[derive(Debug, PartialEq)]\nstruct A;\n"
        );
        assert_eq!(erased("/// A.\n#[derive(Drop)]\nstruct A;\n"), "/// A.\nstruct A;\n");
        assert_eq!(
            erased("#[derive(Clone, Copy)]\nstruct A;\n"),
            "#[derive(Clone, Copy)]\nstruct A;\n"
        );
    }

    #[test]
    fn derives_without_bounds() {
        let impls = "impl<'a, T> Clone for A<'a, T> {\n    #[inline(always)]\n    fn clone(&self) -> Self {\n        \
                     *self\n    }\n}\n\nimpl<'a, T> Copy for A<'a, T> {}\n";
        assert_eq!(
            erased("/// A.\n#[derive_where(Clone, Copy)]\nstruct A<'a, T>(&'a T);\n"),
            format!("/// A.\nstruct A<'a, T>(&'a T);\n\n{impls}")
        );
    }

    #[test]
    fn attributes_that_are_not_known() {
        assert_eq!(
            refused("#[derive(Hash)]\nstruct A;").1,
            "`Hash`: nothing that is known to be derived"
        );
        assert_eq!(refused("#[cfg(x)]\nstruct A;").1, "`cfg`: an attribute that isn't known");
        assert_eq!(
            refused("#![feature(x)]").1,
            "`feature`: an attribute of a file that isn't known"
        );
        assert_eq!(
            refused("#[derive_where(Debug)]\nstruct A<T>(T);").1,
            "`)`: only Clone and Copy are known without bounds"
        );
    }
}
