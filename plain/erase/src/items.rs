//! Items: what stays of each, and which go.

use crate::attributes::Attributes;
use crate::eraser::Eraser;
use crate::token::Kind;
use crate::Refusal;
use std::ops::Range;

impl<'a> Eraser<'a> {
    /// The items up to a token.
    pub fn items(&mut self, end: usize) -> Result<(), Refusal> {
        while self.at < end {
            self.item()?;
        }
        Ok(())
    }

    /// The whole source: its inner attributes and its items.
    pub fn file(&mut self) -> Result<(), Refusal> {
        while self.text(0) == "#" && self.text(1) == "!" {
            self.inner_attribute()?;
        }
        while self.at < self.tokens.len() {
            let (first, keyword) = (self.at, self.keyword());
            if self.item()? {
                let (leads, is_use) = (self.leads_of(first), keyword == "use");
                match self.front {
                    Some((_, was_use)) if was_use || !is_use => {}
                    _ => self.front = Some((leads, is_use)),
                }
            }
        }
        Ok(())
    }

    // The word that says what the item here is.
    fn keyword(&self) -> &'a str {
        let mut at = self.at;
        while self.text_at(at) == "#" {
            at = self.tokens[at + 1].close + 1;
        }
        if self.text_at(at) == "pub" {
            at += 1;
            if self.text_at(at) == "(" {
                at = self.tokens[at].close + 1;
            }
        }
        self.text_at(at)
    }

    /// An item, and whether it stays.
    pub fn item(&mut self) -> Result<bool, Refusal> {
        let first = self.at;
        let attributes = self.attributes()?;
        self.visibility()?;
        match self.text(0) {
            "ghost" => return self.ghost(first).map(|()| false),
            "mod" if self.text(1) == "laws" => return self.laws(first).map(|()| false),
            "use" => self.import(first)?,
            "impl" => return self.implementation(first),
            "mod" => self.module()?,
            "struct" => self.structure(attributes)?,
            "enum" => self.enumeration()?,
            "trait" => self.definition()?,
            "macro_rules" => self.rules()?,
            "type" | "static" => self.value()?,
            "const" if self.text(1) != "fn" => self.value()?,
            "unsafe" if self.text(1) == "extern" && self.text(3) == "{" => self.foreign()?,
            _ => self.function(first, &attributes)?,
        }
        Ok(true)
    }

    fn visibility(&mut self) -> Result<(), Refusal> {
        if self.takes("pub") && self.text(0) == "(" {
            self.group("(")?;
        }
        Ok(())
    }

    /// `ghost use ..;`, `ghost NAME: {..};` and `ghost NAME = {..};`, or with a comma as a field. All go.
    pub fn ghost(&mut self, first: usize) -> Result<(), Refusal> {
        self.expect("ghost")?;
        if self.takes("use") {
            self.go_to(&[";"], self.tokens.len())?;
        } else {
            self.word()?;
            if !self.takes(":") {
                self.expect("=")?;
            }
            let inner = self.group("{")?;
            self.say(inner);
        }
        if !self.takes(",") && self.text(0) != "}" {
            self.expect(";")?;
        }
        self.delete_from(first);
        Ok(())
    }

    // Files of laws are proofs alone.
    fn laws(&mut self, first: usize) -> Result<(), Refusal> {
        self.at += 2;
        self.expect(";")?;
        self.delete_from(first);
        Ok(())
    }

    fn module(&mut self) -> Result<(), Refusal> {
        self.at += 1;
        self.word()?;
        if self.takes(";") {
            return Ok(());
        }
        let inner = self.group("{")?;
        let after = self.at;
        self.at = inner.start;
        self.items(inner.end)?;
        self.at = after;
        Ok(())
    }

    // A struct: of fields, of types, or of nothing.
    fn structure(&mut self, attributes: Attributes) -> Result<(), Refusal> {
        let keyword = self.at;
        self.at += 2;
        let head = self.at;
        if self.text(0) == "<" {
            self.at = self.after_angles(self.at);
        }
        self.go_to(&["{", "(", ";"], self.tokens.len())?;
        self.heads(head, self.at)?;
        if self.text(0) == "{" {
            let inner = self.group("{")?;
            self.fields(inner, self.text_at(keyword + 1))?;
        } else {
            if self.text(0) == "(" {
                let inner = self.group("(")?;
                self.heads(inner.start, inner.end)?;
            }
            self.expect(";")?;
        }
        if attributes.derives_without_bounds {
            self.derive(keyword)?;
        }
        Ok(())
    }

    // Fields of a struct or of a variant, by the name of that. Those that are ghosts go.
    fn fields(&mut self, inner: Range<usize>, of: &str) -> Result<(), Refusal> {
        let slices = self.names.c_structs().slices_of(of).cloned().unwrap_or_default();
        let after = self.at;
        self.at = inner.start;
        while self.at < inner.end {
            let first = self.at;
            self.attributes()?;
            self.visibility()?;
            if self.text(0) == "ghost" {
                self.ghost(first)?;
                continue;
            }
            let name = self.at;
            self.word()?;
            self.expect(":")?;
            while self.at < inner.end && self.text(0) != "," {
                self.at = self.after_type_token();
            }
            self.heads(name, self.at)?;
            if slices.contains(self.text_at(name)) {
                self.slice_field(name + 2..self.at);
            }
            self.takes(",");
        }
        self.at = after;
        Ok(())
    }

    // The index after a token of a type, or after the angles that open with it: a comma within them ends no field.
    pub fn after_type_token(&self) -> usize {
        match self.text(0) {
            "<" => self.after_angles(self.at),
            _ => self.tokens[self.at].close + 1,
        }
    }

    /// The index after the angles that open at one.
    pub fn after_angles(&self, open: usize) -> usize {
        let (mut depth, mut index) = (0, open);
        while index < self.tokens.len() {
            match self.text_at(index) {
                "<" => depth += 1,
                ">" => depth -= 1,
                _ => {}
            }
            index = self.tokens[index].close + 1;
            if depth == 0 {
                break;
            }
        }
        index
    }

    fn enumeration(&mut self) -> Result<(), Refusal> {
        self.at += 2;
        let head = self.at;
        self.go_to(&["{"], self.tokens.len())?;
        self.heads(head, self.at)?;
        let inner = self.group("{")?;
        let after = self.at;
        self.at = inner.start;
        while self.at < inner.end {
            self.attributes()?;
            let name = self.word()?;
            match self.text(0) {
                "{" => {
                    let fields = self.group("{")?;
                    self.fields(fields, name)?;
                }
                "(" => {
                    let types = self.group("(")?;
                    self.heads(types.start, types.end)?;
                }
                _ => {}
            }
            if self.takes("=") {
                let value = self.at;
                while self.at < inner.end && self.text(0) != "," {
                    self.at = self.tokens[self.at].close + 1;
                }
                self.code(value..self.at)?;
            }
            if self.at < inner.end {
                self.expect(",")?;
            }
        }
        self.at = after;
        Ok(())
    }

    // A trait.
    fn definition(&mut self) -> Result<(), Refusal> {
        let head = self.at + 1;
        self.go_to(&["{"], self.tokens.len())?;
        self.heads(head, self.at)?;
        self.is_in_trait = true;
        let walked = self.block_of_items();
        self.is_in_trait = false;
        walked
    }

    // An `impl`, and whether it stays: one of `Model` goes.
    fn implementation(&mut self, first: usize) -> Result<bool, Refusal> {
        let head = self.at + 1;
        self.go_to(&["{"], self.tokens.len())?;
        let (begin, open) = match self.text_at(head) {
            "<" => (self.after_angles(head), self.at),
            _ => (head, self.at),
        };
        if self.text_at(begin) == "Model" {
            self.at = self.tokens[open].close + 1;
            self.say(open..self.at);
            self.delete_from(first);
            return Ok(false);
        }
        if self.text_at(begin) == "Drop" {
            self.at = begin;
            return self.refuse("what runs where a value is dropped isn't known to the eraser");
        }
        self.heads(head, open)?;
        self.block_of_items()?;
        Ok(true)
    }

    fn block_of_items(&mut self) -> Result<(), Refusal> {
        let inner = self.group("{")?;
        let after = self.at;
        self.at = inner.start;
        self.items(inner.end)?;
        self.at = after;
        Ok(())
    }

    fn rules(&mut self) -> Result<(), Refusal> {
        self.at += 1;
        self.expect("!")?;
        let name = self.word()?;
        self.macros.insert(name);
        let inner = self.group("{")?;
        self.code(inner)
    }

    // A constant, a static, or an alias of a type.
    fn value(&mut self) -> Result<(), Refusal> {
        let first = self.at;
        self.go_to(&[";"], self.tokens.len())?;
        self.code(first..self.at)?;
        self.expect(";")
    }

    // Functions of others.
    fn foreign(&mut self) -> Result<(), Refusal> {
        self.at += 3;
        let inner = self.at..self.tokens[self.at].close;
        let names =
            inner.filter(|index| self.text_at(index - 1) == "fn").map(|index| self.text_at(index));
        self.foreign.extend(names.collect::<Vec<_>>());
        self.block_of_items()
    }

    /// The head of an item, where types and their bounds stand: `Drop` is no bound of Rust's, which drops any value.
    pub fn heads(&mut self, first: usize, end: usize) -> Result<(), Refusal> {
        for index in first..end {
            self.path(index)?;
            if self.text_at(index) == "Drop" {
                let (before, after) = (self.text_at(index - 1), self.text_at(index + 1));
                let range = match (before, after) {
                    ("+", _) => self.tokens[index - 2].end()..self.tokens[index].end(),
                    (":", "+") => self.tokens[index].at..self.tokens[index + 2].at,
                    (":", _) => self.tokens[index - 1].at..self.tokens[index].end(),
                    _ => {
                        self.at = index;
                        return self.refuse("it is known as a bound alone");
                    }
                };
                self.edits.delete(range);
            }
            if self.kind_at(index) == Some(Kind::Word)
                && ["ghost", "requires", "ensures"].contains(&self.text_at(index))
            {
                self.at = index;
                return self.refuse("no contract is known here");
            }
        }
        Ok(())
    }
}

#[cfg(test)]
mod tests {
    use crate::tests::{erased, refused};

    #[test]
    fn ghost_items() {
        assert_eq!(erased("ghost use A.B.{◌≡◌, x};\n\nuse c::D;\n"), "use c::D;\n");
        assert_eq!(
            erased("trait A {\n    /// A law.\n    ghost law: { Self → Law };\n\n    fn f(&self);\n}\n"),
            "trait A {\n    fn f(&self);\n}\n"
        );
        assert_eq!(erased("impl A for B {\n    ghost law = { λ x. x };\n}\n"), "impl A for B {}\n");
        assert_eq!(refused("\nghost fn f() {}"), (2, "`f`: `=` is due".into()));
    }

    #[test]
    fn ghost_fields() {
        assert_eq!(
            erased("struct A<'a> {\n    x: &'a [u8],\n    ghost short: { x < y },\n}\n"),
            "struct A<'a> {\n    x: &'a [u8],\n}\n"
        );
        assert_eq!(
            erased("struct A<S = (u8, u8)> {\n    x: B<C, S>,\n    ghost y: { z },\n}\n"),
            "struct A<S = (u8, u8)> {\n    x: B<C, S>,\n}\n"
        );
    }

    #[test]
    fn models() {
        assert_eq!(
            erased("struct A;\n\n// Shown.\nimpl<'a> Model for B<'a> {\n    ghost view = { x };\n}\n\nstruct C;\n"),
            "struct A;\n\nstruct C;\n"
        );
    }

    #[test]
    fn laws() {
        assert_eq!(
            erased("pub mod io;\npub mod laws;\n\npub use io::A;\n"),
            "pub mod io;\n\npub use io::A;\n"
        );
    }

    #[test]
    fn items_that_stay() {
        for source in [
            "mod a {\n    pub const B: u8 = 1;\n}\n",
            "pub(crate) enum A {\n    B = b'x' as isize,\n    C { d: u8 },\n    E(u8),\n}\n",
            "pub struct A(pub u8);\n",
            "type A<'a> = &'a [u8];\n",
            "static A: u8 = 0;\n",
            "macro_rules! m {\n    ($x:expr) => {\n        $x\n    };\n}\n",
            "unsafe extern \"C\" {\n    fn f(x: u8);\n}\n",
        ] {
            assert_eq!(erased(source), source);
        }
    }

    #[test]
    fn bounds_by_drop() {
        assert_eq!(erased("trait A: Drop {}"), "trait A {}");
        assert_eq!(erased("trait A: Sized + Drop {}"), "trait A: Sized {}");
        assert_eq!(erased("impl<T: Drop> A for B<T> {}"), "impl<T> A for B<T> {}");
        assert_eq!(erased("impl<T: Drop + Copy> A for B<T> {}"), "impl<T: Copy> A for B<T> {}");
    }

    #[test]
    fn what_is_not_known() {
        assert_eq!(
            refused("impl Drop for A {}").1,
            "`Drop`: what runs where a value is dropped isn't known to the eraser"
        );
        assert_eq!(refused("union A { b: u8 }").1, "`union`: no item that is known");
        assert_eq!(refused("struct A(ghost);").1, "`ghost`: no contract is known here");
        assert_eq!(refused("use a::b\nfn").1, "the end: one of `;` is due");
    }
}
