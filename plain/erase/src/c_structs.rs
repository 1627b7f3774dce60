//! Structs that C fills: a slice in one becomes a pointer and a length, so that NULL is what it is in C.

use crate::eraser::Eraser;
use crate::token::{tokens, Kind, Token};
use crate::Refusal;
use std::collections::{BTreeMap, BTreeSet};
use std::ops::Range;

/// The type that stands for a slice, which a value has by `slice()`.
const SLICE: &str = "rattle::ffi::Slice";

/// Structs in the layout of C, each with the names of its fields that are slices.
#[derive(Clone, Debug, Default, PartialEq, Eq)]
pub struct CStructs(BTreeMap<String, BTreeSet<String>>);

impl CStructs {
    /// Those of a source.
    pub fn of(source: &str) -> Result<Self, Refusal> {
        let tokens = tokens(source)?;
        let mut structs = BTreeMap::new();
        let mut is_of_c = false;
        for (index, token) in tokens.iter().enumerate() {
            match token.text {
                "repr" => is_of_c = tokens[index + 2].text == "C",
                "enum" | "fn" | "union" => is_of_c = false,
                "struct" if is_of_c => {
                    is_of_c = false;
                    let slices = slices_of(&tokens, index);
                    if !slices.is_empty() {
                        structs.insert(tokens[index + 1].text.into(), slices);
                    }
                }
                _ => {}
            }
        }
        Ok(CStructs(structs))
    }

    /// These and others.
    pub fn and(mut self, others: CStructs) -> Self {
        self.0.extend(others.0);
        self
    }

    pub(crate) fn slices_of(&self, name: &str) -> Option<&BTreeSet<String>> {
        self.0.get(name)
    }
}

// The fields that are slices of the struct that begins at a token.
fn slices_of(tokens: &[Token], keyword: usize) -> BTreeSet<String> {
    let open = tokens[keyword..].iter().position(|token| ["{", ";"].contains(&token.text));
    let fields = open.map_or(0..0, |open| keyword + open + 1..tokens[keyword + open].close);
    let is_slice = |index: &usize| {
        let at = index + 2;
        let at = at + usize::from(tokens[at].kind == Kind::Lifetime);
        tokens[index + 1].text == "&"
            && tokens[at].text == "["
            && !has_length(&tokens[at..=tokens[at].close])
    };
    let colons = fields.filter(|index| tokens[*index].text == ":").filter(is_slice);
    colons.map(|colon| tokens[colon - 1].text.into()).collect()
}

/// Whether a type in brackets is an array.
pub(crate) fn has_length(brackets: &[Token]) -> bool {
    brackets.iter().any(|token| token.text == ";")
}

impl Eraser<'_> {
    /// The type of a field of such a struct, by its tokens: `&'a [T]`.
    pub fn slice_field(&mut self, types: Range<usize>) {
        let open = types.start + 2;
        let front = self.tokens[types.start].at..self.tokens[open].end();
        let life = self.tokens[types.start + 1].text;
        self.edits.replace(front, format!("{SLICE}<{life}, "));
        let close = self.tokens[self.tokens[open].close];
        self.edits.replace(close.at..close.end(), ">");
    }

    /// A field that is read, after a dot: the slice in it, where the source has such a struct with a field of this name.
    pub fn slice_read(&mut self, name: usize) {
        if self.c_fields.contains(self.text_at(name)) && self.text_at(name + 1) != "(" {
            self.edits.insert(self.tokens[name].end(), ".slice()");
        }
    }

    /// A value of such a struct, whose fields are in braces after its name.
    pub fn struct_value(&mut self, name: usize) {
        let Some(slices) = self.names.c_structs().slices_of(self.text_at(name)).cloned() else {
            return;
        };
        let (mut index, close) = (name + 2, self.tokens[name + 1].close);
        while index < close {
            let field = self.tokens[index];
            let mut end = index + 1;
            while end < close && self.text_at(end) != "," {
                end = self.tokens[end].close + 1;
            }
            if slices.contains(field.text) {
                if end == index + 1 {
                    self.edits.insert(field.end(), format!(": {SLICE}::from({})", field.text));
                } else {
                    self.edits.insert(self.tokens[index + 2].at, format!("{SLICE}::from("));
                    self.edits.insert(self.tokens[end - 1].end(), ")");
                }
            }
            index = end + 1;
        }
    }
}

#[cfg(test)]
mod tests {
    use super::*;
    use crate::{erase, Names};

    const STRUCT: &str =
        "#[repr(C)]\nstruct A<'a> {\n    x: &'a [B<'a>],\n    y: &'a [u8; 4],\n}\n";

    fn erased(source: &str) -> String {
        erase(source, &Names::new().with_c_structs(CStructs::of(STRUCT).unwrap())).unwrap()
    }

    #[test]
    fn fields_that_are_slices() {
        assert_eq!(
            CStructs::of(STRUCT).unwrap().slices_of("A").unwrap().iter().collect::<Vec<_>>(),
            ["x"]
        );
        assert_eq!(erased(STRUCT), STRUCT.replace("&'a [B<'a>]", "rattle::ffi::Slice<'a, B<'a>>"));
        assert_eq!(CStructs::of(&STRUCT.replace("#[repr(C)]\n", "")).unwrap(), CStructs::default());
    }

    #[test]
    fn fields_that_are_read() {
        assert_eq!(
            erased("fn f(a: A) {\n    a.x.len() + a.y + a.x()\n}\n"),
            "fn f(a: A) {\n    a.x.slice().len() + a.y + a.x()\n}\n"
        );
    }

    #[test]
    fn values() {
        assert_eq!(
            erased("fn f(x: u8) {\n    A { x, y }\n}\n"),
            "fn f(x: u8) {\n    A { x: rattle::ffi::Slice::from(x), y }\n}\n"
        );
        assert_eq!(
            erased("fn f() {\n    A { y, x: &b[c] }\n}\n"),
            "fn f() {\n    A { y, x: rattle::ffi::Slice::from(&b[c]) }\n}\n"
        );
    }

    #[test]
    fn sources_without_such_a_struct_stay() {
        let source = "fn f(b: B) {\n    b.x.len()\n}\n";
        assert_eq!(erased(source), source);
    }
}
