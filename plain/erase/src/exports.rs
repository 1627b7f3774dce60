//! Functions for C: a slice that they take becomes a pointer and a length, and the allocator is theirs.

use crate::c_structs::has_length;
use crate::eraser::Eraser;
use crate::token::Kind;
use crate::Refusal;
use std::ops::Range;

impl Eraser<'_> {
    /// The parameters of a function for C, by their tokens, and the lines at the front of its body that make of them what the
    /// body takes. One that takes pointers is unsafe.
    pub fn export(
        &mut self,
        keyword: usize,
        parameters: Range<usize>,
        body: usize,
    ) -> Result<(), Refusal> {
        let (mut slices, mut lines) = (Vec::new(), String::new());
        let mut index = parameters.start;
        while index < parameters.end {
            let name = index;
            let mut end = index;
            while end < parameters.end && self.text_at(end) != "," {
                end = self.tokens[end].close + 1;
            }
            if self.text_at(name + 1) != ":" {
                self.at = name;
                return self.refuse("a parameter for C has a name and a type");
            }
            if self.text_at(name + 2) == "Global" {
                let after = self.tokens[(end + 1).min(parameters.end)].at;
                self.edits.delete(self.tokens[name].at..after);
                lines += &format!("\n    let {} = Global;", self.text_at(name));
            } else if let Some(slice) = self.slice_parameter(name) {
                slices.push(slice);
            }
            index = end + 1;
        }
        if let Some(made) = made_of(&slices) {
            self.edits.insert(self.tokens[keyword].at, "unsafe ");
            lines += "\n    // SAFETY: the caller keeps what the header asks of the memory that it hands over.";
            lines += &format!("\n    {made}");
        }
        self.edits.insert(self.tokens[body].end(), lines);
        Ok(())
    }

    // A parameter that is a slice becomes two: its name, and the call that makes a slice of them again.
    fn slice_parameter(&mut self, name: usize) -> Option<(String, String)> {
        let mut open = name + 3;
        open += usize::from(self.kind_at(open) == Some(Kind::Lifetime));
        let is_mutable = self.text_at(open) == "mut";
        open += usize::from(is_mutable);
        if self.text_at(name + 2) != "&" || self.text_at(open) != "[" {
            return None;
        }
        let close = self.tokens[open].close;
        if has_length(&self.tokens[open..=close]) {
            return None;
        }
        let word = self.text_at(name);
        let (pointer, call) =
            if is_mutable { ("*mut ", "slice_mut") } else { ("*const ", "slice") };
        let is_alone =
            self.source[self.tokens[name - 1].end()..self.tokens[name].at].contains('\n');
        let space = if is_alone { format!("\n{}", self.indent_of(name)) } else { " ".into() };
        self.edits.replace(self.tokens[name + 2].at..self.tokens[open].end(), pointer);
        self.edits.replace(
            self.tokens[close].at..self.tokens[close].end(),
            format!(",{space}{word}_len: usize"),
        );
        Some((word.into(), format!("rattle::ffi::{call}({word}, {word}_len)")))
    }
}

// The line that makes slices of pointers.
fn made_of(slices: &[(String, String)]) -> Option<String> {
    let join = |part: fn(&(String, String)) -> &str| {
        slices.iter().map(part).collect::<Vec<_>>().join(", ")
    };
    let (names, calls) = (join(|it| &it.0), join(|it| &it.1));
    match slices {
        [] => None,
        [_] => Some(format!("let {names} = unsafe {{ {calls} }};")),
        _ => Some(format!("let ({names}) = unsafe {{ ({calls}) }};")),
    }
}

#[cfg(test)]
mod tests {
    use crate::tests::{erased, refused};

    const SAFETY: &str =
        "    // SAFETY: the caller keeps what the header asks of the memory that it hands over.\n";

    #[test]
    fn slices() {
        assert_eq!(
            erased("pub extern \"C\" fn f(x: &[u8], n: u32, y: &mut [A<'_>]) {\n    0\n}\n"),
            format!(
                "pub unsafe extern \"C\" fn f(x: *const u8, x_len: usize, n: u32, y: *mut A<'_>, y_len: usize) {{\n{SAFETY}    \
                 let (x, y) = unsafe {{ (rattle::ffi::slice(x, x_len), rattle::ffi::slice_mut(y, y_len)) }};\n    0\n}}\n"
            )
        );
        assert_eq!(
            erased("extern \"C\" fn f(\n    x: &[u8],\n) {\n}\n"),
            format!(
                "unsafe extern \"C\" fn f(\n    x: *const u8,\n    x_len: usize,\n) {{\n{SAFETY}    \
                 let x = unsafe {{ rattle::ffi::slice(x, x_len) }};\n}}\n"
            )
        );
    }

    #[test]
    fn allocators() {
        assert_eq!(
            erased("extern \"C\" fn f(alloc: Global, x: &mut B, y: &[u8; 4]) {\n}\n"),
            "extern \"C\" fn f(x: &mut B, y: &[u8; 4]) {\n    let alloc = Global;\n}\n"
        );
    }

    #[test]
    fn what_is_not_known() {
        assert_eq!(
            refused("extern \"C\" fn f((x, y): (u8, u8)) {}").1,
            "`(`: a parameter for C has a name and a type"
        );
    }
}
