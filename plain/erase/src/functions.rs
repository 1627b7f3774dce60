//! Functions: their contracts go, their bodies stay.

use crate::attributes::Attributes;
use crate::eraser::Eraser;
use crate::token::Kind;
use crate::Refusal;
use std::ops::Range;

/// What tests are handed.
const RUNTIME: &str = "HostRuntime";

/// Where the parts of a function stand, by the indexes of tokens.
struct Signature {
    name: usize,
    parameters: Range<usize>,
    has_where: bool,
    /// Where the head ends: at the contract, the body or the semicolon.
    end: usize,
}

impl<'a> Eraser<'a> {
    /// A function, of which one item begins at `first`.
    pub fn function(&mut self, first: usize, attributes: &Attributes) -> Result<(), Refusal> {
        let begin = self.at;
        let exported = self.qualifiers()?;
        let signature = self.signature()?;
        self.heads(begin, signature.end)?;
        let required = self.contract(first, &signature)?;
        if self.takes(";") {
            return Ok(());
        }
        self.test_lengths(first, &required);
        self.formatter(&signature);
        if let Some(keyword) = exported {
            self.export(keyword, signature.parameters.clone(), self.at)?;
        }
        if attributes.is_test {
            self.test(&signature)?;
        } else if self.text_at(signature.name) == "main" {
            self.main(&signature);
        }
        let body = self.group("{")?;
        self.mark_unused(&signature, body.clone());
        self.code(body)
    }

    // A parameter that no code names, since the contract alone does, begins with an underscore.
    fn mark_unused(&mut self, signature: &Signature, body: Range<usize>) {
        for name in signature.parameters.clone() {
            let token = self.tokens[name];
            let is_name =
                self.text_at(name + 1) == ":" && ["(", ","].contains(&self.text_at(name - 1));
            if !is_name || token.text.starts_with('_') || !self.said.contains(token.text) {
                continue;
            }
            if !body.clone().any(|index| self.names_value(index, token.text)) {
                self.edits.insert(token.at, "_");
            }
        }
    }

    // Whether a token of a body names a value, and no field of this name; or prints it.
    fn names_value(&self, index: usize, name: &str) -> bool {
        let text = self.text_at(index);
        if self.kind_at(index) == Some(Kind::Literal) {
            return text.contains(&format!("{{{name}"));
        }
        let follows_dot = self.text_at(index - 1) == "." && self.text_at(index - 2) != ".";
        let is_field = follows_dot || self.text_at(index + 1) == ":";
        text == name && !is_field
    }

    // What stands before `fn`, of which `final` goes. Where `extern` stands, if it does.
    fn qualifiers(&mut self) -> Result<Option<usize>, Refusal> {
        let mut exported = None;
        loop {
            match self.text(0) {
                "fn" => return Ok(exported),
                "final" => {
                    let range = self.tokens[self.at].at..self.tokens[self.at + 1].at;
                    self.edits.delete(range);
                }
                "const" | "unsafe" => {}
                "extern" if self.text(1) == "\"C\"" => {
                    exported = Some(self.at);
                    self.at += 1;
                }
                _ => return self.refuse("no item that is known"),
            }
            self.at += 1;
        }
    }

    fn signature(&mut self) -> Result<Signature, Refusal> {
        self.expect("fn")?;
        let name = self.at;
        self.word()?;
        if self.text(0) == "<" {
            self.at = self.after_angles(self.at);
        }
        let parameters = self.group("(")?;
        const STOPS: [&str; 5] = ["where", "requires", "ensures", "{", ";"];
        let answers = self.takes("->");
        self.go_to(&STOPS, self.tokens.len())?;
        let is_type_alone = self.at == parameters.end + 1 || answers && !self.ends_with_clause();
        if !is_type_alone {
            self.at -= 1;
            return self.refuse("no clause that is known");
        }
        let has_where = self.text(0) == "where";
        if has_where {
            self.go_to(&STOPS[1..], self.tokens.len())?;
        }
        Ok(Signature { name, parameters, has_where, end: self.at })
    }

    // Whether a name stands after the type that ends here, as that of a clause does.
    fn ends_with_clause(&self) -> bool {
        const BEFORE_NAMES: [&str; 4] = ["dyn", "impl", "mut", "const"];
        let ends_type = |text: &str| [">", ")", "]"].contains(&text);
        let (last, before) = (self.at - 1, self.at - 2);
        let is_after = self.kind_at(before) == Some(Kind::Word)
            && !BEFORE_NAMES.contains(&self.text_at(before));
        self.kind_at(last) == Some(Kind::Word) && (is_after || ends_type(self.text_at(before)))
    }

    // `requires {..}` and `ensures NAME {..}`, which go. What is required.
    fn contract(
        &mut self,
        first: usize,
        signature: &Signature,
    ) -> Result<Vec<Range<usize>>, Refusal> {
        let begin = self.at;
        let mut required = Vec::new();
        while self.takes("requires") || self.takes("ensures") {
            let is_required = self.text_at(self.at - 1) == "requires";
            if self.is_word(0) {
                self.at += 1;
            }
            let inner = self.group("{")?;
            if is_required {
                required.push(inner.clone());
            }
            self.say(inner);
        }
        if self.at == begin {
            return Ok(required);
        }
        self.document(first, &required);
        let body = match self.text(0) {
            ";" => String::new(),
            "{" if signature.has_where => format!("\n{}", self.indent_of(first)),
            "{" => " ".into(),
            _ => return self.refuse("a body is due"),
        };
        let head = self.tokens[begin - 1];
        let end = if head.text == "," && body.is_empty() { head.at } else { head.end() };
        self.edits.replace(end..self.tokens[self.at].at, body);
        Ok(required)
    }

    // Slices that are required to have one length are tested for that where the body begins, which spares rustc its tests of
    // each access.
    fn test_lengths(&mut self, first: usize, required: &[Range<usize>]) {
        for clause in required {
            let words: Vec<&str> =
                self.tokens[clause.clone()].iter().map(|token| token.text).collect();
            let ["length", one, ".", "old" | "now", "≡", "length", other, ".", "old" | "now"] =
                words[..]
            else {
                continue;
            };
            if one != "self" && other != "self" {
                let test = format!(
                    "\n{}    assert!({one}.len() == {other}.len());",
                    self.indent_of(first)
                );
                self.edits.insert(self.tokens[self.at].end(), test);
            }
        }
    }

    // What a public function requires of its callers, whom no one proves here, is a part of its documentation.
    fn document(&mut self, first: usize, required: &[Range<usize>]) {
        let is_public = self.is_in_trait
            || self.tokens[first..self.at]
                .windows(2)
                .any(|pair| pair[0].text == "pub" && pair[1].text != "(");
        if required.is_empty() || !is_public {
            return;
        }
        let indent = self.indent_of(first);
        let mut lines = if self.leads_of(first) < self.tokens[first].at {
            format!("///\n{indent}")
        } else {
            String::new()
        };
        lines += &format!("/// # Requires\n{indent}///\n{indent}");
        for clause in required {
            let text =
                &self.source[self.tokens[clause.start].at..self.tokens[clause.end - 1].end()];
            let words: Vec<&str> = text.split_whitespace().collect();
            lines += &format!("/// - `{}`\n{indent}", words.join(" "));
        }
        self.edits.insert(self.tokens[first].at, lines);
    }

    // `fmt<W: fmt::Write>(.., f: &mut fmt::Formatter<W>)` is what core has without the parameter.
    fn formatter(&mut self, signature: &Signature) {
        let (name, open) = (self.tokens[signature.name], signature.name + 1);
        let generics: Vec<&str> = (open..open + 7).map(|index| self.text_at(index)).collect();
        if name.text != "fmt" || generics != ["<", "W", ":", "fmt", "::", "Write", ">"] {
            return;
        }
        self.edits.delete(name.end()..self.tokens[open + 6].end());
        for index in signature.parameters.clone() {
            if self.text_at(index) == "W" {
                let range = self.tokens[index].at..self.tokens[index].end();
                self.edits.replace(range, "'_");
            }
        }
    }

    // A program makes the runtime itself that it is handed.
    fn main(&mut self, signature: &Signature) {
        if !self.takes_runtime(signature) {
            return;
        }
        let parameters = &signature.parameters;
        self.edits.delete(self.tokens[parameters.start].at..self.tokens[parameters.end].at);
        self.edits.insert(self.tokens[signature.end].end(), format!("\n    let rt = {RUNTIME};"));
    }

    fn takes_runtime(&self, signature: &Signature) -> bool {
        let parameters = &self.tokens[signature.parameters.clone()];
        parameters.iter().map(|token| token.text).eq(["rt", ":", RUNTIME])
    }

    // A test that is handed a runtime becomes one that hands it over, once for each request for memory that is refused.
    fn test(&mut self, signature: &Signature) -> Result<(), Refusal> {
        if !self.takes_runtime(signature) {
            self.at = signature.parameters.start;
            return self.refuse("a test takes `rt: HostRuntime`");
        }
        let name = self.tokens[signature.name];
        self.edits.replace(
            name.at..name.end(),
            format!("{0}() {{\n    rattle::test::run({0}_with)\n}}\n\nfn {0}_with", name.text),
        );
        self.prelude.insert(RUNTIME);
        Ok(())
    }

    /// Whether a function stands at a token, and not the type of one.
    pub fn is_function(&self, index: usize) -> bool {
        self.text_at(index) == "fn" && self.kind_at(index + 1) == Some(Kind::Word)
    }
}

#[cfg(test)]
mod tests {
    use crate::tests::{erased, refused};

    #[test]
    fn contracts() {
        let source = "fn f(x: u8) -> u8\n    requires { x ≤ 1 }\n    ensures same { result ≡ x }\n{\n    x\n}\n";
        assert_eq!(erased(source), "fn f(x: u8) -> u8 {\n    x\n}\n");
        assert_eq!(
            erased("trait A {\n    fn f(&self)\n        ensures { x };\n}\n"),
            "trait A {\n    fn f(&self);\n}\n"
        );
    }

    #[test]
    fn what_public_functions_require() {
        assert_eq!(
            erased(
                "/// F.\n#[inline]\npub fn f(x: u8)\n    requires small { x ≤\n        1 }\n    \
                 requires { A }\n{\n    x;\n}\n"
            ),
            "/// F.\n///\n/// # Requires\n///\n/// - `x ≤ 1`\n/// - `A`\n#[inline]\npub fn f(x: u8) {\n    x;\n}\n"
        );
        assert_eq!(
            erased("trait A {\n    fn f(&self)\n        requires { x };\n}\n"),
            "trait A {\n    /// # Requires\n    ///\n    /// - `x`\n    fn f(&self);\n}\n"
        );
        assert_eq!(
            erased("pub(crate) fn f()\n    requires { x }\n{\n}\n"),
            "pub(crate) fn f() {\n}\n"
        );
    }

    #[test]
    fn lengths_that_are_required() {
        assert_eq!(
            erased(
                "fn f(to: &mut [u8], from: &[u8])\n    requires room { length to.old ≡ length from.now }\n{\n    \
                 g(to, from)\n}\n"
            ),
            "fn f(to: &mut [u8], from: &[u8]) {\n    assert!(to.len() == from.len());\n    g(to, from)\n}\n"
        );
        assert_eq!(
            erased(
                "fn f(x: &[u8])\n    requires { length x.now ≡ length self.now }\n{\n    x\n}\n"
            ),
            "fn f(x: &[u8]) {\n    x\n}\n"
        );
    }

    #[test]
    fn contracts_after_bounds() {
        assert_eq!(
            erased("fn f<F>(f: F)\nwhere\n    F: Fn() + Drop,\n    requires { x }\n{\n}\n"),
            "fn f<F>(f: F)\nwhere\n    F: Fn(),\n{\n}\n"
        );
        assert_eq!(
            erased("trait A {\n    fn f<F>(f: F)\n    where\n        F: Fn(),\n        requires { x };\n}\n"),
            "trait A {\n    /// # Requires\n    ///\n    /// - `x`\n    fn f<F>(f: F)\n    where\n        F: Fn();\n}\n"
        );
    }

    #[test]
    fn functions_that_are_final() {
        assert_eq!(
            erased("trait A {\n    final fn f(&self) {}\n}\n"),
            "trait A {\n    fn f(&self) {}\n}\n"
        );
    }

    #[test]
    fn formatters() {
        let method = |name, of| {
            format!(
                "impl A for B {{\n    fn {name}(&self, f: &mut fmt::Formatter<{of}>) {{}}\n}}\n"
            )
        };
        assert_eq!(erased(&method("fmt<W: fmt::Write>", "W")), method("fmt", "'_"));
        assert_eq!(erased(&method("show<W: fmt::Write>", "W")), method("show<W: fmt::Write>", "W"));
    }

    #[test]
    fn parameters_of_contracts_alone() {
        assert_eq!(
            erased("fn f(x: u8, y: u8)\n    ensures { x ≡ y }\n{\n    y.x;\n}\n"),
            "fn f(_x: u8, y: u8) {\n    y.x;\n}\n"
        );
        assert_eq!(
            erased("fn f(x: u8)\n    ensures { x }\n{\n    0..x;\n}\n"),
            "fn f(x: u8) {\n    0..x;\n}\n"
        );
    }

    #[test]
    fn tests_and_programs() {
        assert_eq!(
            erased("#[test]\nfn t(rt: HostRuntime) -> Result<(), E> {\n    x\n}\n"),
            "use rattle::prelude::HostRuntime;\n\n#[test]\nfn t() {\n    rattle::test::run(t_with)\n}\n\n\
             fn t_with(rt: HostRuntime) -> Result<(), E> {\n    x\n}\n"
        );
        assert_eq!(
            erased("fn main(rt: HostRuntime) -> ExitCode {\n    x\n}\n"),
            "use rattle::prelude::HostRuntime;\n\nfn main() -> ExitCode {\n    let rt = HostRuntime;\n    x\n}\n"
        );
        assert_eq!(refused("#[test]\nfn t(x: u8) {}").1, "`x`: a test takes `rt: HostRuntime`");
    }

    #[test]
    fn functions_that_stay() {
        for source in [
            "const fn f() {}\n",
            "pub(crate) fn f<'a, T: A<B<T>>>(x: &'a T) -> impl Fn() + 'a {\n    x\n}\n",
        ] {
            assert_eq!(erased(source), source);
        }
        assert_eq!(refused("async fn f() {}").1, "`async`: no item that is known");
        assert_eq!(
            refused("fn f()\n    invariant { x }\n{}"),
            (2, "`invariant`: no clause that is known".into())
        );
        assert_eq!(refused("fn f() -> A<B>\n    invariant { x }\n{}").0, 2);
    }
}
