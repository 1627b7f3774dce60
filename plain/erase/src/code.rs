//! The bodies of functions, and values: a few macros and calls become those of the stand-in.

use crate::eraser::Eraser;
use crate::token::Kind;
use crate::{attributes::Attributes, Refusal};
use std::ops::Range;

/// Macros that end the program. Whose program it is, which stands before a semicolon, goes.
const ENDING: [&str; 5] = ["assert", "assert_eq", "assert_ne", "panic", "unreachable"];

/// Macros of Rust's that stay as they are.
const OF_RUST: [&str; 3] = ["matches", "write", "writeln"];

/// Words after which a `!` is no macro's.
const BEFORE_VALUES: [&str; 7] = ["break", "else", "if", "in", "match", "return", "while"];

impl<'a> Eraser<'a> {
    /// The tokens of a body or of a value.
    pub fn code(&mut self, range: Range<usize>) -> Result<(), Refusal> {
        let after = self.at;
        self.at = range.start;
        while self.at < range.end {
            self.part()?;
        }
        self.at = after.max(range.end);
        Ok(())
    }

    // A token of code, or the item or macro that begins with it.
    fn part(&mut self) -> Result<(), Refusal> {
        self.path(self.at)?;
        match self.text(0) {
            "#" if self.text(1) == "[" => {
                self.attributes()?;
            }
            "use" => {
                self.item()?;
            }
            "fn" if self.is_function(self.at) => self.function(self.at, &Attributes::default())?,
            "ghost" | "requires" | "ensures" | "final" if self.is_word(0) => {
                return self.refuse("no contract is known within a body");
            }
            "unsafe" if self.text(1) == "{" => self.unsafe_block()?,
            label if label.starts_with('\'') && self.text(1) == ":" => self.label(),
            "." if self.c_fields.contains(self.text(1)) => {
                self.slice_read(self.at + 1);
                self.at += 2;
            }
            _ if self.is_run() => self.join_run()?,
            _ if self.is_word(0) && self.text(1) == "{" => {
                self.struct_value(self.at);
                self.at += 2;
            }
            "." if self.text(2) == "(" || self.text(2) == "::" => self.call(),
            _ if self.is_macro() => self.macro_call()?,
            _ => self.at += 1,
        }
        Ok(())
    }

    // The label of a loop, by which proofs name it. One that no code names goes.
    fn label(&mut self) {
        let label = self.tokens[self.at];
        let is_named = self.tokens.iter().zip(&self.tokens[1..]).any(|(before, token)| {
            ["break", "continue"].contains(&before.text) && token.text == label.text
        });
        if !is_named {
            self.edits.delete(label.at..self.tokens[self.at + 2].at);
        }
        self.at += 2;
    }

    // `unsafe { str::from_utf8_unchecked(..) }` becomes a call that tests what was proved. Functions that the source declares
    // as those of others may be called.
    fn unsafe_block(&mut self) -> Result<(), Refusal> {
        let (keyword, name) = (self.tokens[self.at], self.at + 4);
        let close = self.tokens[self.tokens[self.at + 1].close];
        let is_text = self.text(2) == "str" && self.text_at(name) == "from_utf8_unchecked";
        if is_text && self.tokens[name + 1].close + 1 == self.tokens[self.at + 1].close {
            self.edits
                .replace(keyword.at..self.tokens[name].end(), "rattle::str::from_proved_utf8");
            self.edits.delete(self.tokens[self.tokens[name + 1].close].end()..close.end());
        } else if !self.foreign.contains(self.text(2)) {
            return self.refuse("nothing unsafe that is known");
        }
        self.at = if is_text { name + 1 } else { self.at + 2 };
        Ok(())
    }

    fn is_macro(&self) -> bool {
        let opens = self.text(1) == "!" && self.kind_at(self.at + 2) == Some(Kind::Open);
        opens && self.is_word(0) && !BEFORE_VALUES.contains(&self.text(0))
    }

    // `.collect(alloc)` and `.to_string(alloc)`, whose memory may be refused.
    fn call(&mut self) {
        let name = self.tokens[self.at + 1];
        let open = match self.text(2) {
            "(" => self.at + 2,
            _ => self.after_angles(self.at + 3),
        };
        self.at += 1;
        let is_given = self.text_at(open) == "(" && self.text_at(open + 1) != ")";
        let import = match name.text {
            "collect" => "CollectIn",
            "to_string" => "ToStringIn",
            _ => return,
        };
        if is_given {
            self.edits.insert(name.end(), "_in");
            self.prelude.insert(import);
        }
    }

    fn macro_call(&mut self) -> Result<(), Refusal> {
        let (name, open) = (self.tokens[self.at], self.at + 2);
        let range = open + 1..self.tokens[open].close;
        match name.text {
            "prove" => self.edits.replace(name.at..name.end(), "debug_assert"),
            "vec" | "format" => {
                if self.text_at(open + 1) != "in" {
                    return self.refuse("an allocator is due, as in `in alloc;`");
                }
                self.edits.replace(name.at..name.end(), format!("rattle::{}_in", name.text));
                self.edits.delete(self.tokens[open + 1].at..self.tokens[open + 2].at);
            }
            name if ENDING.contains(&name) => self.forget_runtime(range.clone()),
            name if OF_RUST.contains(&name) || self.macros.contains(name) => {}
            _ => return self.refuse("a macro that isn't known"),
        }
        self.code(range)
    }

    // Takes out what stands before the semicolon of a macro, with the semicolon.
    fn forget_runtime(&mut self, range: Range<usize>) {
        let mut index = range.start;
        while index < range.end && self.text_at(index) != ";" {
            index = self.tokens[index].close + 1;
        }
        if index >= range.end {
            return;
        }
        let (first, semicolon, next) =
            (self.tokens[range.start], self.tokens[index], self.tokens[index + 1]);
        let is_on_line = !self.source[semicolon.end()..next.at].contains('\n');
        self.edits.delete(first.at..if is_on_line { next.at } else { semicolon.end() });
    }

    /// A path that begins at a token: where its crate is to be found. A name that needs no import is noted.
    pub fn path(&mut self, index: usize) -> Result<(), Refusal> {
        let token = self.tokens[index];
        let before = if index == 0 { "" } else { self.text_at(index - 1) };
        if token.kind != Kind::Word || ["::", ".", "$"].contains(&before) {
            return Ok(());
        }
        self.used.insert(token.text);
        if let Some(name) =
            ["Alloc", "HostRuntime", "String", "Vec"].into_iter().find(|name| *name == token.text)
        {
            self.prelude.insert(name);
        }
        if self.text_at(index + 1) != "::" {
            return Ok(());
        }
        match self.names.first(token.text, self.text_at(index + 2)) {
            Ok(None) => {}
            Ok(Some(path)) => self.edits.replace(token.at..token.end(), path),
            Err(why) => {
                self.at = index;
                return self.refuse(&why);
            }
        }
        Ok(())
    }
}

#[cfg(test)]
mod tests {
    use crate::tests;
    use crate::{erase, Names};

    // The body of a function that has this one, without what is imported for it.
    fn erased(body: &str) -> String {
        let out = tests::erased(&format!("fn f() {{\n    {body}\n}}\n"));
        let from = out.find("{\n    ").unwrap() + 6;
        out[from..out.len() - 3].into()
    }

    fn refused(body: &str) -> String {
        tests::refused(&format!("fn f() {{\n    {body}\n}}\n")).1
    }

    #[test]
    fn macros_that_end_the_program() {
        assert_eq!(erased("assert!(rt; x == [0; 2]);"), "assert!(x == [0; 2]);");
        assert_eq!(erased("assert!(x == [0; 2]);"), "assert!(x == [0; 2]);");
        assert_eq!(erased("assert!(rt;\n        x\n    );"), "assert!(\n        x\n    );");
        assert_eq!(erased("panic!(rt; \"{x}\")"), "panic!(\"{x}\")");
    }

    #[test]
    fn macros_that_ask_for_memory() {
        assert_eq!(erased("vec![in alloc; 0; n]?;"), "rattle::vec_in![alloc; 0; n]?;");
        assert_eq!(
            erased("format!(in rt.alloc(); \"{x}\")?;"),
            "rattle::format_in!(rt.alloc(); \"{x}\")?;"
        );
        assert_eq!(refused("vec![0; n];"), "`vec`: an allocator is due, as in `in alloc;`");
    }

    #[test]
    fn what_is_proved_is_tested_in_debug_builds() {
        assert_eq!(erased("prove!(x.is_ok());"), "debug_assert!(x.is_ok());");
    }

    #[test]
    fn macros_of_others() {
        assert_eq!(
            erased("write!(f, \"{x}\")?; if !(a) {} matches!(x, Y)"),
            "write!(f, \"{x}\")?; if !(a) {} matches!(x, Y)"
        );
        assert_eq!(refused("println!(\"x\");"), "`println`: a macro that isn't known");
    }

    #[test]
    fn calls_that_ask_for_memory() {
        assert_eq!(
            erased("x.collect::<Vec<u8>>(alloc)?; x.to_string(alloc);"),
            "x.collect_in::<Vec<u8>>(alloc)?; x.to_string_in(alloc);"
        );
        assert_eq!(erased("x.collect(); x.to_string();"), "x.collect(); x.to_string();");
    }

    #[test]
    fn labels_of_proofs() {
        assert_eq!(erased("'all: for x in y {}"), "for x in y {}");
        assert_eq!(erased("'all: loop { break 'all; }"), "'all: loop { break 'all; }");
    }

    #[test]
    fn texts_that_are_proved() {
        assert_eq!(
            erased("unsafe { str::from_utf8_unchecked(&x[y]) }"),
            "rattle::str::from_proved_utf8(&x[y])"
        );
        assert_eq!(refused("unsafe { *x }"), "`unsafe`: nothing unsafe that is known");
        let source = "unsafe extern \"C\" {\n    fn g();\n}\n\nfn f() {\n    unsafe { g() }\n}\n";
        assert_eq!(tests::erased(source), source);
    }

    #[test]
    fn items_in_bodies() {
        assert_eq!(erased("fn g()\n        ensures { x }\n    {\n    }\n"), "fn g() {\n    }\n");
        assert_eq!(refused("ghost x = { y };"), "`ghost`: no contract is known within a body");
    }

    #[test]
    fn paths() {
        let names = Names::new().own("crate::a").other("b", "crate::b");
        let erased = |source| erase(source, &names).unwrap();
        assert_eq!(
            erased("use std::fmt;\nuse crate::x;\nuse b::Y;\nuse c::Z;\n"),
            "use core::fmt;\nuse crate::a::x;\nuse crate::b::Y;\nuse c::Z;\n"
        );
        assert_eq!(
            erased("fn f() -> std::io::Result {\n    x.b::<u8>(hex::decode, y::hex::z)\n}\n")
                .lines()
                .nth(1),
            Some("    x.b::<u8>(rattle::hex::decode, y::hex::z)")
        );
        assert_eq!(
            tests::refused("use std::net::X;\n").1,
            "`std`: std::net is neither Rust's nor the stand-in's"
        );
    }
}
