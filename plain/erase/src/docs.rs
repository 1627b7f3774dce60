//! Links of doc comments, which lead where the paths of the code do.

use crate::eraser::Eraser;
use crate::Refusal;
use std::ops::Range;

impl Eraser<'_> {
    /// The links of all doc comments.
    pub fn link_docs(&mut self) -> Result<(), Refusal> {
        for comment in std::mem::take(&mut self.docs) {
            self.link_paths(comment.clone())?;
            self.link_constants(comment);
        }
        Ok(())
    }

    // `[..](PATH)` and `[..]: PATH`
    fn link_paths(&mut self, comment: Range<usize>) -> Result<(), Refusal> {
        let text = &self.source[comment.clone()];
        for (at, mark) in text.match_indices("](").chain(text.match_indices("]: ")) {
            let from = at + mark.len();
            let path = text[from..].split([')', ' ']).next().unwrap_or_default();
            let Some((first, rest)) = path.split_once("::") else { continue };
            let second = rest.split("::").next().unwrap_or_default();
            let from = comment.start + from;
            match self.names.first(first, second) {
                Ok(None) => {}
                Ok(Some(becomes)) => self.edits.replace(from..from + first.len(), becomes),
                Err(why) => return Err(Refusal::at(self.source, from, why)),
            }
        }
        Ok(())
    }

    // [`NAME`] of a constant whose import goes
    fn link_constants(&mut self, comment: Range<usize>) {
        let text = &self.source[comment.clone()];
        for (name, path) in &self.gone {
            let link = format!("[`{name}`]");
            for (at, _) in text.match_indices(&link) {
                let end = at + link.len();
                if !text[end..].starts_with('(') {
                    self.edits.insert(comment.start + end, format!("({path})"));
                }
            }
        }
    }
}

#[cfg(test)]
mod tests {
    use crate::{erase, Names};

    #[test]
    fn links() {
        let names = Names::new().own("crate::a").other("b", "crate::b");
        let erased = |source: &str| erase(source, &names).unwrap();
        let docs = |first, second| {
            format!("/// [`X`]({first}::m::X), [z](w)\n///\n/// [v]: {second}::v\nstruct A;\n")
        };
        assert_eq!(erased(&docs("crate", "b")), docs("crate::a", "crate::b"));
        assert_eq!(
            erased("use b::MAX;\n\n/// At most [`MAX`].\nfn f(x: u8)\n    requires { x ≤ MAX }\n{\n    x;\n}\n"),
            "/// At most [`MAX`](crate::b::MAX).\nfn f(x: u8) {\n    x;\n}\n"
        );
    }
}
