//! Runs of bytes, which are put at once.

use crate::eraser::Eraser;
use crate::token::Kind;
use crate::Refusal;

/// The call that puts a byte, and the one that puts a number of so many.
const PUT_BYTE: &str = "put_u8";
const PUT_NUMBER: &str = "put_number";
const BYTES: usize = 4;

/// The tokens of `sink.put_u8(byte);`.
const TOKENS: usize = 7;

impl Eraser<'_> {
    /// Whether four statements begin here that each put a byte that has a name into one sink. rustc tests for room at each, and
    /// once for a number of four bytes; the prover has shown that there is room for all.
    pub fn is_run(&self) -> bool {
        let sink = self.text(0);
        let begins = self.at > 0 && [";", "{", "}"].contains(&self.text_at(self.at - 1));
        begins
            && (0..BYTES).map(|byte| self.at + byte * TOKENS).all(|at| {
                let texts: Vec<&str> = (at..at + TOKENS).map(|index| self.text_at(index)).collect();
                let is_name = self.kind_at(at + 4) == Some(Kind::Word) && texts[4] != sink;
                is_name && texts == [sink, ".", PUT_BYTE, "(", texts[4], ")", ";"]
            })
    }

    /// Makes one statement of the four that begin here.
    pub fn join_run(&mut self) -> Result<(), Refusal> {
        let (first, sink) = (self.at, self.text(0));
        let names: Vec<usize> = (0..BYTES).map(|byte| first + byte * TOKENS + 4).collect();
        for name in &names {
            self.path(*name)?;
        }
        self.at += BYTES * TOKENS;
        let bytes: Vec<&str> = names.iter().map(|name| self.text_at(*name)).collect();
        let put = format!("{sink}.{PUT_NUMBER}(&[{}]);", bytes.join(", "));
        self.edits.replace(self.tokens[first].at..self.end_of_last(), put);
        Ok(())
    }
}

#[cfg(test)]
mod tests {
    use crate::tests::erased;

    fn puts(bytes: &[&str]) -> String {
        let puts: String = bytes.iter().map(|byte| format!("    s.put_u8({byte});\n")).collect();
        format!("fn f() {{\n{puts}}}\n")
    }

    #[test]
    fn four_bytes_in_a_row() {
        assert_eq!(
            erased(&puts(&["a", "b", "c", "d"])),
            "fn f() {\n    s.put_number(&[a, b, c, d]);\n}\n"
        );
    }

    #[test]
    fn others_stay() {
        for bytes in [&["a", "b"][..], &["a", "b", "c", "d + 1"], &["a", "b", "c", "s"]] {
            assert_eq!(erased(&puts(bytes)), puts(bytes));
        }
        let other = puts(&["a", "b", "c", "d"]).replace("s.put_u8(c)", "t.put_u8(c)");
        assert_eq!(erased(&other), other);
    }
}
