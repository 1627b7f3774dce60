//! A walk over the tokens of a source.

use crate::edits::Edits;
use crate::imports::Import;
use crate::token::{tokens_and_docs, Kind, Token};
use crate::{Names, Refusal};
use std::collections::BTreeSet;
use std::ops::Range;

/// What the walk knows: where it stands, and what it changes.
pub(crate) struct Eraser<'a> {
    pub source: &'a str,
    pub tokens: Vec<Token<'a>>,
    /// Where the doc comments are.
    pub docs: Vec<Range<usize>>,
    pub at: usize,
    pub edits: Edits,
    pub names: &'a Names,
    /// Names of the stand-in that the source takes without an import.
    pub prelude: BTreeSet<&'static str>,
    /// Macros that the source defines.
    pub macros: BTreeSet<&'a str>,
    /// Fields that are slices of structs that C fills, of those that the source names.
    pub c_fields: BTreeSet<&'a str>,
    /// Whether the items are those of a trait.
    pub is_in_trait: bool,
    /// Functions of others that the source declares.
    pub foreign: BTreeSet<&'a str>,
    /// Where the imports of those are to be added: the first `use` or else the first item, and whether it is a `use`.
    pub front: Option<(usize, bool)>,
    /// The imports of the source.
    pub imports: Vec<Import>,
    /// Constants whose imports go, with their paths.
    pub gone: Vec<(&'a str, String)>,
    /// Words of contracts, which go.
    pub said: BTreeSet<&'a str>,
    /// Words of what stays.
    pub used: BTreeSet<&'a str>,
}

impl<'a> Eraser<'a> {
    pub fn new(source: &'a str, names: &'a Names) -> Result<Self, Refusal> {
        let (tokens, docs) = tokens_and_docs(source)?;
        let slices = tokens.iter().filter_map(|token| names.c_structs().slices_of(token.text));
        Ok(Eraser {
            source,
            c_fields: slices.flatten().map(String::as_str).collect(),
            tokens,
            docs,
            at: 0,
            edits: Edits::default(),
            names,
            prelude: BTreeSet::new(),
            macros: BTreeSet::new(),
            is_in_trait: false,
            foreign: BTreeSet::new(),
            front: None,
            imports: Vec::new(),
            gone: Vec::new(),
            said: BTreeSet::new(),
            used: BTreeSet::new(),
        })
    }

    /// The text of the token that is so many further, empty past the end.
    pub fn text(&self, further: usize) -> &'a str {
        self.text_at(self.at + further)
    }

    pub fn text_at(&self, index: usize) -> &'a str {
        self.tokens.get(index).map_or("", |token| token.text)
    }

    pub fn kind_at(&self, index: usize) -> Option<Kind> {
        self.tokens.get(index).map(|token| token.kind)
    }

    pub fn is_word(&self, further: usize) -> bool {
        self.kind_at(self.at + further) == Some(Kind::Word)
    }

    /// Refuses the source for what stands here.
    pub fn refuse<T>(&self, why: &str) -> Result<T, Refusal> {
        let at = self.tokens.get(self.at).map_or(self.source.len(), |token| token.at);
        let what = match self.text(0) {
            "" => "the end".into(),
            text => format!("`{text}`"),
        };
        Err(Refusal::at(self.source, at, format!("{what}: {why}")))
    }

    /// Takes a token of this text, where it stands here.
    pub fn takes(&mut self, text: &str) -> bool {
        let is_here = self.text(0) == text;
        self.at += usize::from(is_here);
        is_here
    }

    pub fn expect(&mut self, text: &str) -> Result<(), Refusal> {
        match self.takes(text) {
            true => Ok(()),
            false => self.refuse(&format!("`{text}` is due")),
        }
    }

    pub fn word(&mut self) -> Result<&'a str, Refusal> {
        if !self.is_word(0) {
            return self.refuse("a name is due");
        }
        self.at += 1;
        Ok(self.text_at(self.at - 1))
    }

    /// Takes a group in brackets of this kind: the tokens within it.
    pub fn group(&mut self, open: &str) -> Result<Range<usize>, Refusal> {
        if self.text(0) != open {
            return self.refuse(&format!("`{open}` is due"));
        }
        let inner = self.at + 1..self.tokens[self.at].close;
        self.at = inner.end + 1;
        Ok(inner)
    }

    /// Goes on to the first token of these outside of brackets, before `end`.
    pub fn go_to(&mut self, stops: &[&str], end: usize) -> Result<(), Refusal> {
        while self.at < end {
            if stops.contains(&self.text(0)) {
                return Ok(());
            }
            self.at = self.tokens[self.at].close + 1;
        }
        self.refuse(&format!("one of `{}` is due", stops.join("` `")))
    }

    /// Notes the words of a contract.
    pub fn say(&mut self, range: Range<usize>) {
        self.said.extend(self.tokens[range].iter().map(|token| token.text));
    }

    /// Where the comments above a token begin.
    pub fn leads_of(&self, index: usize) -> usize {
        self.tokens[index].leads
    }

    /// Where the last token that was taken ends.
    pub fn end_of_last(&self) -> usize {
        self.tokens[self.at - 1].end()
    }

    /// Takes out the tokens from one to here, with the comments above them and their lines.
    pub fn delete_from(&mut self, first: usize) {
        let range = self.leads_of(first)..self.end_of_last();
        self.edits.delete_lines(range);
    }

    /// The spaces at the front of the line of a token.
    pub fn indent_of(&self, index: usize) -> &'a str {
        let before = &self.source[..self.tokens[index].at];
        let line = &self.source[before.rfind('\n').map_or(0, |at| at + 1)..];
        &line[..line.len() - line.trim_start_matches(' ').len()]
    }
}
