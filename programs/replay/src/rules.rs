//! What may differ between a client and the recorded one: the rules of a file, and those of the options.

use crate::fingerprint::LiteralKind;
use anyhow::{Context, Result};
use regex::bytes::Regex;
use rules::RulesFile;
use std::borrow::Cow;
use std::collections::HashSet;
use std::path::Path;

/// What may differ.
#[derive(Clone, Default)]
pub struct ReplayRules {
    replaced: Vec<(Regex, String)>,
    parameters: Vec<(Regex, Vec<usize>)>,
    ignored: Vec<(Regex, String)>,
    settings: HashSet<Vec<u8>>,
    any_parameters: HashSet<usize>,
    literals: Vec<LiteralKind>,
}

fn regex(pattern: &str) -> Result<Regex> {
    Regex::new(pattern).with_context(|| format!("the pattern {pattern:?}"))
}

/// Makes something of each rule of a kind.
fn each<R, T>(rules: Vec<R>, make: impl Fn(R) -> Result<T>) -> Result<Vec<T>> {
    rules.into_iter().map(make).collect()
}

impl ReplayRules {
    /// Reads a file of rules.
    pub fn read(path: &Path) -> Result<ReplayRules> {
        let text = std::fs::read_to_string(path)?;
        ReplayRules::parse(&text)
    }

    fn parse(text: &str) -> Result<ReplayRules> {
        let file = RulesFile::parse(text)?;
        Ok(ReplayRules {
            replaced: each(file.replace, |it| Ok((regex(&it.pattern)?, it.with)))?,
            parameters: each(file.parameter, |it| Ok((regex(&it.statement)?, it.positions)))?,
            ignored: each(file.ignore, |it| Ok((regex(&it.statement)?, it.command)))?,
            settings: file.settings.ignore.into_iter().map(String::into_bytes).collect(),
            ..ReplayRules::default()
        })
    }

    /// These rules, and those of another text.
    pub fn and(&self, text: &str) -> Result<ReplayRules> {
        let (mut all, more) = (self.clone(), ReplayRules::parse(text)?);
        all.replaced.extend(more.replaced);
        all.parameters.extend(more.parameters);
        all.ignored.extend(more.ignored);
        all.settings.extend(more.settings);
        Ok(all)
    }

    /// Adds what the options let differ.
    pub fn allow(&mut self, settings: &[String], parameters: &[u16], literals: &[LiteralKind]) {
        self.settings.extend(settings.iter().map(|it| it.as_bytes().to_vec()));
        self.any_parameters.extend(parameters.iter().map(|it| usize::from(*it)));
        self.literals.extend_from_slice(literals);
    }

    /// A text of SQL with what the rules replace in it.
    pub fn text<'t>(&self, query: &'t [u8]) -> Cow<'t, [u8]> {
        let mut text = Cow::Borrowed(query);
        for (pattern, with) in &self.replaced {
            if let Cow::Owned(changed) = pattern.replace_all(&text, with.as_bytes()) {
                text = Cow::Owned(changed);
            }
        }
        text
    }

    /// The parameters of a statement whose values may differ, from 1 on.
    pub fn free_parameters(&self, text: &[u8]) -> Vec<usize> {
        let fit = self.parameters.iter().filter(|(pattern, _)| pattern.is_match(text));
        fit.flat_map(|(_, positions)| positions.iter().copied()).collect()
    }

    /// The tag of the command by which a statement is answered that may be said though it isn't recorded.
    pub fn ignored(&self, text: &[u8]) -> Option<&str> {
        let fit = self.ignored.iter().find(|(pattern, _)| pattern.is_match(text));
        fit.map(|(_, command)| command.as_str())
    }

    pub fn is_any_setting(&self, name: &[u8]) -> bool {
        self.settings.contains(name)
    }

    /// Whether the value of a parameter may differ in each Bind, by its position from 1 on.
    pub fn is_any_parameter(&self, position: usize) -> bool {
        self.any_parameters.contains(&position)
    }

    /// The kinds of literals that may differ.
    pub fn literals(&self) -> &[LiteralKind] {
        &self.literals
    }
}
