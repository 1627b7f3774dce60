//! What is taken out of a recording: the table `redact` of a file of rules, which has those of a replay too.

use super::mask::Mask;
use super::masked_ranges::MaskedRanges;
use crate::failure::{Result, TapeFailure, TapeStatus};
use regex::bytes::Regex;
use rules::{Pattern, RulesFile};
use std::path::Path;

/// A rule, and whether it matched something.
struct RedactionRule<T> {
    what: T,
    name: String,
    is_met: bool,
}

impl<T> RedactionRule<T> {
    fn new(what: T, name: String) -> RedactionRule<T> {
        RedactionRule { what, name, is_met: false }
    }
}

#[derive(Default)]
pub struct RedactionRules {
    columns: Vec<RedactionRule<String>>,
    parameters: Vec<RedactionRule<(Regex, Vec<usize>)>>,
    statements: Vec<RedactionRule<Regex>>,
    texts: Vec<RedactionRule<Regex>>,
}

fn regex(pattern: &str) -> std::result::Result<Regex, String> {
    Regex::new(pattern).map_err(|why| format!("the pattern {pattern:?}: {why}"))
}

/// Makes something of each rule of a kind.
fn each<R, T>(
    rules: Vec<R>,
    make: impl Fn(R) -> std::result::Result<T, String>,
) -> std::result::Result<Vec<T>, String> {
    rules.into_iter().map(make).collect()
}

impl RedactionRules {
    /// Reads a file of rules.
    pub fn read(path: &Path) -> Result<RedactionRules> {
        let text = std::fs::read_to_string(path).map_err(|why| TapeFailure::unread(path, &why))?;
        RedactionRules::parse(&text).map_err(|why| {
            TapeFailure::new(TapeStatus::Usage, format!("{}: {why}", path.display()))
        })
    }

    pub fn parse(text: &str) -> std::result::Result<RedactionRules, String> {
        let RulesFile { redact, .. } = RulesFile::parse(text).map_err(|why| why.to_string())?;
        let pattern = |table: &'static str| {
            move |it: Pattern| {
                Ok(RedactionRule::new(
                    regex(&it.pattern)?,
                    format!("[[redact.{table}]] pattern = {:?}", it.pattern),
                ))
            }
        };
        Ok(RedactionRules {
            columns: each(redact.column, |it| {
                let name = format!("[[redact.column]] name = {:?}", it.name);
                Ok(RedactionRule::new(it.name, name))
            })?,
            parameters: each(redact.parameter, |it| {
                let name = format!(
                    "[[redact.parameter]] statement = {:?}, positions = {:?}",
                    it.statement, it.positions
                );
                Ok(RedactionRule::new((regex(&it.statement)?, it.positions), name))
            })?,
            statements: each(redact.statement, pattern("statement"))?,
            texts: each(redact.text, pattern("text"))?,
        })
    }

    /// Whether columns are looked at.
    pub fn have_columns(&self) -> bool {
        !self.columns.is_empty()
    }

    /// Whether parameters of statements are.
    pub fn have_parameters(&self) -> bool {
        !self.parameters.is_empty() || !self.statements.is_empty()
    }

    /// Whether values of a column are masked.
    pub fn column(&mut self, name: &[u8]) -> bool {
        met(self.columns.iter_mut().filter(|it| it.what.as_bytes() == name))
    }

    /// Whether the value of a parameter is masked, by its position from 1 on.
    pub fn parameter(&mut self, sql: &[u8], position: usize) -> bool {
        let fits = |it: &&mut RedactionRule<(Regex, Vec<usize>)>| {
            it.what.1.contains(&position) && it.what.0.is_match(sql)
        };
        met(self.parameters.iter_mut().filter(fits))
    }

    /// Whether the literals and the parameters of a statement are masked.
    pub fn statement(&mut self, sql: &[u8]) -> bool {
        met(self.statements.iter_mut().filter(|it| it.what.is_match(sql)))
    }

    /// Has what patterns match masked in a text: the first group of each match, where the pattern has one.
    pub fn texts(&mut self, text: &[u8], ranges: &mut MaskedRanges<'_>) {
        for rule in &mut self.texts {
            for found in rule.what.captures_iter(text) {
                let part = found.get(1).or_else(|| found.get(0));
                if let Some(part) = part.filter(|it| !it.as_bytes().is_empty()) {
                    rule.is_met = true;
                    ranges.add(part.as_bytes(), Mask::Text);
                }
            }
        }
    }

    /// The rules that matched nothing.
    pub fn idle(&self) -> Vec<&str> {
        let patterns = self.statements.iter().chain(&self.texts).map(|it| (it.is_met, &it.name));
        let columns = self.columns.iter().map(|it| (it.is_met, &it.name));
        let parameters = self.parameters.iter().map(|it| (it.is_met, &it.name));
        let all = columns.chain(parameters).chain(patterns);
        all.filter(|(is_met, _)| !is_met).map(|(_, name)| name.as_str()).collect()
    }
}

/// Notes that rules are met, and tells whether there are any.
fn met<'r, T: 'r>(rules: impl Iterator<Item = &'r mut RedactionRule<T>>) -> bool {
    rules.map(|rule| rule.is_met = true).count() > 0
}

#[cfg(test)]
mod tests {
    use super::*;

    #[test]
    fn a_file_has_the_rules_of_a_replay_too() {
        let text = r#"
            [[replace]]
            pattern = "a"
            with = "b"
            [settings]
            ignore = ["application_name"]
            [[redact.column]]
            name = "email"
            [[redact.parameter]]
            statement = "(?i)insert into users"
            positions = [1, 3]
            [[redact.text]]
            pattern = 'card (\d+)'
        "#;
        let mut rules = RedactionRules::parse(text).unwrap();
        assert!(rules.column(b"email") && !rules.column(b"Email"));
        assert!(
            rules.parameter(b"INSERT INTO users ..", 3)
                && !rules.parameter(b"INSERT INTO users ..", 2)
        );
        assert!(!rules.statement(b"SELECT"));
        assert_eq!(rules.idle(), [r#"[[redact.text]] pattern = "card (\\d+)""#]);
    }

    #[test]
    fn faults_are_named() {
        let table = [
            ("[[redact.column]]\nnam = 'a'", "unknown field `nam`"),
            ("[[redact.columns]]\nname = 'a'", "unknown field `columns`"),
            ("[[redacted.column]]\nname = 'a'", "unknown field `redacted`"),
            ("[[redact.text]]\npattern = '('", "the pattern \"(\""),
            ("redact = 5", "invalid type"),
        ];
        for (text, words) in table {
            let why = RedactionRules::parse(text).err().unwrap();
            assert!(why.contains(words), "{why}");
        }
    }
}
