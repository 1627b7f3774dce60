//! A file of rules in TOML: what may differ in a replay, and what is taken out of a recording. Each type is named after
//! its table.
#![forbid(unsafe_code)]

use serde::Deserialize;

/// A file of rules. Each program takes its own of them, and refuses a file with a fault in any.
#[derive(Debug, Default, Deserialize)]
#[serde(deny_unknown_fields, default)]
pub struct RulesFile {
    /// What is replaced in the text of SQL before it is compared.
    pub replace: Vec<Replace>,
    /// Values that may differ.
    pub parameter: Vec<Parameter>,
    /// Statements that may be missing, or said though they aren't recorded.
    pub ignore: Vec<Ignore>,
    /// Settings of the Startup.
    pub settings: Settings,
    /// What is taken out.
    pub redact: Redact,
}

/// A pattern, and what stands in the place of what it matches.
#[derive(Debug, Deserialize)]
#[serde(deny_unknown_fields)]
pub struct Replace {
    pub pattern: String,
    pub with: String,
}

/// Parameters of the statements that a pattern matches, by their positions from 1 on.
#[derive(Debug, Deserialize)]
#[serde(deny_unknown_fields)]
pub struct Parameter {
    pub statement: String,
    pub positions: Vec<usize>,
}

/// A pattern of statements.
#[derive(Debug, Deserialize)]
#[serde(deny_unknown_fields)]
pub struct Ignore {
    pub statement: String,
    /// What a client hears of a statement that isn't recorded.
    pub command: String,
}

/// Settings that may differ, by their names.
#[derive(Debug, Default, Deserialize)]
#[serde(deny_unknown_fields, default)]
pub struct Settings {
    pub ignore: Vec<String>,
}

/// What is taken out of a recording.
#[derive(Debug, Default, Deserialize)]
#[serde(deny_unknown_fields, default)]
pub struct Redact {
    pub column: Vec<Column>,
    pub parameter: Vec<Parameter>,
    /// Statements whose literals and parameters are.
    pub statement: Vec<Pattern>,
    /// Texts of any kind.
    pub text: Vec<Pattern>,
}

/// The values of a column of results.
#[derive(Debug, Deserialize)]
#[serde(deny_unknown_fields)]
pub struct Column {
    pub name: String,
}

/// A regular expression.
#[derive(Debug, Deserialize)]
#[serde(deny_unknown_fields)]
pub struct Pattern {
    pub pattern: String,
}

impl RulesFile {
    /// Reads the text of a file.
    pub fn parse(text: &str) -> Result<RulesFile, toml::de::Error> {
        toml::from_str(text)
    }
}
