//! Which rules are advised: none by which two recorded requests with different answers would be one.

use crate::recorded::{load, CompareBy, Recording};
use crate::rules::ReplayRules;
use anyhow::{ensure, Result};
use std::collections::HashMap;
use std::fs;
use std::sync::{Arc, Mutex, PoisonError};

/// For a rule the recording is read once more: one of up to so many bytes, and for so many rules in all.
const BYTES_MOST: u64 = 64 << 20;
const RULES_MOST: usize = 100;
/// A rule of so many bytes at most is shown.
const SHOWN: usize = 4096;

/// Looks at rules before they are advised.
pub struct RuleAdviser {
    recording: Arc<Recording>,
    rules: Arc<ReplayRules>,
    /// What was said of each rule.
    said: Mutex<HashMap<String, String>>,
}

/// Two recorded messages.
type RequestPair = (usize, usize);

impl RuleAdviser {
    pub fn new(recording: Arc<Recording>, rules: Arc<ReplayRules>) -> RuleAdviser {
        RuleAdviser { recording, rules, said: Mutex::default() }
    }

    /// What is said of a rule, in lines: the rule itself, or why it isn't advised.
    pub fn words(&self, rule: &str) -> String {
        if rule.len() > SHOWN {
            return format!("\nno rule is advised: it would be longer than {SHOWN} bytes");
        }
        let mut said = self.said.lock().unwrap_or_else(PoisonError::into_inner);
        if let Some(words) = said.get(rule) {
            return words.clone();
        }
        if said.len() >= RULES_MOST {
            return format!("\nno rule is advised: {RULES_MOST} have been looked at");
        }
        let words = match self.joined(rule) {
            Ok(None) => format!("\nto let this differ, in a file for --rules:\n{rule}"),
            Ok(Some(pair)) => format!("\nno rule is advised: {}", self.of_pair(pair)),
            Err(why) => format!("\nno rule is advised: {why}"),
        };
        said.insert(rule.to_owned(), words.clone());
        words
    }

    fn of_pair(&self, (one, other): RequestPair) -> String {
        let place = |it: usize| {
            let number = self.recording.requests.number(it);
            format!("message {number} of connection {}", self.recording.connection_of(it))
        };
        let (one, other) = (place(one), place(other));
        format!("by it {one} and {other} would be the same, whose answers differ")
    }

    /// Two messages that are the same by a rule, and not without it, with different answers.
    fn joined(&self, rule: &str) -> Result<Option<RequestPair>> {
        let length = fs::metadata(&self.recording.path)?.len();
        ensure!(length <= BYTES_MOST, "the recording is too long to be read for it once more");
        let rules = Arc::new(self.rules.and(rule)?);
        let read = load(&self.recording.path, &rules, false, &|_| ())?;
        ensure!(read.requests.len() == self.recording.requests.len(), "the recording was changed");
        let mut groups: HashMap<u32, MergedRequests> = HashMap::new();
        for said in 0..read.requests.len() {
            let (CompareBy::Fingerprint(before), CompareBy::Fingerprint(fingerprint)) =
                (self.recording.requests.compare_by(said), read.requests.compare_by(said))
            else {
                continue;
            };
            // Each login has another key, and what follows it may be another session.
            let is_startup = self.recording.is_startup(said);
            let sum = if is_startup { before.into() } else { self.recording.sum_of(said) };
            let message = AnsweredRequest { said, fingerprint: before, sum };
            let pair = groups
                .entry(fingerprint)
                .or_insert_with(|| MergedRequests::new(message))
                .add(message);
            if pair.is_some() {
                return Ok(pair);
            }
        }
        Ok(None)
    }
}

/// A message, its fingerprint without the rule, and its answer.
#[derive(Clone, Copy)]
struct AnsweredRequest {
    said: usize,
    fingerprint: u32,
    sum: u64,
}

/// Messages that are the same by a rule.
struct MergedRequests {
    first: AnsweredRequest,
    /// One that is another without the rule and has the answer of the first, and one that is the same and has another.
    other: Option<AnsweredRequest>,
    apart: Option<AnsweredRequest>,
}

impl MergedRequests {
    fn new(first: AnsweredRequest) -> MergedRequests {
        MergedRequests { first, other: None, apart: None }
    }

    /// Adds a message, and gives two that are others without the rule, and have different answers.
    fn add(&mut self, it: AnsweredRequest) -> Option<RequestPair> {
        let (is_same, is_alike) =
            (it.fingerprint == self.first.fingerprint, it.sum == self.first.sum);
        match (is_same, is_alike) {
            (false, false) => return Some((self.first.said, it.said)),
            (false, true) => self.other = self.other.or(Some(it)),
            (true, false) => self.apart = self.apart.or(Some(it)),
            (true, true) => {}
        }
        let (other, apart) = (self.other?.said, self.apart?.said);
        Some((other.min(apart), other.max(apart)))
    }
}

#[cfg(test)]
mod tests {
    use super::*;

    /// The pair that messages with these fingerprints and answers have.
    fn pair(messages: &[(u32, u64)]) -> Option<RequestPair> {
        let said = messages.iter().enumerate().map(|(said, (fingerprint, sum))| AnsweredRequest {
            said,
            fingerprint: *fingerprint,
            sum: *sum,
        });
        let said: Vec<_> = said.collect();
        let mut group = MergedRequests::new(said[0]);
        said.iter().find_map(|it| group.add(*it))
    }

    #[test]
    fn messages_that_were_others_and_have_different_answers_are_found() {
        assert_eq!(pair(&[(1, 1)]), None);
        assert_eq!(pair(&[(1, 1), (2, 1), (3, 1)]), None);
        assert_eq!(pair(&[(1, 1), (1, 2), (1, 3)]), None);
        assert_eq!(pair(&[(1, 1), (1, 1), (2, 2)]), Some((0, 2)));
        assert_eq!(pair(&[(1, 1), (2, 1), (1, 2)]), Some((1, 2)));
        assert_eq!(pair(&[(1, 1), (1, 2), (2, 1)]), Some((1, 2)));
    }
}
