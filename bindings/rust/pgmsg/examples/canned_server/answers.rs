//! The answers: a table.

use crate::session::Session;
use crate::Result;
use pgmsg::backend::{Column, CopyResponse, Field, FieldKind, Message};
use pgmsg::Format;

/// The two columns of a COPY, as text.
pub fn texts() -> CopyResponse<'static> {
    CopyResponse { format: 0, columns: [Format::TEXT; 2].into() }
}

/// What is answered to a query that has some words in it.
pub struct Canned {
    words: &'static str,
    pub answer: Answer,
    /// The tag of the command; of a failure the code.
    tag: &'static str,
}

pub enum Answer {
    /// Columns, with the object ids of their types, and rows.
    Rows(&'static [(&'static str, u32)], &'static [&'static [&'static str]]),
    CopyIn,
    /// Lines of data.
    CopyOut(&'static [&'static str]),
    /// Nothing but the tag.
    Done,
    Notify,
    /// A message.
    Failure(&'static str),
}

#[rustfmt::skip]
static TABLE: &[Canned] = &[
    // psql's \d asks for the tables.
    Canned { words: "pg_catalog.pg_class", tag: "SELECT 1", answer: Answer::Rows(
        &[("Schema", 19), ("Name", 19), ("Type", 25), ("Owner", 19)],
        &[&["public", "colours", "table", "ann"]],
    ) },
    Canned { words: "FROM STDIN", tag: "COPY", answer: Answer::CopyIn },
    Canned { words: "TO STDOUT", tag: "COPY 3", answer: Answer::CopyOut(&["1\tred\n", "2\tgreen\n", "3\tblue\n"]) },
    Canned { words: "LISTEN ", tag: "LISTEN", answer: Answer::Done },
    Canned { words: "NOTIFY ", tag: "NOTIFY", answer: Answer::Notify },
    Canned { words: "missing", tag: "42P01", answer: Answer::Failure("relation \"missing\" does not exist") },
    Canned { words: "SELECT 1", tag: "SELECT 1", answer: Answer::Rows(&[("?column?", 23)], &[&["1"]]) },
];

/// The answer to any other query.
pub static OTHER: Canned =
    Canned { words: "", tag: "0A000", answer: Answer::Failure("there is no answer to that") };

impl Canned {
    pub fn of(query: &str) -> &'static Canned {
        let known = TABLE.iter().find(|canned| query.contains(canned.words));
        known.unwrap_or(&OTHER)
    }

    /// Sends the columns, or that there are none.
    pub fn describe(&self, to: &mut Session) -> Result<()> {
        match self.answer {
            Answer::Rows(columns, _) => {
                let columns = columns.iter().map(|(name, id)| Column::new(*name, *id));
                to.say(Message::RowDescription(columns.collect()))
            }
            _ => to.say(Message::NoData),
        }
    }

    /// Sends what follows the columns up to the end of the command, or an error at the words in the query.
    pub fn finish(&self, query: &str, to: &mut Session) -> Result<()> {
        match self.answer {
            Answer::Failure(message) => return self.fail(query, message, to),
            Answer::Rows(_, rows) => {
                for row in rows {
                    let values = row.iter().map(|text| (*text).into());
                    to.say(Message::DataRow(values.collect()))?;
                }
            }
            Answer::CopyOut(lines) => {
                to.say(Message::CopyOutResponse(texts()))?;
                for line in lines {
                    to.say(Message::CopyData((*line).into()))?;
                }
                to.say(Message::CopyDone)?;
            }
            _ => {}
        }
        to.say(Message::CommandComplete(self.tag.into()))
    }

    fn fail(&self, query: &str, message: &str, to: &mut Session) -> Result<()> {
        let position = (query.find(self.words).unwrap_or(0) + 1).to_string();
        let fields = [
            Field::new(FieldKind::LocalizedSeverity, "ERROR"),
            Field::new(FieldKind::Severity, "ERROR"),
            Field::new(FieldKind::Code, self.tag),
            Field::new(FieldKind::Message, message),
            Field::new(FieldKind::Position, &position),
        ];
        to.say(Message::ErrorResponse((&fields).into()))
    }
}
