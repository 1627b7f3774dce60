//! The words of errors and notices.

use crate::error::{DatabaseError, PgDatabaseError, PgErrorPosition};
use crate::message::Notice;
use crate::outcome::Answer;
use crate::words::{hex, hex_or_none, list, number_or_none};

impl Answer for PgDatabaseError {
    fn words(&self) -> String {
        let position = match self.position() {
            None => "none".to_owned(),
            Some(PgErrorPosition::Original(position)) => format!("original:{position}"),
            Some(PgErrorPosition::Internal { position, query }) => {
                format!("internal:{position}:{}", hex(query))
            }
        };
        let words = [
            ("severity", (self.severity() as u8).to_string()),
            ("code", hex(self.code())),
            ("message", hex(self.message())),
            ("detail", hex_or_none(self.detail())),
            ("hint", hex_or_none(self.hint())),
            ("position", position),
            ("where", hex_or_none(self.r#where())),
            ("schema", hex_or_none(self.schema())),
            ("table", hex_or_none(self.table())),
            ("column", hex_or_none(self.column())),
            ("data_type", hex_or_none(self.data_type())),
            ("constraint", hex_or_none(self.constraint())),
            ("file", hex_or_none(self.file())),
            ("line", number_or_none(self.line())),
            ("routine", hex_or_none(self.routine())),
            ("kind", format!("{:?}", self.kind())),
            (
                "transient",
                u8::from(self.is_transient_in_connect_phase()).to_string(),
            ),
            ("display", hex(self.to_string())),
        ];
        words
            .iter()
            .map(|(key, value)| format!(" {key}={value}"))
            .collect()
    }
}

impl Answer for Notice {
    fn words(&self) -> String {
        let severity = self.severity();
        let raw = (0..=u8::MAX).filter_map(|letter| {
            let bytes = self.get_raw(letter)?;
            Some(format!("{letter:02x}:{}", hex(bytes)))
        });
        let text =
            (0..=u8::MAX).filter_map(|letter| self.get(letter).map(|_| format!("{letter:02x}")));
        format!(
            " severity={} is_error={} code={} message={} raw={} text={}",
            severity as u8,
            u8::from(severity.is_error()),
            hex(self.code()),
            hex(self.message()),
            list(raw),
            list(text)
        )
    }
}
