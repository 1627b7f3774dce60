//! A page in HTML that shows a recording: it holds all that it needs, and asks no network for anything.

use crate::event::Event;
use crate::exchange_numbers::ExchangeNumbers;
use crate::failure::Result;
use crate::line::LineWriter;
use crate::output::Output;
use crate::progress::Progress;
use crate::recording_file::RecordingFile;
use std::path::Path;

const PAGE: &str = include_str!("page.html");
const STYLE: &str = include_str!("page.css");
const SCRIPT: [&str; 4] = [
    include_str!("data.js"),
    include_str!("list.js"),
    include_str!("lanes.js"),
    include_str!("page.js"),
];

/// The longest line that is in the page; of others it has the length.
const LONGEST: usize = 16 << 10;
/// How many bytes are held to be written at once.
const ROOM: usize = 1 << 16;

/// Writes the page of a recording.
pub fn view(path: &Path, to: &Path) -> Result<()> {
    let mut recording = RecordingFile::open(path, &Progress::new("view", &[path]))?;
    let mut out = Output::create(to)?;
    let name = path.file_name().unwrap_or_default().to_string_lossy();
    // The name of the file comes last: it may be that of any part.
    let page = PAGE.replace("{{style}}", STYLE).replace("{{script}}", &SCRIPT.concat());
    let (before, after) = page.split_once("{{data}}").unwrap_or((&page, ""));
    let before = before.replace("{{title}}", &text(&name));
    out.put(before.as_bytes())?;
    let mut rows = EventRows::default();
    recording.events(|event| {
        rows.add(&event);
        if rows.out.len() > ROOM {
            out.put(&rows.out)?;
            rows.out.clear();
        }
        Ok(())
    })?;
    recording.say_cut();
    out.put(&rows.out)?;
    out.put(if rows.count == 0 { b"[]\n" } else { b"]\n" })?;
    out.put(after.as_bytes())?;
    out.end()
}

/// A text in HTML.
fn text(text: &str) -> String {
    text.replace('&', "&amp;").replace('<', "&lt;").replace('"', "&quot;")
}

/// The lines of an export as an array, each with the number of its exchange.
#[derive(Default)]
struct EventRows {
    out: Vec<u8>,
    count: u64,
    writer: LineWriter,
    exchanges: ExchangeNumbers,
    line: Vec<u8>,
}

impl EventRows {
    fn add(&mut self, event: &Event<'_>) {
        self.line.clear();
        self.writer.event(&mut self.line, event);
        let exchange = self.exchanges.number(event.connection, &event.kind);
        let fields = match self.line.strip_prefix(b"{") {
            Some(fields) => fields,
            None => return,
        };
        self.out.extend_from_slice(if self.count == 0 { b"[{" } else { b",{" });
        self.count += 1;
        if let Some(exchange) = exchange {
            self.out.extend_from_slice(format!("\"exchange\":{exchange},").as_bytes());
        }
        match fields.len() > LONGEST {
            true => put_long(&mut self.out, fields),
            false => put_script(&mut self.out, fields),
        }
    }
}

/// Adds the place and the kind of a line, and its length.
fn put_long(out: &mut Vec<u8>, fields: &[u8]) {
    let kind = b"\"kind\":\"";
    let start =
        fields.windows(kind.len()).position(|it| it == kind).map_or(0, |at| at + kind.len());
    let end = start + fields[start..].iter().position(|it| *it == b'"').unwrap_or(0);
    out.extend_from_slice(&fields[..end]);
    out.extend_from_slice(format!("\",\"long\":{}}}\n", fields.len()).as_bytes());
}

/// Adds JSON so that nothing in it ends a script.
fn put_script(out: &mut Vec<u8>, json: &[u8]) {
    let mut parts = json.split(|it| *it == b'<');
    out.extend_from_slice(parts.next().unwrap_or_default());
    for part in parts {
        out.extend_from_slice(b"\\u003c");
        out.extend_from_slice(part);
    }
}
