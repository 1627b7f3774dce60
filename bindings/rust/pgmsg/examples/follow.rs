//! Follows a publication by a slot of pgoutput, and appends each change to a file as a line of JSON:
//! `follow ADDRESS USER DATABASE SLOT PUBLICATION FILE`, of a server that trusts the user.
//!
//! After the lines of a transaction comes one with the position of its end, of which the server is told once that line is
//! on the disk. At the start what follows the last such line is cut off, and the server goes on from its position. A text
//! that isn't UTF-8 ends the program before the server is told of it.

use pgmsg::backend::{Authentication, FieldKind, Message};
use pgmsg::connection::{Answer, ClientSide, Connection};
use pgmsg::flow::Heard;
use pgmsg::frontend::{self, Startup};
use pgmsg::replication::logical::{Datum, LogicalMessage::*, LogicalStream, Old, Tuple};
use pgmsg::replication::{Message as Data, StandbyStatusUpdate};
use std::collections::HashMap;
use std::io::{BufWriter, Read, Write};
use std::{env, error, fs, net, str};

type Result<T> = std::result::Result<T, Box<dyn error::Error>>;

/// A text as JSON.
fn quoted(text: &[u8]) -> Result<String> {
    let escaped = |it: char| match it {
        '"' | '\\' | '\0'..='\x1f' => format!("\\u{:04x}", it as u32),
        _ => it.into(),
    };
    Ok(format!("\"{}\"", str::from_utf8(text)?.chars().map(escaped).collect::<String>()))
}

/// The columns of a row that are sent, as the members of a JSON object.
fn members(columns: &[String], row: Tuple) -> Result<Vec<String>> {
    let mut members = Vec::new();
    for (column, value) in columns.iter().zip(row) {
        match value {
            Datum::Null => members.push(format!("{column}: null")),
            Datum::Text(text) => members.push(format!("{column}: {}", quoted(text)?)),
            _ => {}
        }
    }
    Ok(members)
}

/// The position of the last transaction that is whole, what follows which is cut off.
fn last_position(file: &mut fs::File) -> Result<u64> {
    let (mut bytes, mut at, mut end, mut position) = (Vec::new(), 0, 0, 0);
    file.read_to_end(&mut bytes)?;
    for line in bytes.split_inclusive(|&byte| byte == b'\n') {
        at += line.len();
        let number = line.strip_prefix(br#"{"commit": "#).and_then(|it| it.strip_suffix(b"}\n"));
        if let Some(number) = number {
            (end, position) = (at, str::from_utf8(number)?.parse()?);
        }
    }
    file.set_len(end as u64)?;
    Ok(position)
}

/// The connection and what is to be sent, what the lines go to, of each table its name and those of its columns, and what the
/// server is told.
struct Follower {
    connection: Connection<ClientSide>,
    out: Vec<u8>,
    file: BufWriter<fs::File>,
    tables: HashMap<u32, (String, Vec<String>)>,
    changes: LogicalStream,
    status: StandbyStatusUpdate,
    start: String,
}

impl Follower {
    fn add(&mut self, what: &str, id: u32, old: Option<Old>, new: Option<Tuple>) -> Result<()> {
        let (table, columns) = self.tables.get(&id).ok_or("a change of an unknown table")?;
        write!(self.file, r#"{{"change": "{what}", "table": {table}"#)?;
        let old = old.map(|(Old::Key(row) | Old::Whole(row))| ("old", row));
        for (name, row) in old.into_iter().chain(new.map(|row| ("new", row))) {
            write!(self.file, r#", "{name}": {{{}}}"#, members(columns, row)?.join(", "))?;
        }
        Ok(writeln!(self.file, "}}")?)
    }

    /// Takes a message of pgoutput.
    fn change(&mut self, content: &[u8]) -> Result<()> {
        match self.changes.read(content)? {
            Relation(it) => {
                let name = quoted(&[it.schema, b".", it.name].concat())?;
                let columns: Result<_> = it.columns.iter().map(|it| quoted(it.name)).collect();
                self.tables.insert(it.relation, (name, columns?));
            }
            Insert(it) => self.add("insert", it.relation, None, Some(it.new))?,
            Update(it) => self.add("update", it.relation, it.old, Some(it.new))?,
            Delete(it) => self.add("delete", it.relation, Some(it.old), None)?,
            Truncate(it) => {
                it.relations.iter().try_for_each(|it| self.add("truncate", it, None, None))?
            }
            Commit(it) => {
                writeln!(self.file, r#"{{"commit": {}}}"#, it.end_lsn)?;
                self.file.flush().and_then(|()| self.file.get_ref().sync_data())?;
                self.status.flushed = it.end_lsn;
                self.tell()?;
            }
            _ => {}
        }
        Ok(())
    }

    /// Tells the server of the position.
    fn tell(&mut self) -> Result<()> {
        let mut told = Vec::new();
        Data::StandbyStatusUpdate(self.status).write(&mut told)?;
        Ok(self.connection.send_frames(&told, &mut self.out)?)
    }

    /// Takes a message of the server.
    fn take(&mut self, answer: &Answer) -> Result<()> {
        match answer.message()? {
            Message::Authentication(Authentication::Ok) => {}
            Message::Authentication(_) => return Err("no trust".into()),
            Message::ErrorResponse(it) => {
                return Err(it.value(FieldKind::Message).unwrap_or_default().to_printable().into())
            }
            Message::ReadyForQuery(_) if answer.whose == Heard::Login => {
                let start = frontend::Message::Query(self.start[..].into());
                self.connection.send(&start, &mut self.out)?;
            }
            Message::ReadyForQuery(_) => return Err("the server has ended the changes".into()),
            Message::CopyData(data) => match Data::read(&data)? {
                Data::XLogData(log) => self.change(log.content)?,
                Data::PrimaryKeepalive(it) => {
                    // What was committed before it is on the disk.
                    self.status.flushed = self.status.flushed.max(it.end);
                    self.tell()?
                }
                _ => {}
            },
            Message::CopyDone => {
                self.connection.send(&frontend::Message::CopyDone, &mut self.out)?;
            }
            _ => {}
        }
        Ok(())
    }
}

fn main() -> Result<()> {
    let words: Vec<_> = env::args().collect();
    let [address, user, database, slot, publication, path] = [1, 2, 3, 4, 5, 6].map(|i| &*words[i]);
    let mut file = fs::OpenOptions::new().read(true).append(true).create(true).open(path)?;
    let position = last_position(&mut file)?;
    let from = format!("LOGICAL {:X}/{:X}", position >> 32, position as u32);
    let options = format!("proto_version '1', publication_names '{publication}'");
    let mut follower = Follower {
        connection: Connection::client(),
        out: Vec::new(),
        file: BufWriter::new(file),
        tables: HashMap::new(),
        changes: LogicalStream::new(),
        status: StandbyStatusUpdate::default(),
        start: format!("START_REPLICATION SLOT {slot} {from} ({options})"),
    };
    let of_user = [("user", user), ("database", database)];
    let settings = [&of_user[..], &[("replication", "database"), ("client_encoding", "UTF8")]];
    let settings = settings.concat();
    let startup = frontend::Message::Startup(Startup::new(&settings));
    follower.connection.send(&startup, &mut follower.out)?;
    let (mut socket, mut stream) = (net::TcpStream::connect(address)?, Vec::new());
    let mut block = [0; 1 << 16];
    loop {
        socket.write_all(&follower.out)?;
        follower.out.clear();
        match socket.read(&mut block)? {
            0 => return Err("the server closed the connection".into()),
            count => stream.extend_from_slice(&block[..count]),
        }
        let mut rest = &stream[..];
        while let Some(answer) = follower.connection.receive(&mut rest)? {
            follower.take(&answer)?;
        }
        let left = rest.len();
        stream.drain(..stream.len() - left);
    }
}
