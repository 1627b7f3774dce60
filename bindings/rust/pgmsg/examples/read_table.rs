//! Logs in by SCRAM-SHA-256, and prints a table: `read_table ADDRESS USER PASSWORD DATABASE TABLE`.

use pgmsg::backend::{Authentication, FieldKind, Message};
use pgmsg::flow::Heard;
use pgmsg::frontend::{self, Startup};
use pgmsg::scram::{Client, Sha256};
use pgmsg::{ByteStr, Connection};
use std::io::{Read, Write};
use std::net::TcpStream;

fn main() -> Result<(), Box<dyn std::error::Error>> {
    let args: Vec<String> = std::env::args().skip(1).collect();
    let args = <[String; 5]>::try_from(args);
    let [address, user, password, database, table] =
        args.map_err(|_| "usage: read_table ADDRESS USER PASSWORD DATABASE TABLE")?;
    let mut random = [0; 18];
    std::fs::File::open("/dev/urandom")?.read_exact(&mut random)?;
    let nonce = random.map(|byte| format!("{byte:02x}")).concat();
    let mut scram = Client::<Sha256>::new(password.as_bytes(), &nonce);

    let (mut socket, mut out) = (TcpStream::connect(address)?, Vec::new());
    let settings = [("user", &user[..]), ("database", &database), ("client_encoding", "UTF8")];
    let (mut connection, mut stream) = (Connection::client(), Vec::new());
    connection.send(&frontend::Message::Startup(Startup::new(&settings)), &mut out)?;
    loop {
        socket.write_all(&out)?;
        out.clear();
        let mut block = [0; 8192];
        match socket.read(&mut block)? {
            0 => return Err("the server closed the connection".into()),
            count => stream.extend_from_slice(&block[..count]),
        }
        let mut rest = &stream[..];
        while let Some(answer) = connection.receive(&mut rest)? {
            match answer.message()? {
                Message::Authentication(Authentication::Ok) if scram.is_finished() => {}
                Message::Authentication(request) => {
                    let mut proof = Vec::new();
                    scram.respond(&request, &mut proof)?;
                    connection.send_frames(&proof, &mut out)?;
                }
                Message::ErrorResponse(fields) => {
                    let message = fields.value(FieldKind::Message).unwrap_or_default();
                    return Err(message.to_str_lossy().into());
                }
                Message::ReadyForQuery(_) if answer.whose == Heard::Login => {
                    let query = format!("TABLE {table}");
                    connection.send(&frontend::Message::Query((&query).into()), &mut out)?;
                }
                Message::ReadyForQuery(_) => return Ok(()),
                Message::DataRow(values) => {
                    let texts = values.iter().map(|value| value.bytes().unwrap_or(b"NULL"));
                    let texts: Vec<_> = texts.map(|text| ByteStr(text).to_printable()).collect();
                    println!("{}", texts.join("\t"));
                }
                _ => {}
            }
        }
        let left = rest.len();
        stream.drain(..stream.len() - left);
    }
}
