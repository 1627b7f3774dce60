//! A server with canned answers, for psql, pgbench and tests of clients:
//!
//! ```text
//! canned_server [PORT]
//! ```
//!
//! Listens on PORT of 127.0.0.1, or a free one, and says which. It trusts everyone, and speaks 3.2 to who asks for it.

mod answers;
mod session;

use pgmsg::frontend::Message;
use session::Session;
use std::error::Error;
use std::io::{Read, Write};
use std::net::{TcpListener, TcpStream};
use std::{env, thread};

type Result<T> = std::result::Result<T, Box<dyn Error>>;

fn serve(mut client: TcpStream) -> Result<()> {
    let (mut stream, mut session) = (vec![], Session::default());
    let mut block = [0; 1 << 16];
    loop {
        let mut rest = &stream[..];
        while let Some(asked) = session.connection.receive(&mut rest)? {
            match asked.message()? {
                Message::Terminate => return Ok(()),
                Message::CancelRequest(request) => {
                    let words = if session::is_known(&request) { "names" } else { "doesn't name" };
                    println!("the request to cancel {words} the session");
                    return Ok(());
                }
                message => session.take(message)?,
            }
        }
        let left = rest.len();
        stream.drain(..stream.len() - left);
        client.write_all(&session.out)?;
        session.out.clear();
        match client.read(&mut block)? {
            0 => return Err("the client is gone".into()),
            count => stream.extend_from_slice(&block[..count]),
        }
    }
}

fn main() -> Result<()> {
    let port = env::args().nth(1).map_or(Ok(0), |port| port.parse())?;
    let listener = TcpListener::bind(("127.0.0.1", port))?;
    let port = listener.local_addr()?.port();
    println!("listening on 127.0.0.1 port {port}");
    for client in listener.incoming() {
        let client = client?;
        thread::spawn(move || serve(client).unwrap_or_else(|why| eprintln!("{why}")));
    }
    Ok(())
}
