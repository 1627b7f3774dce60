//! Prints a line for each message that a client says, from the start of its connection:
//!
//!     said_lines < STREAM
//!     said_lines FILE..      those of the stream in each file, and then an empty line
//!
//! The lines are those of `pg_tool server stream`: a message and its fields, or the words of its fault, as soon as it is
//! whole; at last how many bytes are no whole message, or what is wrong with the stream.
#![forbid(unsafe_code)]

use pgmsg::{Decoder, Fault, Next};
use std::fs::File;
use std::io::{self, Read, Write};

/// The bytes that came after the last message.
struct ClientStream {
    bytes: Vec<u8>,
    decoder: Decoder,
}

impl ClientStream {
    /// Prints the message at the front, where it is whole, and takes it away.
    fn print_one(&mut self, out: &mut Vec<u8>) -> Result<bool, Fault> {
        let frame = match self.decoder.next(&self.bytes)? {
            Next::Frame(frame) => frame,
            Next::Incomplete { .. } => return Ok(false),
        };
        lines::client_line(out, &frame);
        let length = frame.bytes.len();
        self.bytes.drain(..length);
        Ok(true)
    }

    fn print_whole(&mut self, out: &mut Vec<u8>) -> Result<(), Fault> {
        while self.print_one(out)? {}
        Ok(())
    }
}

/// Prints the lines of a stream.
fn print_all(mut input: impl Read) -> io::Result<()> {
    let (mut stdout, mut out, mut room) = (io::stdout(), Vec::new(), [0; 65536]);
    let mut stream = ClientStream { bytes: Vec::new(), decoder: Decoder::of_client() };
    loop {
        let count = input.read(&mut room)?;
        stream.bytes.extend_from_slice(&room[..count]);
        let fault = stream.print_whole(&mut out).err();
        match &fault {
            Some(fault) => writeln!(out, "{fault}")?,
            None if count == 0 && !stream.bytes.is_empty() => {
                writeln!(out, "rest {}", stream.bytes.len())?
            }
            None => {}
        }
        stdout.write_all(&out)?;
        stdout.flush()?;
        out.clear();
        if fault.is_some() || count == 0 {
            return Ok(());
        }
    }
}

fn main() -> io::Result<()> {
    let files: Vec<_> = std::env::args_os().skip(1).collect();
    if files.is_empty() {
        return print_all(io::stdin());
    }
    for file in files {
        print_all(File::open(file)?)?;
        println!();
    }
    Ok(())
}
