//! The printing of a recording.

use crate::options::{LineFormat, RecordOptions};
use crate::printer::Printer;
use net::{ExitStatus, Failure, StderrWriter};
use recording::{Damage, Reader};
use std::fs::File;
use std::io::{self, BufReader, Write};
use std::path::Path;

/// How many bytes of lines are held to be written at once.
const ROOM: usize = 1 << 16;

/// Prints the lines of a recording, up to its end or its first fault.
pub fn print(
    path: &Path,
    options: &RecordOptions,
    stderr: &StderrWriter,
) -> Result<ExitStatus, Failure> {
    let format = options.format().unwrap_or(LineFormat::Lines);
    let mut printer = Printer::new(format, options.only, options.numbers);
    let read = read(path, &mut printer, stderr);
    printer.end();
    write(&mut printer)?;
    read.map(|()| ExitStatus::Ok)
}

fn read(path: &Path, printer: &mut Printer, stderr: &StderrWriter) -> Result<(), Failure> {
    let damaged = |damage: Damage| {
        let status = match damage {
            Damage::File(_) => ExitStatus::Local,
            _ => ExitStatus::Damaged,
        };
        Failure::new(status, damage.about(path))
    };
    let file = File::open(path).map_err(|why| damaged(why.into()))?;
    let mut reader = Reader::new(BufReader::new(file)).map_err(damaged)?;
    while let Some(record) = reader.read().map_err(damaged)? {
        printer.take(record.connection, record.kind, record.content);
        printer.notes().iter().for_each(|words| stderr.say(words));
        if printer.lines().len() > ROOM {
            write(printer)?;
        }
    }
    if reader.is_cut() {
        let (path, at) = (path.display(), reader.at());
        stderr.say(format_args!(
            "{path} ends within a record: it is read up to its last whole one, to offset {at}"
        ));
    }
    Ok(())
}

fn write(printer: &mut Printer) -> Result<(), Failure> {
    let (mut stdout, lines) = (io::stdout(), printer.lines());
    let written = stdout.write_all(lines).and_then(|()| stdout.flush());
    lines.clear();
    written.map_err(|why| {
        Failure::new(ExitStatus::Local, format!("standard output can't be written: {why}"))
    })
}
