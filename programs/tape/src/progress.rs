//! A bar on standard error, where that is a terminal and the work takes a while.

use indicatif::{ProgressBar, ProgressDrawTarget, ProgressStyle};
use std::fs;
use std::io::{self, Read};
use std::path::Path;

/// Files below so many bytes are done before anyone looks.
const SHORT: u64 = 8 << 20;

const FORM: &str = "{msg} [{wide_bar}] {bytes}/{total_bytes} {bytes_per_sec} {eta}";

/// A bar that is moved by what is read of its files.
#[derive(Clone)]
pub struct Progress(ProgressBar);

impl Progress {
    /// A bar for work of a name on files.
    pub fn new(what: &'static str, files: &[&Path]) -> Progress {
        let len = files.iter().map(|path| fs::metadata(path).map_or(0, |it| it.len())).sum();
        // A bar draws itself nowhere where standard error is no terminal.
        let target = match len < SHORT {
            true => ProgressDrawTarget::hidden(),
            false => ProgressDrawTarget::stderr(),
        };
        let style =
            ProgressStyle::with_template(FORM).unwrap_or_else(|_| ProgressStyle::default_bar());
        let progress =
            ProgressBar::with_draw_target(Some(len), target).with_style(style).with_message(what);
        Progress(progress)
    }

    /// A file whose reading moves it.
    pub fn on<R: Read>(&self, file: R) -> ProgressReader<R> {
        ProgressReader { file, progress: self.0.clone() }
    }
}

pub struct ProgressReader<R> {
    file: R,
    progress: ProgressBar,
}

impl<R: Read> Read for ProgressReader<R> {
    fn read(&mut self, room: &mut [u8]) -> io::Result<usize> {
        let count = self.file.read(room)?;
        self.progress.inc(count as u64);
        Ok(count)
    }
}

impl<R> Drop for ProgressReader<R> {
    fn drop(&mut self) {
        self.progress.finish_and_clear();
    }
}
