//! The passing on of many connections, until a signal comes, a command ends, or nothing may pass any more.

use crate::options::{LineFormat, RecordOptions};
use crate::printer::Printer;
use crate::proxy::Proxy;
use crate::record_sink::{RecordSink, RecordingOutput};
use crate::replaced_file::ReplacedFile;
use crate::shutdown::{end, ShutdownEvents};
use crate::stdout::StdoutWriter;
use net::{
    ignore_file_size, most_sessions, ClientCommand, ClientEnvironment, ExitStatus, Failure,
    Listeners, ServerTls, ShutdownSignals, StderrWriter, Upstream,
};
use std::io;
use std::sync::atomic::AtomicU64;
use std::sync::Arc;
use tokio::runtime::{Builder, Runtime};
use tokio::sync::{mpsc, Notify, Semaphore};
use tokio::task::JoinHandle;

/// The descriptors of a session.
const DESCRIPTORS: u64 = 2;

fn local(why: io::Error) -> Failure {
    Failure::new(ExitStatus::Local, format!("no threads: {why}"))
}

/// Serves, and gives the status in which that ends.
pub fn serve(options: &RecordOptions, stderr: &StderrWriter) -> Result<u8, Failure> {
    // Signals, the end and those who connect have a thread of their own, so that a write which blocks all others doesn't hold
    // them up.
    let own = Builder::new_current_thread().enable_all().build().map_err(local)?;
    let _file_size = own.block_on(async { ignore_file_size() }).map_err(local)?;
    let signal = take_signals(options, &own)?;
    let workers = Arc::new(options.listening.workers().map_err(local)?);
    let (on_failure, failures) = mpsc::unbounded_channel();
    let replaced = ReplacedFile::of(options)?;
    let sink = sink_of(options, replaced.as_ref(), stderr, on_failure)?;
    let has_command = signal.is_none();
    let served = match own.block_on(begin(options, stderr, signal)) {
        Ok(ProxyStart { upstream, bound, until }) => {
            let (single, first) = mpsc::unbounded_channel();
            let single = options.is_single.then_some(single);
            let Listeners { listeners, tls } = bound;
            let threads = workers.count();
            let proxy = proxy_of(options, stderr, sink, upstream, tls, threads, single);
            let accepting = |listener| own.spawn(proxy.clone().accept(listener, workers.clone()));
            let accepting = listeners.into_iter().map(accepting).collect();
            let over = match until {
                RecordUntil::Signal(signal) => signal,
                RecordUntil::Command(command) => own.spawn(proxy.clone().outlast(command)),
            };
            let events = ShutdownEvents { failures, over, has_command, first };
            own.block_on(end(&proxy, accepting, events, replaced))
        }
        Err(failure) => {
            sink.close(true);
            Err(failure)
        }
    };
    // Threads that wait for a pipe which nobody reads end with the process.
    own.shutdown_background();
    served
}

/// Waits for a signal that ends the program, unless that is for a command: it gets them.
fn take_signals(options: &RecordOptions, own: &Runtime) -> Result<Option<JoinHandle<u8>>, Failure> {
    if !options.command.is_empty() {
        return Ok(None);
    }
    let signals = own.block_on(async { ShutdownSignals::take() }).map_err(local)?;
    Ok(Some(own.spawn(async { signals.wait().await as u8 })))
}

/// Where what passes goes. Nothing asked for is lines of the server's messages.
fn sink_of(
    options: &RecordOptions,
    replaced: Option<&ReplacedFile>,
    stderr: &StderrWriter,
    on_failure: mpsc::UnboundedSender<Failure>,
) -> Result<RecordSink, Failure> {
    let create = |path| {
        let own = replaced.map_or(path, ReplacedFile::path);
        RecordingOutput::create(own, path, options.keep_passing)
    };
    let file = options.output.as_deref().map(create).transpose()?;
    let format = options.format().or_else(|| Some(LineFormat::Server).filter(|_| file.is_none()));
    let told = on_failure.clone();
    let lines = format.map(|format| {
        let printer = Printer::new(format, options.only, options.numbers);
        let output = StdoutWriter::new(move |failure| drop(told.send(failure)));
        (printer, output)
    });
    let on_failure = Box::new(move |failure| drop(on_failure.send(failure)));
    Ok(RecordSink::new(file, lines, stderr.clone(), on_failure))
}

/// What passes messages on, once it can.
struct ProxyStart {
    upstream: Upstream,
    bound: Listeners,
    until: RecordUntil,
}

/// What ends the program from outside: the status is that of the signal, or of the command.
enum RecordUntil {
    Signal(JoinHandle<u8>),
    Command(ClientCommand),
}

/// Finds the server, and listens: says where, or runs the command.
async fn begin(
    options: &RecordOptions,
    stderr: &StderrWriter,
    signal: Option<JoinHandle<u8>>,
) -> Result<ProxyStart, Failure> {
    let upstream = match options.encryption {
        true => options.server.find_unread().await?,
        false => options.server.find().await?,
    };
    let mut addresses = Vec::new();
    let bound = options.listening.bind(options.port(), |it| addresses.push(it)).await?;
    let until = match signal {
        Some(signal) => {
            addresses.iter().for_each(|it| stderr.say_plain(format_args!("listening on {it}")));
            RecordUntil::Signal(signal)
        }
        None => {
            let is_encrypted = options.encryption || bound.tls.is_some();
            let environment = ClientEnvironment::new(&addresses[0], is_encrypted, true)?;
            RecordUntil::Command(ClientCommand::start(&options.command, &environment)?)
        }
    };
    Ok(ProxyStart { upstream, bound, until })
}

fn proxy_of(
    options: &RecordOptions,
    stderr: &StderrWriter,
    sink: RecordSink,
    upstream: Upstream,
    tls: Option<ServerTls>,
    threads: usize,
    single: Option<mpsc::UnboundedSender<ExitStatus>>,
) -> Arc<Proxy> {
    let prints_server = options.format().is_none() && options.output.is_none();
    let most = most_sessions(DESCRIPTORS, threads);
    Arc::new(Proxy {
        upstream,
        sink,
        tls,
        passes_encryption: options.encryption,
        leaves_out: !options.passwords && !prints_server,
        stderr: stderr.clone(),
        single,
        permits: Arc::new(Semaphore::new(most)),
        most,
        is_crowded: Notify::new(),
        sessions: AtomicU64::new(0),
        cancels: AtomicU64::new(0),
    })
}
