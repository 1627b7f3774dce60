//! Serves a recording: answers clients as the server did.
#![forbid(unsafe_code)]

mod fingerprint;
mod options;
mod pool;
mod recorded;
mod renewal;
mod report;
mod rules;
mod serve;
mod session;

#[cfg(test)]
mod mutants;

use net::{
    Address, ClientCommand, ClientEnvironment, ExitStatus, Failure, Listener, Listeners,
    ShutdownSignals, StderrWriter, Workers,
};
use options::ReplayOptions;
use renewal::Renewal;
use serve::{ReplayConfig, Shared};
use session::ScramSecret;
use std::future::Future;
use std::path::Path;
use std::process::ExitCode;
use std::sync::Arc;
use std::time::Duration;
use tokio::runtime::Builder;
use tokio::sync::mpsc;
use tokio::time::timeout;

/// How long tasks may take to end.
const SHUTTING_DOWN: Duration = Duration::from_secs(1);
/// How long sessions may go on after the command: what its clients said last may not be compared yet.
const LAST: Duration = Duration::from_secs(2);

/// What tells that all ends, and how.
type ShutdownReceiver = mpsc::Receiver<Result<(), Failure>>;

/// The password in a file: its first line.
fn login(path: &Path) -> Result<ScramSecret, Failure> {
    let unread = |why: &dyn std::fmt::Display| {
        Failure::new(ExitStatus::Local, format!("{} can't be read: {why}", path.display()))
    };
    let bytes = std::fs::read(path).map_err(|why| unread(&recorded::plain(&why)))?;
    let password = bytes.split(|it| matches!(it, b'\n' | b'\r')).next().unwrap_or_default();
    ScramSecret::new(password).map_err(|why| unread(&why))
}

/// What serves, once it has been said where it listens.
struct ReplayServer {
    /// What all sessions have.
    shared: Shared,
    listeners: Vec<Listener>,
    ends: ShutdownReceiver,
    until: ReplayUntil,
}

/// What ends the program from outside.
enum ReplayUntil {
    Signal(ShutdownSignals),
    Command(ClientCommand),
}

/// Runs the command, or says where clients can connect. Signals are taken before, so that one which comes then finds the program
/// ready.
fn start_until(
    options: &ReplayOptions,
    stderr: &StderrWriter,
    addresses: &[Address],
    has_tls: bool,
) -> Result<ReplayUntil, Failure> {
    if options.has_command() {
        let environment = ClientEnvironment::new(&addresses[0], has_tls, options.scram.is_some())?;
        return ClientCommand::start(&options.command, &environment).map(ReplayUntil::Command);
    }
    let signals =
        ShutdownSignals::take().map_err(|why| Failure::new(ExitStatus::Local, why.to_string()))?;
    addresses.iter().for_each(|it| stderr.say_plain(format_args!("listening on {it}")));
    Ok(ReplayUntil::Signal(signals))
}

/// Listens, and reads the recording: clients that come meanwhile wait. A recording that is to be made is begun.
async fn begin(options: &ReplayOptions, stderr: &StderrWriter) -> Result<ReplayServer, Failure> {
    let rules = Arc::new(options.rules()?);
    options.check_paths()?;
    let mut addresses = Vec::new();
    let bound = options.listening.bind(options.port(), |it| addresses.push(it)).await?;
    let (end, ends) = mpsc::channel(1);
    let fails = end.clone();
    let fails = move |failure| drop(fails.try_send(Err(failure)));
    let renewal = Renewal::begin(options, stderr, fails).await?;
    let path = renewal.as_ref().map_or(&*options.file, Renewal::replayed);
    let recording = recorded::load(path, &rules, options.speed, &|words| stderr.say(words))?;
    if recording.connections.is_empty() && renewal.is_none() {
        let words = format!("{} has no session that can be replayed", options.file.display());
        return Err(Failure::new(ExitStatus::Damaged, words));
    }
    let config = ReplayConfig {
        keeps_times: options.speed,
        patience: options.patience(),
        again: options.again(),
        any_order: options.any_order(),
        goes_on: options.goes_on(),
        is_strict: options.is_strict(),
        has_command: options.has_command(),
        login: options.scram.as_deref().map(login).transpose()?,
        renewal,
        end,
    };
    let Listeners { listeners, tls } = bound;
    let until = start_until(options, stderr, &addresses, tls.is_some())?;
    Ok(ReplayServer {
        shared: Shared::new(recording, rules, stderr.clone(), tls, config),
        listeners,
        ends,
        until,
    })
}

/// Serves until it is over, a signal comes, or the command ends. Answers the status, and what all sessions have.
async fn run(
    options: &ReplayOptions,
    stderr: &StderrWriter,
    workers: &Arc<Workers>,
) -> Result<(u8, Arc<Shared>), Failure> {
    let ReplayServer { shared, listeners, ends, until } = begin(options, stderr).await?;
    let shared = Arc::new(shared);
    let permits = serve::permits(workers);
    // Each listener has a place for the client that comes next.
    let most = permits.available_permits().saturating_sub(listeners.len()) as u32;
    let serving = serve::serve(shared.clone(), listeners, workers, &permits, ends);
    let status = match until {
        ReplayUntil::Command(command) => {
            let over = async {
                let status = command.wait().await;
                let _ = timeout(LAST, permits.acquire_many(most)).await;
                status
            };
            until_command(&shared, serving, over).await
        }
        ReplayUntil::Signal(signals) => tokio::select! {
            end = serving => serve::ended(&shared, end) as u8,
            status = signals.wait() => {
                let found = serve::ended(&shared, Ok(()));
                let counts = options.is_strict() && found != ExitStatus::Ok;
                if counts { found as u8 } else { status as u8 }
            }
        },
    };
    Ok((status, shared))
}

/// Serves until a command is over, and answers its status where nothing differed.
async fn until_command(
    shared: &Shared,
    serving: impl Future<Output = Result<(), Failure>>,
    command: impl Future<Output = u8>,
) -> u8 {
    tokio::pin!(serving, command);
    let (ended, status) = tokio::select! {
        status = &mut command => (Ok(()), status),
        // The command goes on alone, but not longer than this process.
        end = &mut serving => (end, command.await),
    };
    match serve::ended(shared, ended) {
        ExitStatus::Ok => status,
        found => found as u8,
    }
}

/// Puts what was recorded into the recording, once no session goes on.
fn renew(shared: &Shared, options: &ReplayOptions, stderr: &StderrWriter) -> Result<(), Failure> {
    if let Some(renewal) = &shared.renewal {
        let renewed = shared.pool().renewed();
        let (new, gone) = renewal.end(&renewed)?;
        let path = options.file.display();
        stderr.say(format!("{new} sessions are new in {path}, and {gone} gone"));
    }
    Ok(())
}

/// The same with the threads that serve clients; another one accepts them.
fn serve_all(options: &ReplayOptions, stderr: &StderrWriter) -> Result<u8, Failure> {
    let local = |why| Failure::new(ExitStatus::Local, format!("no thread can be begun: {why}"));
    let workers = Arc::new(options.listening.workers().map_err(local)?);
    let runtime = Builder::new_current_thread().enable_all().build().map_err(local)?;
    let served = runtime.block_on(run(options, stderr, &workers));
    // The sockets are taken away with what listens on them.
    runtime.shutdown_timeout(SHUTTING_DOWN);
    if let Ok(workers) = Arc::try_unwrap(workers) {
        workers.end();
    }
    let (status, shared) = served?;
    renew(&shared, options, stderr)?;
    Ok(status)
}

fn main() -> ExitCode {
    let options = match ReplayOptions::take() {
        Ok(options) => options,
        Err((ExitStatus::Ok, words)) => {
            print!("{words}");
            return ExitCode::SUCCESS;
        }
        Err((status, words)) => {
            eprint!("{words}");
            return ExitCode::from(status as u8);
        }
    };
    let stderr = StderrWriter::new("pg_replay");
    let status = serve_all(&options, &stderr).unwrap_or_else(|failure| {
        stderr.say(&failure);
        if failure.status == ExitStatus::Usage {
            stderr.say_plain(options::USAGE);
        }
        failure.status as u8
    });
    stderr.end();
    ExitCode::from(status)
}
