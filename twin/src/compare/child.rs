//! Running the compared programs: command lines, and a watch that ends a program that stands still.

use std::io;
use std::path::{Path, PathBuf};
use std::process::{Child, ChildStdin, ChildStdout, Command, ExitStatus, Stdio};
use std::sync::atomic::{AtomicBool, AtomicU64, Ordering};
use std::sync::mpsc::{channel, RecvTimeoutError, Sender};
use std::sync::{Arc, Mutex};
use std::thread;
use std::time::Duration;

/// A program and its arguments.
#[derive(Clone, Debug)]
pub struct CommandLine {
    program: PathBuf,
    arguments: Vec<PathBuf>,
    /// So many seconds without a sign of life, and the program is ended.
    patience: Duration,
}

impl CommandLine {
    /// Splits at spaces. Words that are paths of files become absolute, since the program may be
    /// started in another folder.
    pub fn parse(text: &str, patience: u64) -> Result<CommandLine, String> {
        let mut words = text.split_whitespace().map(absolute);
        let program = words.next().ok_or("the command is empty")?;
        let patience = Duration::from_secs(patience);
        Ok(CommandLine { program, arguments: words.collect(), patience })
    }

    pub fn start(&self, folder: Option<&Path>, input: Stdio) -> Result<Running, String> {
        let mut command = Command::new(&self.program);
        command.args(&self.arguments).stdin(input).stdout(Stdio::piped());
        if let Some(folder) = folder {
            command.current_dir(folder);
        }
        let started = command.spawn();
        let child = started.map_err(|error| format!("cannot start {}: {error}", self.program.display()))?;
        Ok(Running::watch(child, self.patience))
    }
}

fn absolute(word: &str) -> PathBuf {
    let path = Path::new(word);
    match path.canonicalize() {
        Ok(whole) if word.contains('/') => whole,
        _ => path.to_path_buf(),
    }
}

/// A started program, under watch.
pub struct Running {
    child: Arc<Mutex<Child>>,
    pub input: Option<ChildStdin>,
    pub output: Option<ChildStdout>,
    signs: Arc<AtomicU64>,
    ended_by_watch: Arc<AtomicBool>,
    ended_by_us: AtomicBool,
    /// Dropping it ends the watch.
    watching: Option<Sender<()>>,
}

impl Running {
    fn watch(mut child: Child, patience: Duration) -> Running {
        let (input, output) = (child.stdin.take(), child.stdout.take());
        let (watching, stop) = channel::<()>();
        let running = Running {
            child: Arc::new(Mutex::new(child)),
            input,
            output,
            signs: Arc::default(),
            ended_by_watch: Arc::default(),
            ended_by_us: AtomicBool::new(false),
            watching: Some(watching),
        };
        let child = Arc::clone(&running.child);
        let (signs, ended) = (Arc::clone(&running.signs), Arc::clone(&running.ended_by_watch));
        thread::spawn(move || {
            let mut seen = 0;
            while let Err(RecvTimeoutError::Timeout) = stop.recv_timeout(patience) {
                let now = signs.load(Ordering::Relaxed);
                if now == seen {
                    ended.store(true, Ordering::Relaxed);
                    kill(&child);
                    return;
                }
                seen = now;
            }
        });
        running
    }

    /// Tells the watch that the program is still at work.
    pub fn sign_of_life(&self) {
        self.signs.fetch_add(1, Ordering::Relaxed);
    }

    /// Ends a program whose further output is of no use.
    pub fn kill(&self) {
        self.ended_by_us.store(true, Ordering::Relaxed);
        kill(&self.child);
    }

    /// Waits for the end. Answers what was wrong with it, if something was.
    pub fn finish(mut self) -> Result<(), String> {
        self.input = None;
        let status = self.wait().map_err(|error| format!("cannot wait for the program: {error}"))?;
        self.watching = None;
        if self.ended_by_watch.load(Ordering::Relaxed) {
            return Err(String::from("the program stood still and was ended"));
        }
        match status.code() {
            Some(code) if code < 128 => Ok(()),
            _ if self.ended_by_us.load(Ordering::Relaxed) => Ok(()),
            _ => Err(format!("the program broke down: {status}")),
        }
    }

    fn wait(&self) -> io::Result<ExitStatus> {
        loop {
            let mut child = self.child.lock().unwrap_or_else(|poisoned| poisoned.into_inner());
            if let Some(status) = child.try_wait()? {
                return Ok(status);
            }
            drop(child);
            thread::sleep(Duration::from_millis(1));
        }
    }
}

fn kill(child: &Mutex<Child>) {
    let mut child = child.lock().unwrap_or_else(|poisoned| poisoned.into_inner());
    let _ = child.kill();
}
