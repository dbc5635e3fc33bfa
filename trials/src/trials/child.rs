//! The program `groups`, run with streams of any kind and within a time limit.

use crate::system::send;
use std::error::Error;
use std::fmt::{Display, Formatter};
use std::io::Read;
use std::path::{Path, PathBuf};
use std::process::{Child, Command, ExitStatus, Stdio};
use std::thread::JoinHandle;
use std::time::{Duration, Instant};

/// What a case gives, or what was wrong.
pub type Held<T> = Result<T, Box<dyn Error>>;

/// How long a run may take. A right program takes a small part of it; a wrong one may take hours.
const LIMIT: Duration = Duration::from_secs(20);

/// The directory of the compiled program.
pub fn directory() -> PathBuf {
    Path::new(env!("CARGO_MANIFEST_DIR")).join("../target/bin")
}

/// The program as std starts it, with SIGPIPE at its default.
pub fn program() -> Command {
    Command::new(directory().join("groups"))
}

/// The program in a shell that first runs some commands.
pub fn program_after(commands: &str) -> Command {
    let mut shell = Command::new("sh");
    let script = format!("{commands}; exec \"$0\"");
    shell.arg("-c").arg(script).arg(directory().join("groups"));
    shell
}

/// The line on standard error where a write to standard output failed.
pub fn incomplete(error: &str) -> String {
    format!("groups: the output is incomplete: {error}\n")
}

/// A run of the program; it is killed where it is dropped.
pub struct Run {
    child: Child,
    begin: Instant,
    stdout: Option<JoinHandle<Vec<u8>>>,
    stderr: Option<JoinHandle<Vec<u8>>>,
}

impl Run {
    /// Starts a command. Its standard error is collected, and its standard output where that is to be piped.
    pub fn start(mut command: Command) -> Held<Run> {
        let begin = Instant::now();
        let mut child = command.stderr(Stdio::piped()).spawn()?;
        let stdout = child.stdout.take().map(collect);
        let stderr = child.stderr.take().map(collect);
        Ok(Run {
            child,
            begin,
            stdout,
            stderr,
        })
    }

    /// Sends the program a signal.
    pub fn signal(&self, signal: i32) -> Held<()> {
        Ok(send(self.child.id(), signal)?)
    }

    /// Waits for the end, up to the limit.
    pub fn end(mut self) -> Held<Ended> {
        let mut status = None;
        while status.is_none() && self.begin.elapsed() < LIMIT {
            std::thread::sleep(Duration::from_millis(2));
            status = self.child.try_wait()?;
        }
        self.kill();
        Ok(Ended {
            status,
            stdout: joined(self.stdout.take()),
            stderr: joined(self.stderr.take()),
        })
    }

    /// The processor time that the run has used so far.
    pub fn processor_time(&self) -> Held<Duration> {
        let stat = std::fs::read_to_string(format!("/proc/{}/stat", self.child.id()))?;
        // Behind the name in brackets, the twelfth and the thirteenth word are hundredths of a second.
        let words = stat.rsplit(')').next().unwrap_or("").split_whitespace();
        let times: Vec<u64> = words.skip(11).take(2).flat_map(str::parse).collect();
        match times[..] {
            [user, system] => Ok(Duration::from_millis(10 * (user + system))),
            _ => Err(format!("no times in {stat}").into()),
        }
    }

    /// Ends the run; where it has ended, nothing is left to do.
    fn kill(&mut self) {
        let _ = self.child.kill();
        let _ = self.child.wait();
    }
}

impl Drop for Run {
    fn drop(&mut self) {
        self.kill();
    }
}

/// What a run left.
pub struct Ended {
    /// None where it did not end within the limit.
    status: Option<ExitStatus>,
    /// What it printed; nothing where its standard output was not to be piped.
    pub stdout: Vec<u8>,
    stderr: Vec<u8>,
}

impl Ended {
    /// The program ended by itself, with this on standard output and on standard error.
    pub fn left(&self, stdout: &str, stderr: &str) -> Held<()> {
        let status = self.status.and_then(|status| status.code());
        if status == Some(0) && self.stdout == stdout.as_bytes() && self.stderr == stderr.as_bytes()
        {
            return Ok(());
        }
        let (stdout, stderr) = (shown(stdout.as_bytes()), shown(stderr.as_bytes()));
        Err(format!("{self}\n    must: output {stdout}, error {stderr}").into())
    }
}

impl Display for Ended {
    fn fmt(&self, f: &mut Formatter<'_>) -> std::fmt::Result {
        match self.status {
            Some(status) => write!(f, "it ended with {status}")?,
            None => write!(f, "it did not end within {} s", LIMIT.as_secs())?,
        }
        let (stdout, stderr) = (shown(&self.stdout), shown(&self.stderr));
        write!(f, "\n    left: output {stdout}, error {stderr}")
    }
}

/// Reads a stream to its end, in a thread of its own.
fn collect(mut stream: impl Read + Send + 'static) -> JoinHandle<Vec<u8>> {
    std::thread::spawn(move || {
        let mut bytes = Vec::new();
        // What came before an error is looked at all the same.
        let _ = stream.read_to_end(&mut bytes);
        bytes
    })
}

fn joined(thread: Option<JoinHandle<Vec<u8>>>) -> Vec<u8> {
    thread.map_or(Vec::new(), |thread| {
        thread.join().expect("a reader does not panic")
    })
}

/// The bytes of a text that a message shows.
const SHOWN: usize = 200;

/// A text in a message: its beginning, and its length where that is not all.
pub fn shown(text: &[u8]) -> String {
    let beginning = String::from_utf8_lossy(&text[..text.len().min(SHOWN)]);
    if text.len() <= SHOWN {
        format!("{beginning:?}")
    } else {
        format!("{beginning:?} and so on, {} bytes", text.len())
    }
}
