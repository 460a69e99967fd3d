//! A proved program, and what it prints. It is never waited for without end.
#![allow(dead_code)]

use std::fs::{self, File};
use std::io::{Read, Seek, Write};
use std::path::{Path, PathBuf};
use std::process::{Child, ChildStdin, Command, Stdio};
use std::sync::atomic::{AtomicU32, Ordering};
use std::sync::mpsc::{self, Receiver, RecvTimeoutError};
use std::thread;
use std::time::{Duration, Instant};

/// Far more than any input of these tests takes. A program that runs longer is killed, and the test fails.
const LONGEST_WAIT: Duration = Duration::from_secs(20);

/// A program that `rt ci` and `rt run` leave in its crate's `out`.
pub struct Program {
    pub name: &'static str,
    /// The environment variable that names another file in its place.
    pub variable: &'static str,
}

impl Program {
    fn path(&self) -> PathBuf {
        let folder = Path::new(env!("CARGO_MANIFEST_DIR")).join("../../crates").join(self.name);
        let built = || folder.join("out").join(self.name);
        let program = std::env::var_os(self.variable).map_or_else(built, PathBuf::from);
        let missing = format!("there is no such program, run `rt run < stdin` in crates/{} first", self.name);
        assert!(program.exists(), "{}: {missing}", program.display());
        program
    }

    /// What it prints for an input that is written at once.
    pub fn printed(&self, input: &[u8]) -> String {
        self.printed_by_portions(&[input], Duration::ZERO)
    }

    /// What it prints for an input that comes in portions, with a pause after each.
    pub fn printed_by_portions(&self, portions: &[&[u8]], pause: Duration) -> String {
        thread::scope(|scope| {
            let (running, mut stdin) = self.with_open_input();
            scope.spawn(move || {
                for portion in portions {
                    // The program may stop before it has read everything: a broken pipe is no failure.
                    if stdin.write_all(portion).is_err() {
                        return;
                    }
                    if !pause.is_zero() {
                        thread::sleep(pause);
                    }
                }
            });
            running.rest()
        })
    }

    /// What it prints for a file, from which a read brings as many bytes as it asks for, unless the file ends.
    pub fn printed_from_file(&self, input: &[u8]) -> String {
        Running::start(self, Stdio::from(scratch(input))).rest()
    }

    /// With an input that goes on for as long as the other end is kept.
    pub fn with_open_input(&self) -> (Running, ChildStdin) {
        let mut running = Running::start(self, Stdio::piped());
        let stdin = running.child.stdin.take().expect("a pipe");
        (running, stdin)
    }
}

/// A file with these bytes and without a name.
fn scratch(bytes: &[u8]) -> File {
    static FILES: AtomicU32 = AtomicU32::new(0);
    let name = format!("input-{}-{}", std::process::id(), FILES.fetch_add(1, Ordering::Relaxed));
    let path = Path::new(env!("CARGO_TARGET_TMPDIR")).join(name);
    let mut file = File::options().read(true).write(true).create_new(true).open(&path).expect("a new file");
    fs::remove_file(&path).expect("its name is removed");
    file.write_all(bytes).expect("it is written");
    file.rewind().expect("it is read from its beginning");
    file
}

/// The program at work.
pub struct Running {
    child: Child,
    deadline: Instant,
    /// What it prints, as it comes.
    parts: Receiver<Vec<u8>>,
    /// What has come and wasn't asked for yet.
    text: Vec<u8>,
}

impl Running {
    fn start(program: &Program, input: Stdio) -> Running {
        let deadline = Instant::now() + LONGEST_WAIT;
        let mut child = Command::new(program.path()).stdin(input).stdout(Stdio::piped()).spawn().expect("it starts");
        let mut stdout = child.stdout.take().expect("a pipe");
        let (sender, parts) = mpsc::channel();
        thread::spawn(move || {
            let mut part = [0; 1 << 16];
            while let Ok(length @ 1..) = stdout.read(&mut part) {
                if sender.send(part[..length].to_vec()).is_err() {
                    return; // the test is over
                }
            }
        });
        Running { child, deadline, parts, text: Vec::new() }
    }

    /// Waits for more of what it prints; false where no more comes. If it failed or doesn't end, that stands there as a
    /// line, which no listing has: so a test says for which input.
    fn more(&mut self) -> bool {
        let left = self.deadline.saturating_duration_since(Instant::now());
        let part = if left.is_zero() { Err(RecvTimeoutError::Timeout) } else { self.parts.recv_timeout(left) };
        let failure = match part {
            Ok(part) => {
                self.text.extend(part);
                return true;
            }
            Err(RecvTimeoutError::Timeout) => Some(format!("(killed after {LONGEST_WAIT:?})\n")),
            Err(RecvTimeoutError::Disconnected) => {
                let status = self.child.wait().expect("it ends");
                (!status.success()).then(|| format!("({status})\n"))
            }
        };
        self.text.extend(failure.unwrap_or_default().bytes());
        false
    }

    /// The next line; empty where there is none.
    pub fn line(&mut self) -> String {
        while !self.text.contains(&b'\n') && self.more() {}
        let end = self.text.iter().position(|byte| *byte == b'\n').map_or(self.text.len(), |at| at + 1);
        text(self.text.drain(..end).collect())
    }

    /// All further lines, up to the end.
    pub fn rest(mut self) -> String {
        while self.more() {}
        text(std::mem::take(&mut self.text))
    }
}

fn text(bytes: Vec<u8>) -> String {
    String::from_utf8_lossy(&bytes).into_owned()
}

impl Drop for Running {
    /// No process outlives a test that fails.
    fn drop(&mut self) {
        let _ = self.child.kill();
        let _ = self.child.wait();
    }
}
