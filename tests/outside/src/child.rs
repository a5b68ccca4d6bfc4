//! A program as a child process: what it is given, and what came of it. Every wait has a limit in time.

use std::ffi::OsString;
use std::fs::File;
use std::io::{Read, Seek, Write};
use std::os::unix::process::CommandExt;
use std::path::PathBuf;
use std::process::{Child, ChildStdin, Command, ExitStatus, Stdio};
use std::sync::atomic::{AtomicUsize, Ordering};
use std::sync::mpsc::{channel, Receiver};
use std::sync::Mutex;
use std::thread::{scope, sleep, spawn};
use std::time::{Duration, Instant};

/// Long enough for a reader that waits to take one piece of its input before the next comes.
const PAUSE: Duration = Duration::from_millis(2);
/// Between two looks at whether a child has ended.
const LOOK: Duration = Duration::from_millis(1);
/// For what a child printed to arrive once it has ended.
const ARRIVAL: Duration = Duration::from_secs(5);
/// More than this of what a child prints is not kept, and it finds its output closed.
const MOST_KEPT: u64 = 1 << 20;

/// The library that makes the system odd; tests/outside/odd.c says how.
const ODD: &str = "target/outside/odd.so";

/// The signal that no process can put off.
const KILL: i32 = 9;

extern "C" {
    fn kill(process: i32, signal: i32) -> i32;
}

#[derive(Clone)]
pub enum Input {
    File(PathBuf),
    /// A pipe that brings one piece after the other.
    Pieces(Vec<Vec<u8>>),
    /// A pipe that brings these bytes, and then spaces without an end.
    Endless(Vec<u8>),
    Closed,
}

#[derive(Clone, Copy, PartialEq)]
pub enum Output {
    Pipe,
    Full,
    Closed,
}

/// Standard error.
#[derive(Clone, Copy, PartialEq)]
pub enum Error {
    Pipe,
    /// The pipe of standard output, so that it shows what was written first.
    WithOutput,
    Full,
    Closed,
}

pub struct Call {
    pub input: Input,
    pub output: Output,
    pub error: Error,
    /// What is odd about the system.
    pub odd: Option<&'static str>,
    pub arguments: Vec<OsString>,
}

pub struct Outcome {
    pub printed: Vec<u8>,
    /// On standard error.
    pub said: Vec<u8>,
    /// None for a child that was stopped at its limit.
    pub status: Option<ExitStatus>,
    /// How many bytes of a file were read.
    pub taken: u64,
}

impl Call {
    /// With pipes for all that is written, nothing odd and no arguments.
    pub fn on(input: Input) -> Call {
        Call {
            input,
            output: Output::Pipe,
            error: Error::Pipe,
            odd: None,
            arguments: Vec::new(),
        }
    }

    pub fn run(&self, program: &str, limit: Duration) -> Outcome {
        let mut file = match &self.input {
            Input::File(path) => Some(opened(path)),
            _ => None,
        };
        let mut child = self.start(program, file.as_ref());
        if let Some(pipe) = child.stdin.take() {
            let input = self.input.clone();
            spawn(move || feed(pipe, input));
        }
        let printed = child.stdout.take().map(collect);
        let said = child.stderr.take().map(collect);
        let mut status = wait(&mut child, limit);
        let mut arrived = |bytes: Option<Receiver<Vec<u8>>>| {
            let bytes = bytes.map_or(Ok(Vec::new()), |bytes| bytes.recv_timeout(ARRIVAL));
            // Where the output stays open, something that the child started goes on.
            bytes.unwrap_or_else(|_| {
                status = None;
                Vec::new()
            })
        };
        let (printed, said) = (arrived(printed), arrived(said));
        // The child's standard input is this file too, with one position for both.
        let taken = file.as_mut().map_or(0, |file| file.stream_position().unwrap_or(0));
        Outcome {
            printed,
            said,
            status,
            taken,
        }
    }

    fn start(&self, program: &str, file: Option<&File>) -> Child {
        let redirections = self.redirections();
        let mut command = match redirections.is_empty() {
            true => Command::new(program),
            false => through_shell(&format!("exec \"$0\" \"$@\"{redirections}"), program),
        };
        command.args(&self.arguments);
        command.stdin(match (&self.input, file) {
            (_, Some(file)) => Stdio::from(file.try_clone().expect("a file can be shared")),
            (Input::Closed, _) => Stdio::null(),
            _ => Stdio::piped(),
        });
        let written = |full: bool| if full { full_device() } else { Stdio::piped() };
        command.stdout(written(self.output == Output::Full));
        command.stderr(written(self.error == Error::Full));
        command.process_group(0);
        if let Some(odd) = self.odd {
            command.env("LD_PRELOAD", ODD).env("ODD", odd);
        }
        command
            .spawn()
            .unwrap_or_else(|why| panic!("{program} can be started: {why}"))
    }

    /// What only a shell can do to a program's files.
    fn redirections(&self) -> String {
        let all = [
            (matches!(self.input, Input::Closed), " <&-"),
            (self.output == Output::Closed, " >&-"),
            (self.error == Error::Closed, " 2>&-"),
            (self.error == Error::WithOutput, " 2>&1"),
        ];
        all.iter().filter(|(done, _)| *done).map(|(_, how)| *how).collect()
    }
}

/// Each case with what came of it, so many run at a time. After one that hangs no other is started.
pub fn run_all<C: Sync, R: Send>(
    cases: &[C],
    at_a_time: usize,
    run: impl Fn(&C) -> R + Sync,
    hangs: impl Fn(&C, &R) -> bool + Sync,
) -> Vec<(&C, R)> {
    let next = AtomicUsize::new(0);
    let done = Mutex::new(Vec::new());
    let work = || {
        while let Some(case) = cases.get(next.fetch_add(1, Ordering::Relaxed)) {
            let outcome = run(case);
            if hangs(case, &outcome) {
                next.store(cases.len(), Ordering::Relaxed);
            }
            done.lock().expect("no work panics").push((case, outcome));
        }
    };
    scope(|threads| {
        (0..at_a_time).for_each(|_| {
            threads.spawn(work);
        });
    });
    done.into_inner().expect("no work panics")
}

fn opened(path: &PathBuf) -> File {
    File::open(path).unwrap_or_else(|why| panic!("{} can be opened: {why}", path.display()))
}

fn full_device() -> Stdio {
    Stdio::from(File::options().write(true).open("/dev/full").expect("it can be opened"))
}

/// The shell closes and joins files as the line says, and becomes the program.
fn through_shell(line: &str, program: &str) -> Command {
    let mut command = Command::new("sh");
    command.args(["-c", line, program]);
    command
}

/// A child that ends before it has read all closes the pipe, which is no fault.
fn feed(mut pipe: ChildStdin, input: Input) {
    match input {
        Input::Pieces(pieces) => {
            for (number, piece) in pieces.iter().enumerate() {
                if number > 0 {
                    sleep(PAUSE);
                }
                if pipe.write_all(piece).is_err() {
                    return;
                }
            }
        }
        Input::Endless(start) => {
            let mut bytes = start;
            while pipe.write_all(&bytes).is_ok() {
                bytes = vec![b' '; 4096];
            }
        }
        Input::File(_) | Input::Closed => {}
    }
}

fn collect(pipe: impl Read + Send + 'static) -> Receiver<Vec<u8>> {
    let (sender, receiver) = channel();
    spawn(move || {
        let mut bytes = Vec::new();
        let read = pipe.take(MOST_KEPT).read_to_end(&mut bytes);
        // Nobody may be waiting any more.
        let _ = read.map(|_| sender.send(bytes));
    });
    receiver
}

/// The child's status, or None where it had to be stopped.
fn wait(child: &mut Child, limit: Duration) -> Option<ExitStatus> {
    let start = Instant::now();
    while start.elapsed() < limit {
        let ended = child.try_wait().expect("a child can be waited for");
        if ended.is_some() {
            return ended;
        }
        sleep(LOOK);
    }
    // The child leads a group of its own, which it shares with all that it started.
    let group = i32::try_from(child.id()).expect("a process has a small number");
    // SAFETY: a signal to other processes; the child is not waited for yet, so the number is still its own.
    unsafe { kill(-group, KILL) };
    child.wait().expect("a child can be waited for");
    None
}
