//! Running another program: standard input in, both outputs and status out.

use std::ffi::OsString;
use std::io::{self, ErrorKind, Read, Write};
use std::process::{Child, Command, ExitStatus, Stdio};
use std::sync::mpsc::{self, Receiver};
use std::thread;
use std::time::{Duration, Instant};

/// No more of an output is read; a program that writes more is in the wrong.
const MOST_OUTPUT: u64 = 64 << 20;

pub struct Answer {
    pub text: Vec<u8>,
    /// What it wrote to standard error.
    pub told: Vec<u8>,
    /// None if the program was killed, for its time or by another.
    pub status: Option<i32>,
}

/// Runs the program and ends it if it takes longer than `patience`.
pub fn run(
    program: &str,
    arguments: &[OsString],
    input: &[u8],
    patience: Duration,
) -> io::Result<Answer> {
    let mut child = Command::new(program)
        .args(arguments)
        .stdin(Stdio::piped())
        .stdout(Stdio::piped())
        .stderr(Stdio::piped())
        .spawn()?;
    let end = Instant::now() + patience;
    let mut stdin = child.stdin.take().expect("a piped standard input");
    let text = collect(child.stdout.take().expect("a piped standard output"));
    let told = collect(child.stderr.take().expect("a piped standard error"));
    let input = input.to_vec();
    // Apart from the readers, as a program may write before it has read all.
    let written = thread::spawn(move || match stdin.write_all(&input) {
        // Nor does a program have to read all.
        Err(error) if error.kind() != ErrorKind::BrokenPipe => Err(error),
        _ => Ok(()),
    });
    let text = receive(&text, end)?;
    let told = receive(&told, end)?;
    match (text, told, wait(&mut child, end)?) {
        (Some(text), Some(told), Some(status)) => {
            written.join().expect("a writer that does not panic")?;
            Ok(Answer {
                text,
                told,
                status: status.code(),
            })
        }
        (text, told, status) => {
            if status.is_none() {
                child.kill()?;
                child.wait()?;
            }
            Ok(Answer {
                text: text.unwrap_or_default(),
                told: told.unwrap_or_default(),
                status: None,
            })
        }
    }
}

/// Reads to the end, beside the other threads.
fn collect(stream: impl Read + Send + 'static) -> Receiver<io::Result<Vec<u8>>> {
    let (sender, receiver) = mpsc::channel();
    thread::spawn(move || {
        let mut bytes = Vec::new();
        let read = stream.take(MOST_OUTPUT).read_to_end(&mut bytes);
        // The receiver may have given up.
        let _ = sender.send(read.map(|_| bytes));
    });
    receiver
}

fn receive(receiver: &Receiver<io::Result<Vec<u8>>>, end: Instant) -> io::Result<Option<Vec<u8>>> {
    let left = end.saturating_duration_since(Instant::now());
    receiver.recv_timeout(left).ok().transpose()
}

fn wait(child: &mut Child, end: Instant) -> io::Result<Option<ExitStatus>> {
    // Mostly the program has ended with its output.
    let mut pause = Duration::from_micros(50);
    loop {
        let status = child.try_wait()?;
        if status.is_some() || Instant::now() >= end {
            return Ok(status);
        }
        thread::sleep(pause);
        pause = (2 * pause).min(Duration::from_millis(20));
    }
}

/// One line of text to a row, with all but printable bytes escaped.
pub fn show(text: &[u8]) {
    for line in text.split_inclusive(|&byte| byte == b'\n') {
        println!("  {}", line.escape_ascii());
    }
}

pub fn show_hex(bytes: &[u8]) {
    for row in bytes.chunks(32) {
        let hex: String = row.iter().map(|byte| format!("{byte:02x}")).collect();
        println!("  {hex}");
    }
}

pub fn show_status(status: Option<i32>) -> String {
    status.map_or("none (killed)".to_string(), |status| status.to_string())
}
