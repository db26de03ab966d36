//! Runs the program `robots_decide`, with its standard input given in several
//! ways.

use std::fs::File;
use std::io::{ErrorKind, Write};
use std::os::fd::OwnedFd;
use std::path::Path;
use std::process::{Child, Command, Output, Stdio};
use std::thread;
use std::time::{Duration, Instant};

const PROGRAM: &str = env!("ROBOTS_DECIDE");

/// Starts the program with this standard input.
fn started(input: Stdio) -> Child {
    Command::new(PROGRAM)
        .stdin(input)
        .stdout(Stdio::piped())
        .stderr(Stdio::piped())
        .spawn()
        .unwrap_or_else(|fault| panic!("{PROGRAM} can't be started: {fault}"))
}

/// What the program writes for an input that comes through a pipe, in writes
/// of at most `piece` octets. It needn't read all of it.
pub fn run(input: &[u8], piece: usize) -> Output {
    let mut child = started(Stdio::piped());
    let mut pipe = child.stdin.take().expect("its input is a pipe");
    thread::scope(|scope| {
        scope.spawn(move || {
            for part in input.chunks(piece) {
                match pipe.write_all(part) {
                    Err(fault) if fault.kind() == ErrorKind::BrokenPipe => return,
                    result => result.expect("a pipe can be written"),
                }
            }
        });
        child.wait_with_output().expect("the program ends")
    })
}

/// What the program writes for an input that is an open descriptor. It has to
/// end by itself: it is killed after a while.
pub fn run_on(input: impl Into<OwnedFd>) -> Output {
    let mut child = started(Stdio::from(input.into()));
    let end = Instant::now() + Duration::from_secs(60);
    while child.try_wait().expect("the program is there").is_none() {
        if end < Instant::now() {
            child.kill().expect("the program can be killed");
            panic!("{PROGRAM} still reads");
        }
        thread::sleep(Duration::from_millis(1));
    }
    child.wait_with_output().expect("the program ends")
}

/// What the program writes for an input that is a file.
pub fn run_on_file(input: &Path) -> Output {
    run_on(File::open(input).expect("the input can be opened"))
}

/// What the program writes if its standard input is closed.
pub fn run_on_closed() -> Output {
    Command::new("/bin/sh")
        .args(["-c", "exec \"$0\" <&-", PROGRAM])
        .output()
        .expect("the shell can be started")
}

/// What the program writes for no input at all.
pub fn run_on_nothing() -> Output {
    started(Stdio::null())
        .wait_with_output()
        .expect("the program ends")
}
