//! An input that can't be read to its end isn't taken for an empty one, nor for
//! what was read of it: the program writes nothing. However the input comes, it
//! is answered if its end was read.

use std::fs::{File, OpenOptions};
use std::io::{self, Write};
use std::net::{TcpListener, TcpStream};
use std::os::fd::{AsRawFd, OwnedFd};
use std::os::unix::fs::OpenOptionsExt;
use std::os::unix::net::UnixStream;
use std::path::Path;
use std::process::Output;
use std::thread;
use std::time::Duration;

/// The front of an input that is disallowed: by itself it would be allowed.
const FRONT: &[u8] = b"a\n/x\nuser-agent: *\n";

const REST: &[u8] = b"disallow: /\n";

const ANSWER: &str = "disallow line 2 unread 0 compared 1\n";

/// O_NONBLOCK on Linux.
const NON_BLOCKING: i32 = 0o4000;

/// The front, lengthened with LFs.
fn lengthened(length: usize) -> Vec<u8> {
    [FRONT, &vec![b'\n'; length - FRONT.len()]].concat()
}

/// What is read before the input fails: nothing, a name, and parts that would
/// be allowed. Every system keeps so many octets until they are read.
fn fronts() -> [Vec<u8>; 5] {
    [
        Vec::new(),
        b"a".to_vec(),
        b"a\n/x".to_vec(),
        FRONT.to_vec(),
        lengthened(4_096),
    ]
}

#[track_caller]
fn check(output: &Output, expected: &str) {
    assert_eq!(String::from_utf8_lossy(&output.stdout), expected);
    assert!(output.stderr.is_empty(), "messages");
}

/// Two ends of a connection.
fn tcp() -> (TcpStream, TcpStream) {
    let listener = TcpListener::bind("127.0.0.1:0").expect("a port is free");
    let address = listener.local_addr().expect("it has an address");
    let ours = TcpStream::connect(address).expect("it can be connected to");
    let (theirs, _) = listener.accept().expect("the connection is there");
    theirs.set_nodelay(true).expect("small pieces can be sent");
    (ours, theirs)
}

/// Waits until so many octets can be read. To ask for none would wait for one.
fn await_octets(stream: &TcpStream, length: usize) {
    let mut octets = vec![0; length];
    while length > 0 && stream.peek(&mut octets).expect("it can be read") < length {
        thread::sleep(Duration::from_millis(1));
    }
}

/// A connection from which the front can be read, and then a reset: the peer
/// closes it with an octet unread.
fn reset_tcp(front: &[u8]) -> OwnedFd {
    let (mut ours, mut theirs) = tcp();
    ours.write_all(b"x").expect("it can be written");
    await_octets(&theirs, 1);
    theirs.write_all(front).expect("it can be written");
    await_octets(&ours, front.len());
    drop(theirs);
    ours.into()
}

fn reset_unix(front: &[u8]) -> OwnedFd {
    let (mut ours, mut theirs) = UnixStream::pair().expect("sockets can be made");
    ours.write_all(b"x").expect("it can be written");
    theirs.write_all(front).expect("it can be written");
    drop(theirs);
    ours.into()
}

/// A pipe that doesn't wait: its end for reading, and the one for writing, with
/// the front in it.
fn pipe(front: &[u8]) -> (OwnedFd, io::PipeWriter) {
    let (reader, mut writer) = io::pipe().expect("a pipe can be made");
    let name = format!("/proc/self/fd/{}", reader.as_raw_fd());
    let reader = OpenOptions::new()
        .read(true)
        .custom_flags(NON_BLOCKING)
        .open(name)
        .expect("a pipe can be opened again");
    writer.write_all(front).expect("it can be written");
    (reader.into(), writer)
}

#[test]
fn a_connection_that_is_reset() {
    for front in fronts() {
        check(&program::run_on(reset_tcp(&front)), "");
    }
}

#[test]
fn a_unix_socket_that_is_reset() {
    for front in fronts() {
        check(&program::run_on(reset_unix(&front)), "");
    }
}

/// As much as is answered at most, and then a reset. An input of one octet more
/// is too long, whatever becomes of the rest.
#[test]
fn a_reset_behind_the_longest_input() {
    check(&program::run_on(reset_unix(&lengthened(65_536))), "");
    let output = program::run_on(reset_unix(&lengthened(65_537)));
    check(&output, "refused 7\n");
}

/// No octet is there, though the writer may still write some.
#[test]
fn a_pipe_that_does_not_wait() {
    for front in fronts() {
        let (reader, writer) = pipe(&front);
        check(&program::run_on(reader), "");
        drop(writer);
    }
    let (reader, writer) = pipe(&[FRONT, REST].concat());
    drop(writer);
    check(&program::run_on(reader), ANSWER);
}

/// A folder can be opened, but not read; a file that is open for writing can't
/// be read either, nor a descriptor that is closed.
#[test]
fn an_input_that_cannot_be_read() {
    let folder = Path::new(env!("CARGO_MANIFEST_DIR"));
    check(&program::run_on_file(folder), "");
    let sink = File::create("/dev/null").expect("it can be opened");
    check(&program::run_on(sink), "");
    check(&program::run_on_closed(), "");
}

/// Writes the pieces one after the other, with time for a read between them.
fn send(mut stream: impl Write, pieces: &[&[u8]]) {
    for piece in pieces {
        stream.write_all(piece).expect("it can be written");
        thread::sleep(Duration::from_millis(2));
    }
}

/// Octet by octet over a connection that is closed in order.
#[test]
fn an_input_in_many_small_pieces() {
    let input = [FRONT, REST].concat();
    let pieces: Vec<&[u8]> = input.chunks(1).collect();
    let (ours, theirs) = tcp();
    let (near, far) = UnixStream::pair().expect("sockets can be made");
    let (reader, writer) = io::pipe().expect("a pipe can be made");
    thread::scope(|scope| {
        scope.spawn(|| send(theirs, &pieces));
        scope.spawn(|| send(far, &pieces));
        scope.spawn(|| send(writer, &pieces));
        check(&program::run_on(ours), ANSWER);
        check(&program::run_on(near), ANSWER);
        check(&program::run_on(reader), ANSWER);
    });
}
