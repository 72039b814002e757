// A program under test, run as a child process: it is started, given its input, and stopped where
// it doesn't end. What it wrote is compared with what it was to write.
use std::io::{Read, Write};
use std::path::{Path, PathBuf};
use std::process::{Child, ChildStdin, Command, ExitStatus, Stdio};
use std::sync::mpsc::{self, Receiver};
use std::thread::{self, JoinHandle};
use std::time::Duration;

/// How long a program may take and how much it may print before it is stopped. No input of the
/// tests needs nearly as much.
const TIME_LIMIT: Duration = Duration::from_secs(60);
const MOST_OUTPUT: u64 = 1 << 27;

/// A program with the arguments it is called with.
pub struct Program {
    path: PathBuf,
    arguments: Vec<String>,
}

/// All that a program wrote, and how it ended.
pub struct Ended {
    pub stdout: Vec<u8>,
    pub stderr: Vec<u8>,
    pub status: ExitStatus,
}

impl Program {
    /// The program at this path of the repository. `made_by` is the command that builds it.
    pub fn new(path: &str, made_by: &str, arguments: &[&str]) -> Program {
        let path = in_repository(path);
        assert!(path.exists(), "{} is missing: run `{made_by}` first", path.display());
        Program { path, arguments: arguments.iter().map(ToString::to_string).collect() }
    }

    pub fn start(&self, stdin: impl Into<Stdio>, stdout: impl Into<Stdio>) -> Child {
        Command::new(&self.path)
            .args(&self.arguments)
            .stdin(stdin)
            .stdout(stdout)
            .stderr(Stdio::piped())
            .spawn()
            .unwrap_or_else(|error| panic!("{} was not started: {error}", self.path.display()))
    }

    /// Runs the program on this input, of which it is to read all.
    pub fn run(&self, input: &[u8]) -> Ended {
        self.run_in_pieces(input, input.len().max(1), Duration::ZERO)
    }

    /// The same, where the input is written in pieces of this many bytes, with a pause after each
    /// so that the program reads them apart.
    pub fn run_in_pieces(&self, input: &[u8], piece_len: usize, pause: Duration) -> Ended {
        let mut child = self.start(Stdio::piped(), Stdio::piped());
        let writer = write_to(child.stdin.take().unwrap(), input.to_vec(), piece_len, pause);
        let ended = end_of(child);
        writer.join().expect("the whole input is read");
        ended
    }

    /// Runs the program on an input that comes from this stream.
    pub fn run_from(&self, stdin: impl Into<Stdio>) -> Ended {
        end_of(self.start(stdin, Stdio::piped()))
    }
}

pub fn in_repository(path: &str) -> PathBuf {
    Path::new(env!("CARGO_MANIFEST_DIR")).join("..").join(path)
}

/// Writes beside the test, since the program's output may fill its pipe before it has read all.
fn write_to(
    mut stdin: ChildStdin,
    input: Vec<u8>,
    piece_len: usize,
    pause: Duration,
) -> JoinHandle<()> {
    thread::spawn(move || {
        for piece in input.chunks(piece_len) {
            stdin.write_all(piece).expect("the program reads on");
            stdin.flush().expect("the program reads on");
            thread::sleep(pause);
        }
    })
}

/// What the program has written by its end. One that doesn't end by itself is stopped.
pub fn end_of(mut child: Child) -> Ended {
    let stdout = child.stdout.take().map(read_beside);
    let stderr = child.stderr.take().map(read_beside);
    let mut whole = |stream: Option<Receiver<Vec<u8>>>| match stream {
        None => Vec::new(),
        Some(stream) => stream.recv_timeout(TIME_LIMIT).unwrap_or_else(|_| {
            child.kill().unwrap();
            panic!("the program doesn't end");
        }),
    };
    let (stdout, stderr) = (whole(stdout), whole(stderr));
    Ended { stdout, stderr, status: child.wait().unwrap() }
}

/// Reads a stream to its end. Of too long a stream nothing is sent.
fn read_beside(stream: impl Read + Send + 'static) -> Receiver<Vec<u8>> {
    let (sender, receiver) = mpsc::channel();
    thread::spawn(move || {
        let mut output = Vec::new();
        let read = stream.take(MOST_OUTPUT).read_to_end(&mut output);
        if read.is_ok_and(|len| len < MOST_OUTPUT as usize) {
            // Where nobody waits any more, the test has failed already.
            let _ = sender.send(output);
        }
    });
    receiver
}

/// Holds an output to the expected one. It shows the first line that is wrong, as whole outputs
/// may be long, and the input's line that it answers, where so many lines of header go before.
pub fn assert_output(input: &[u8], found: &[u8], expected: &[u8], header: usize) {
    if found == expected {
        return;
    }
    let found: Vec<_> = found.split(|&byte| byte == b'\n').collect();
    let expected: Vec<_> = expected.split(|&byte| byte == b'\n').collect();
    let same = found.iter().zip(&expected).take_while(|(found, expected)| found == expected);
    let number = same.count();
    let line = input.split(|&byte| byte == b'\n').nth(number.wrapping_sub(header)).unwrap_or(b"");
    panic!(
        "line {number} of {}, to {:.200}: {:.400}, not {:.400}",
        expected.len() - 1,
        shown(Some(&line)),
        shown(found.get(number)),
        shown(expected.get(number))
    );
}

fn shown(line: Option<&&[u8]>) -> String {
    match line {
        Some(line) => format!("\"{}\"", line.escape_ascii()),
        None => String::from("nothing"),
    }
}
