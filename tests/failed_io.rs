// The programs where a read or a write fails: they say so, once, and what they wrote is a start of the whole output, with nothing missing in it.
// Their exit status stays 0.
use std::env;
use std::fs::{self, File, OpenOptions};
use std::io::{self, PipeReader, Read, Write};
use std::os::fd::AsRawFd;
use std::os::unix::fs::OpenOptionsExt;
use std::process::{Child, Command, Stdio};
use std::thread;
use std::time::Duration;

mod program;
use program::printed;

// Linux's, on x86-64 and on Arm
const O_NONBLOCK: i32 = 0o4000;

const LINE: &str = "2000 1 2 12 0 0 0 0 0\n";
const NO_ROOM: &str = "standard output: No space left on device\n";
const NO_OUTPUT: &str = "standard output: Bad file descriptor\n";
const NO_INPUT: &str = "standard input: Bad file descriptor\n";
const NO_FILE: &str = "standard input: Is a directory\n";
const NOBODY: &str = "standard output: Broken pipe\n";
const TOO_LARGE: &str = "standard output: File too large\n";
const LATER: &str = "Resource temporarily unavailable\n";

// The program behind a shell, which can close what the program inherits, and ignore a signal for it.
fn shell(program: &str, before: &str) -> Command {
    let mut command = Command::new("sh");
    command.args(["-c", &format!("{before} exec \"$0\""), program]);
    command
}

// The end of a pipe once more, so that a call which would wait fails instead.
fn never_waits(end: &impl AsRawFd, write: bool) -> File {
    let path = format!("/proc/self/fd/{}", end.as_raw_fd());
    OpenOptions::new().read(!write).write(write).custom_flags(O_NONBLOCK).open(path).unwrap()
}

// Feeds the input to a program that may stop before its end; what it says on standard error.
fn feed(mut child: Child, input: &[u8]) -> String {
    let mut stdin = child.stdin.take().unwrap();
    let input = input.to_vec();
    let writer = thread::spawn(move || stdin.write_all(&input).is_ok());
    let errors = said(child);
    writer.join().unwrap();
    errors
}

fn said(mut child: Child) -> String {
    let mut errors = String::new();
    child.stderr.take().unwrap().read_to_string(&mut errors).unwrap();
    assert_eq!(child.wait().unwrap().code(), Some(0));
    errors
}

fn spawn(mut command: Command, stdin: Stdio, stdout: Stdio) -> Child {
    command.stdin(stdin).stdout(stdout).stderr(Stdio::piped()).spawn().unwrap()
}

// Outputs that take nothing: for the header, for a line, and for a last line without a newline.
fn refused_outputs(program: &str) -> usize {
    let inputs = ["x\n", "x", "x\nx\nx", &LINE.repeat(3000)];
    for input in inputs {
        let run = |command: Command, stdout: Stdio| feed(spawn(command, Stdio::piped(), stdout), input.as_bytes());
        let full = OpenOptions::new().write(true).open("/dev/full").unwrap();
        assert_eq!(run(Command::new(program), full.into()), NO_ROOM);
        let read_only = File::open("/dev/null").unwrap();
        assert_eq!(run(Command::new(program), read_only.into()), NO_OUTPUT);
        assert_eq!(run(shell(program, "exec >&-;"), Stdio::null()), NO_OUTPUT);
        let (reader, writer) = io::pipe().unwrap();
        drop(reader);
        assert_eq!(run(shell(program, "trap '' PIPE;"), writer.into()), NOBODY);
    }
    4 * inputs.len()
}

// Inputs that cannot be read: the header alone is written, and a line that was begun is not answered.
fn refused_inputs(program: &str) -> usize {
    let header = printed(program, b"");
    let check = |command: Command, stdin: Stdio, message: &str| {
        let mut child = spawn(command, stdin, Stdio::piped());
        let mut output = String::new();
        child.stdout.take().unwrap().read_to_string(&mut output).unwrap();
        assert_eq!((said(child), &output), (message.to_string(), &header));
    };
    check(shell(program, "exec <&-;"), Stdio::null(), NO_INPUT);
    check(Command::new(program), OpenOptions::new().write(true).open("/dev/null").unwrap().into(), NO_INPUT);
    check(Command::new(program), File::open("/").unwrap().into(), NO_FILE);
    let (reader, mut writer) = io::pipe().unwrap();
    writer.write_all(LINE.trim_end().as_bytes()).unwrap();
    check(Command::new(program), never_waits(&reader, false).into(), &format!("standard input: {LATER}"));
    4
}

// What a slow reader gets.
fn drained(mut reader: PipeReader) -> String {
    let mut output = Vec::new();
    let mut part = [0; 3000];
    loop {
        thread::sleep(Duration::from_micros(500));
        match reader.read(&mut part).unwrap() {
            0 => return String::from_utf8(output).unwrap(),
            count => output.extend(&part[..count]),
        }
    }
}

// A pipe that waits for its slow reader gets everything.
fn waiting(program: &str, input: &str) -> (String, String) {
    let (reader, writer) = io::pipe().unwrap();
    let child = spawn(Command::new(program), Stdio::piped(), writer.into());
    let reader = thread::spawn(move || drained(reader));
    let errors = feed(child, input.as_bytes());
    (reader.join().unwrap(), errors)
}

// One that does not wait gets as much as its reader made room for; here that reads along, or only once the program has stopped.
fn not_waiting(program: &str, input: &str, along: bool) -> (String, String) {
    let (reader, writer) = io::pipe().unwrap();
    let child = spawn(Command::new(program), Stdio::piped(), never_waits(&writer, true).into());
    drop(writer);
    if along {
        let reader = thread::spawn(move || drained(reader));
        let errors = feed(child, input.as_bytes());
        return (reader.join().unwrap(), errors);
    }
    let errors = feed(child, input.as_bytes());
    (drained(reader), errors)
}

fn slow_readers(program: &str) -> usize {
    // answers shorter than a pipe takes at once, and longer: 512 in one write
    let inputs = [LINE.repeat(10_000), "\n".repeat(20_000), "x".repeat(200) + &"\nx".repeat(20_000)];
    let message = format!("standard output: {LATER}");
    for input in &inputs {
        let expected = printed(program, input.as_bytes());
        assert!(waiting(program, input) == (expected.clone(), String::new()));
        for along in [false, true] {
            let (output, errors) = not_waiting(program, input, along);
            let is_whole = along && output == expected && errors.is_empty();
            assert!(is_whole || (expected.starts_with(&output) && output != expected && errors == message), "{errors}");
        }
    }
    3 * inputs.len()
}

// A file that may not grow past 4096 bytes: the write that reaches them takes a part, and what follows it fails.
fn small_file(program: &str) -> usize {
    let path = env::current_exe().unwrap().with_extension("out");
    let input = LINE.repeat(3000);
    let limited = shell(program, "trap '' XFSZ; ulimit -f 8;");
    let child = spawn(limited, Stdio::piped(), File::create(&path).unwrap().into());
    assert_eq!(feed(child, input.as_bytes()), TOO_LARGE);
    let expected = printed(program, input.as_bytes());
    assert!(fs::read_to_string(&path).unwrap() == expected[..4096]);
    fs::remove_file(path).unwrap();
    1
}

fn main() {
    let mut count = 0;
    for program in env::args().skip(1) {
        count += refused_outputs(&program) + refused_inputs(&program) + slow_readers(&program) + small_file(&program);
    }
    assert!(count > 0, "the programs");
    println!("failed_io: {count} runs with failed reads and writes, and slow readers, come out");
}
