//! Running the programs.

use std::env;
use std::ffi::OsStr;
use std::fs::{self, File};
use std::io::{Read, Write};
use std::path::{Path, PathBuf};
use std::process::{self, Child, ChildStderr, ChildStdin, ChildStdout, Command, Output, Stdio};
use std::sync::atomic::{AtomicU32, Ordering};
use std::sync::mpsc;
use std::thread;
use std::time::Duration;

/// How long a program may take until it has written a text.
const PATIENCE: Duration = Duration::from_secs(60);

/// Returns the path of a program of this package.
pub fn path_of(program: &str) -> &'static str {
    match program {
        "cargo-test-report" => env!("CARGO_BIN_EXE_cargo-test-report"),
        "run-digest" => env!("CARGO_BIN_EXE_run-digest"),
        "test-report" => env!("CARGO_BIN_EXE_test-report"),
        _ => panic!("this package has no program {program}"),
    }
}

/// Returns a program with arguments, and with pipes as its standard input, output and error. It does not see that it
/// runs in a workflow on GitHub, where the text has annotations.
pub fn command<A: AsRef<OsStr>>(program: &str, arguments: &[A]) -> Command {
    let mut command = Command::new(path_of(program));
    command
        .args(arguments)
        .env_remove("GITHUB_ACTIONS")
        .stdin(Stdio::piped())
        .stdout(Stdio::piped())
        .stderr(Stdio::piped());
    command
}

/// Gives the programs that are started from now on the default action of Ctrl-C. A shell ignores it for the tests if they
/// run in the background, and they would inherit that. It is what the programs of all other tests have, too, if the tests
/// run in the foreground.
#[cfg(unix)]
pub fn restore_interrupt() {
    use signal_hook::consts::SIGINT;
    use signal_hook::flag::register_conditional_default;
    use std::sync::{Arc, atomic::AtomicBool};
    // Ctrl-C still ends the tests.
    let ends = Arc::new(AtomicBool::new(true));
    register_conditional_default(SIGINT, ends).expect("a handler can be set");
}

/// A program that runs, with the ends of its pipes.
pub struct Running {
    pub child: Child,
    pub stdin: ChildStdin,
    pub stdout: ChildStdout,
    pub stderr: ChildStderr,
}

/// Starts `test-report` with arguments.
pub fn start(arguments: &[&str]) -> Running {
    started(&mut command("test-report", arguments))
}

/// Starts a program whose standard input, output and error are pipes.
pub fn started(command: &mut Command) -> Running {
    let mut child = command.spawn().expect("the program starts");
    Running {
        stdin: child.stdin.take().expect("standard input is a pipe"),
        stdout: child.stdout.take().expect("standard output is a pipe"),
        stderr: child.stderr.take().expect("standard error is a pipe"),
        child,
    }
}

/// Runs a program on a small input, which must fit into the buffer of a pipe.
pub fn run<A: AsRef<OsStr>>(program: &str, arguments: &[A], input: &[u8]) -> Output {
    let mut child = command(program, arguments)
        .spawn()
        .expect("the program starts");
    let mut stdin = child.stdin.take().expect("standard input is a pipe");
    // A program that refuses its arguments ends without reading.
    let _ = stdin.write_all(input);
    drop(stdin);
    child.wait_with_output().expect("the program ends")
}

/// Runs a program with a file as its standard input.
pub fn run_on_file<A: AsRef<OsStr>>(program: &str, arguments: &[A], input: File) -> Output {
    command(program, arguments)
        .stdin(input)
        .output()
        .expect("the program runs")
}

/// Asserts the bytes of standard output and standard error, and the exit status.
pub fn assert_output(output: &Output, stdout: &[u8], stderr: &[u8], status: i32, what: &str) {
    let text = |bytes: &[u8]| String::from_utf8_lossy(bytes).into_owned();
    assert_eq!(
        text(&output.stdout),
        text(stdout),
        "{what}: standard output"
    );
    assert_eq!(text(&output.stderr), text(stderr), "{what}: standard error");
    assert!(
        output.stdout == stdout && output.stderr == stderr,
        "{what}: bytes that are not UTF-8 differ"
    );
    assert_eq!(output.status.code(), Some(status), "{what}: exit status");
}

/// Returns the end of a text for people in a pipe: the list, the numbers in words, and the summary for scripts.
pub fn end_of_text(list: &str, numbers: &str, summary: &str, outcome: &str) -> String {
    let rule = "------------\n";
    let above = if list.is_empty() { "" } else { rule };
    format!("{above}{list}{numbers}\n{rule}     Summary {summary}\noutcome {outcome}\n")
}

/// Runs an action in a thread, and returns its result, which must come within a minute.
pub fn soon<T: Send + 'static>(what: &str, action: impl FnOnce() -> T + Send + 'static) -> T {
    let (sender, receiver) = mpsc::channel();
    // Nobody waits any more if the result comes too late.
    thread::spawn(move || sender.send(action()));
    receiver
        .recv_timeout(PATIENCE)
        .unwrap_or_else(|_| panic!("{what} does not come"))
}

/// Reads a pipe until a text has come, which must be within a minute. Returns what was read, and the pipe.
pub fn read_until<R: Read + Send + 'static>(mut pipe: R, text: &str) -> (String, R) {
    let wanted = text.to_string();
    soon(text, move || {
        let (mut read, mut byte) = (Vec::new(), [0]);
        while !read.ends_with(wanted.as_bytes()) {
            match pipe.read(&mut byte) {
                Ok(1) => read.push(byte[0]),
                _ => panic!("the pipe ends after {:?}", String::from_utf8_lossy(&read)),
            }
        }
        let read = String::from_utf8(read).expect("the text is UTF-8");
        (read, pipe)
    })
}

/// Reads a pipe until a text has come, which must be within a minute, and returns the pipe.
pub fn wait_for<R: Read + Send + 'static>(pipe: R, text: &str) -> R {
    read_until(pipe, text).1
}

/// Makes a command run in a folder as a user would run it who has set no variable that changes what cargo does.
pub fn as_user<'a>(command: &'a mut Command, folder: &Path) -> &'a mut Command {
    for name in [
        "CARGO_TARGET_DIR",
        "CARGO_BUILD_JOBS",
        "CARGO_TERM_COLOR",
        "RUSTC_BOOTSTRAP",
        "RUSTDOC",
        "NO_COLOR",
        "CI",
    ] {
        command.env_remove(name);
    }
    command.env("CARGO_NET_OFFLINE", "true").current_dir(folder)
}

/// A folder that is removed at the end of a test.
pub struct Folder(pub PathBuf);

impl Folder {
    /// Creates a folder for a test.
    pub fn new(test: &str) -> Folder {
        // Tests of two files may give the same name.
        static COUNT: AtomicU32 = AtomicU32::new(0);
        let number = COUNT.fetch_add(1, Ordering::Relaxed);
        let name = format!("test-report-{}-{number}-{test}", process::id());
        let path = env::temp_dir().join(name);
        fs::create_dir(&path).expect("the folder is new");
        Folder(path)
    }

    /// Writes files, and the folders that they are in.
    pub fn write<'a>(&self, files: impl IntoIterator<Item = &'a (&'a str, &'a str)>) {
        for (name, text) in files {
            let path = self.0.join(name);
            let folder = path.parent().expect("a file is in a folder");
            fs::create_dir_all(folder).expect("the folder can be made");
            fs::write(path, text).expect("the folder is there");
        }
    }

    /// Returns the path of a file in the folder.
    pub fn file(&self, name: &str) -> String {
        self.0
            .join(name)
            .to_str()
            .expect("the path is UTF-8")
            .to_string()
    }

    /// Writes a script that can be run, and returns its path. A shell writes it. If this process did, a program that
    /// another test starts at that moment would hold the file open for writing, and Linux does not run such a file.
    #[cfg(unix)]
    pub fn script(&self, name: &str, text: &str) -> String {
        let path = self.file(name);
        let mut shell = Command::new("sh")
            .args(["-c", "cat >\"$0\" && chmod 755 \"$0\"", &path])
            .stdin(Stdio::piped())
            .spawn()
            .expect("there is a shell");
        let mut stdin = shell.stdin.take().expect("standard input is a pipe");
        stdin.write_all(text.as_bytes()).expect("the shell reads");
        drop(stdin);
        assert!(shell.wait().expect("the shell ends").success());
        path
    }
}

impl Drop for Folder {
    fn drop(&mut self) {
        // A folder that is left over does no harm.
        let _ = fs::remove_dir_all(&self.0);
    }
}
