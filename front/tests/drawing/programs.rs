//! Other programs that a test asks, where they are installed. Each has a time limit.

use std::io::{Read, Write};
use std::process::{Child, Command, Stdio};
use std::thread::{self, JoinHandle};
use std::time::{Duration, Instant};

/// The first of these programs that is installed. If there is none, a line says what is not tested.
pub fn installed(programs: &[&'static str], test: &str) -> Option<&'static str> {
    let path = std::env::var_os("PATH").unwrap_or_default();
    let exists = |program: &&&str| std::env::split_paths(&path).any(|folder| folder.join(program).is_file());
    let found = programs.iter().find(exists).copied();
    if found.is_none() {
        note(&format!("not tested, since {} is not installed: {test}", programs.join(" or ")));
    }
    found
}

/// A line that is seen even where the output of tests that pass is not.
pub fn note(line: &str) {
    // The note is lost if nobody listens.
    let _ = writeln!(std::io::stderr(), "{line}");
}

/// How a program ended.
pub struct Ended {
    pub well: bool,
    pub printed: String,
    pub complained: String,
}

/// Runs a program on an input. None if it does not end within so many seconds, and then it is stopped.
pub fn run(command: &mut Command, input: &str, seconds: u64) -> Option<Ended> {
    let piped = command.stdin(Stdio::piped()).stdout(Stdio::piped()).stderr(Stdio::piped());
    let mut child = piped.spawn().unwrap_or_else(|error| panic!("{command:?}: {error}"));
    let mut to = child.stdin.take().expect("a pipe");
    let input = input.to_string();
    // A program that does not read all of its input is no fault of the test.
    thread::spawn(move || to.write_all(input.as_bytes()).is_ok());
    let printed = reader(child.stdout.take().expect("a pipe"));
    let complained = reader(child.stderr.take().expect("a pipe"));
    let well = wait(&mut child, Duration::from_secs(seconds))?;
    let text = |reader: JoinHandle<String>| reader.join().expect("the reader ends");
    Some(Ended { well, printed: text(printed), complained: text(complained) })
}

fn reader(mut from: impl Read + Send + 'static) -> JoinHandle<String> {
    thread::spawn(move || {
        let mut bytes = Vec::new();
        // What was read before an error is kept.
        let _ = from.read_to_end(&mut bytes);
        String::from_utf8_lossy(&bytes).into_owned()
    })
}

/// Whether the program ends well; none if it does not end in time.
fn wait(child: &mut Child, limit: Duration) -> Option<bool> {
    let start = Instant::now();
    while start.elapsed() < limit {
        if let Ok(Some(status)) = child.try_wait() {
            return Some(status.success());
        }
        thread::sleep(Duration::from_millis(10));
    }
    // It may have ended just now.
    let _ = child.kill();
    let _ = child.wait();
    None
}

/// What a script of python3 prints for an input; none where python3 is not installed. The script has to end well.
pub fn python(script: &str, input: &str, test: &str) -> Option<String> {
    let python = installed(&["python3"], test)?;
    let mut command = Command::new(python);
    let ended = run(command.args(["-c", script]).env("PYTHONIOENCODING", "utf-8"), input, 60);
    let ended = ended.unwrap_or_else(|| panic!("{test}: python3 does not end"));
    assert!(ended.well, "{test}: {}", ended.complained);
    Some(ended.printed)
}
