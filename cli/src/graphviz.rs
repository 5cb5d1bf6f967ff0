//! The program `dot` of graphviz, which may be missing and may take too long.

use std::io::{Read, Write};
use std::process::{Child, ChildStdin, ChildStdout, Command, Stdio};
use std::sync::mpsc::{channel, Receiver};
use std::thread;
use std::time::Duration;

/// How long `dot` may take.
const PATIENCE: Duration = Duration::from_secs(5);

/// A drawing of a DOT text; nothing where graphviz is not installed, fails or is too slow.
pub fn svg(dot: &str) -> Option<String> {
    let mut child = start().ok()?;
    send(child.stdin.take()?, dot.to_string());
    let drawing = receive(child.stdout.take()?).recv_timeout(PATIENCE);
    if drawing.is_err() {
        let _ = child.kill();
    }
    let ended_well = child.wait().is_ok_and(|status| status.success());
    drawing.ok().filter(|drawing| ended_well && drawing.contains("<svg"))
}

fn start() -> std::io::Result<Child> {
    Command::new("dot").arg("-Tsvg").stdin(Stdio::piped()).stdout(Stdio::piped()).stderr(Stdio::null()).spawn()
}

/// Sends the text from a thread of its own: `dot` may write before it has read all.
fn send(mut into: ChildStdin, dot: String) {
    thread::spawn(move || into.write_all(dot.as_bytes()));
}

/// The whole drawing, as soon as it is there. A drawing that nobody waits for any more is dropped.
fn receive(mut from: ChildStdout) -> Receiver<String> {
    let (sender, receiver) = channel();
    thread::spawn(move || {
        let mut drawing = String::new();
        if from.read_to_string(&mut drawing).is_ok() {
            let _ = sender.send(drawing);
        }
    });
    receiver
}
