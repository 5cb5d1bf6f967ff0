//! Writes the input of the program `editor` and the output that it must give: `edits STDIN_PATH STDOUT_PATH`.

use bithrowy_tests::editing::stream;

fn main() {
    let paths: Vec<String> = std::env::args().skip(1).collect();
    let [stdin_path, stdout_path] = &paths[..] else {
        eprintln!("usage: edits STDIN_PATH STDOUT_PATH");
        std::process::exit(2);
    };
    let (stdin, stdout) = stream::stdin_and_stdout();
    std::fs::write(stdin_path, &stdin).expect("write the input");
    std::fs::write(stdout_path, &stdout).expect("write the output");
    println!("{} lines, {} bytes of input", stdout.lines().count(), stdin.len());
}
