//! Writes the input of the program `runs` and the output that it must give: `cases STDIN_PATH STDOUT_PATH`.

use bithrowy_tests::stream;

fn main() {
    let paths: Vec<String> = std::env::args().skip(1).collect();
    let [stdin_path, stdout_path] = &paths[..] else {
        eprintln!("usage: cases STDIN_PATH STDOUT_PATH");
        std::process::exit(2);
    };
    let (stdin, stdout) = stream::stdin_and_stdout();
    std::fs::write(stdin_path, &stdin).expect("write the input");
    std::fs::write(stdout_path, &stdout).expect("write the output");
    println!("{} cases, {} bytes of input", stdout.lines().count(), stdin.len());
}
