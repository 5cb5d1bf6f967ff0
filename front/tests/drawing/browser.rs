//! Pages in a real browser without a window, where one is installed.

use super::programs::{installed, note, run};
use std::path::{Path, PathBuf};
use std::process::Command;

/// Browsers that can print the document as it is after its scripts have run, which Firefox cannot.
const BROWSERS: [&str; 4] = ["chromium", "chromium-browser", "google-chrome", "google-chrome-stable"];

const SCRIPT: &str = include_str!("browser.js");

/// A browser that starts here, with a folder of its own.
pub struct Browser {
    program: &'static str,
    folder: PathBuf,
}

/// What a browser makes of a page.
pub struct Opened {
    /// The document as text.
    pub document: String,
    /// The messages of its console.
    pub console: Vec<String>,
}

impl Browser {
    /// None, with a line that says what is not tested, if there is no browser, or none that starts here.
    pub fn new(name: &str, test: &str) -> Option<Browser> {
        let program = installed(&BROWSERS, test)?;
        let folder = std::env::temp_dir().join(format!("bithrowy-{}-{name}", std::process::id()));
        std::fs::create_dir_all(&folder).unwrap_or_else(|error| panic!("{}: {error}", folder.display()));
        let browser = Browser { program, folder };
        let starts = browser.open("<!doctype html><title>starts</title>", 30);
        let started = starts.is_some_and(|opened| opened.document.contains("<title>starts</title>"));
        if !started {
            note(&format!("not tested, since {program} does not start here: {test}"));
            return None;
        }
        Some(browser)
    }

    /// Opens a page; none if the browser fails or does not end in time.
    pub fn open(&self, page: &str, seconds: u64) -> Option<Opened> {
        let path = self.folder.join("page.html");
        std::fs::write(&path, page).unwrap_or_else(|error| panic!("{}: {error}", path.display()));
        let ended = run(&mut self.command(&path), "", seconds)?;
        let console = ended.complained.lines().filter(|line| is_of_page(line)).map(str::to_string).collect();
        ended.well.then_some(Opened { document: ended.printed, console })
    }

    /// It has no network: each name of a host is unknown to it.
    fn command(&self, page: &Path) -> Command {
        let mut command = Command::new(self.program);
        command
            .args(["--headless", "--no-sandbox", "--disable-gpu", "--disable-dev-shm-usage", "--no-first-run"])
            .args(["--enable-logging=stderr", "--host-resolver-rules=MAP * ~NOTFOUND", "--virtual-time-budget=10000"])
            .arg(format!("--user-data-dir={}", self.folder.join("profile").display()))
            .args(["--dump-dom", &format!("file://{}", page.display())]);
        command
    }

    /// Opens pages in frames of one document, goes through their parts, and returns the lines of `browser.js`, a list for
    /// each page, and the messages of the console.
    pub fn visit(&self, pages: &[&str]) -> (Vec<Vec<String>>, Vec<String>) {
        let frame = |page: &&str| {
            format!("<iframe srcdoc=\"{}\"></iframe>\n", page.replace('&', "&amp;").replace('"', "&quot;"))
        };
        let frames: String = pages.iter().map(frame).collect();
        let start = "<!doctype html><meta charset=\"utf-8\"><title>pages</title><pre id=\"seen\"></pre>";
        let opened = self.open(&format!("{start}\n{frames}<script>{SCRIPT}</script>"), 120);
        let opened = opened.expect("the browser opens the pages in time");
        let seen = opened.document.split("<pre id=\"seen\">").nth(1).and_then(|behind| behind.split("</pre>").next());
        let mut lines = vec![Vec::new(); pages.len()];
        for line in seen.unwrap_or_default().lines() {
            let (page, what) = line.split_once(' ').expect("a page and what it shows");
            lines[page.parse::<usize>().expect("a number")].push(what.to_string());
        }
        (lines, opened.console)
    }
}

impl Drop for Browser {
    fn drop(&mut self) {
        // A folder that stays behind is no fault of the test.
        let _ = std::fs::remove_dir_all(&self.folder);
    }
}

/// Is a line of the browser's log a message of the page's console? The browser's own pages write there too, for instance
/// where there is no network.
fn is_of_page(line: &str) -> bool {
    line.contains(":CONSOLE") && !line.contains("source: chrome://")
}

/// A text as `encodeURIComponent` writes it.
pub fn encoded(text: &str) -> String {
    let plain = |byte: u8| byte.is_ascii_alphanumeric() || b"-_.!~*'()".contains(&byte);
    let one = |byte: u8| if plain(byte) { char::from(byte).to_string() } else { format!("%{byte:02X}") };
    text.bytes().map(one).collect()
}
