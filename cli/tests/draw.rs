//! `draw`: DOT, SVG with and without graphviz, and the page.

mod support;

use std::time::{Duration, Instant};
use support::{finished, Folder};

#[test]
fn dot_on_standard_output() {
    let folder = Folder::with_dialog("draw-dot");
    let plain = folder.run(&["draw", "dialog.aut"]).expect_exit(0).out;
    assert!(plain.starts_with("digraph"), "{plain}");
    assert!(plain.contains("closing") && plain.contains("click"), "{plain}");
    let answered = folder.run(&["draw", "dialog.aut", "-e", "<close>true"]).expect_exit(0).out;
    assert_ne!(plain, answered);
}

#[test]
fn svg_into_a_file() {
    let folder = Folder::with_dialog("draw-svg");
    let ran = folder.run(&["draw", "dialog.aut", "ends.mcf", "--svg", "m.svg"]).expect_exit(0);
    assert_eq!(ran.out, "");
    assert!(folder.read("m.svg").contains("<svg"));
    assert!(folder.read("m.svg").contains("closing"));
}

#[test]
fn svg_without_graphviz() {
    let folder = Folder::with_dialog("draw-without");
    finished(folder.command(&["draw", "dialog.aut", "--svg", "m.svg"]).env("PATH", folder.path(""))).expect_exit(0);
    assert!(folder.read("m.svg").contains("<svg"));
    assert!(folder.read("m.svg").contains("closing"));
}

/// A program with the name of graphviz's that fails, or never ends, is no fault: the drawing is made without it.
#[cfg(unix)]
#[test]
fn svg_where_graphviz_fails() {
    let folder = Folder::with_dialog("draw-broken");
    for (script, seconds) in [("#!/bin/sh\necho '<svg>'\nexit 1\n", 4), ("#!/bin/sh\nsleep 60\n", 30)] {
        let start = Instant::now();
        folder.write("bin/dot", script);
        make_executable(&folder);
        let path = format!("{}:/usr/bin:/bin", folder.path("bin").display());
        finished(folder.command(&["draw", "dialog.aut", "--svg", "m.svg"]).env("PATH", path)).expect_exit(0);
        assert!(folder.read("m.svg").contains("closing"));
        assert!(start.elapsed() < Duration::from_secs(seconds));
    }
}

#[cfg(unix)]
fn make_executable(folder: &Folder) {
    use std::os::unix::fs::PermissionsExt;
    let mode = std::fs::Permissions::from_mode(0o755);
    std::fs::set_permissions(folder.path("bin/dot"), mode).expect("its mode can be set");
}

#[test]
fn the_page() {
    let folder = Folder::with_dialog("draw-page");
    folder.run(&["draw", "dialog.aut", "ends.mcf", "--html", "m.html"]).expect_exit(0);
    let page = folder.read("m.html");
    assert!(page.to_lowercase().starts_with("<!doctype html>"));
    assert!(page.contains("closing") && page.contains("<title>ends.mcf (dialog.aut)"), "{page}");
    folder.write("named.mcf", "% name: Every run ends\nmu X. [true] X\n");
    folder.run(&["draw", "dialog.aut", "named.mcf", "--html", "m.html"]).expect_exit(0);
    assert!(folder.read("m.html").contains("<title>Every run ends (dialog.aut)"));
    folder.run(&["draw", "dialog.aut", "-e", " [true]false ", "--html", "m.html"]).expect_exit(0);
    assert!(folder.read("m.html").contains("<title>[true]false (dialog.aut)"));
    let ran = folder.run(&["draw", "dialog.aut", "--html", "n.html"]).expect_exit(2);
    assert!(ran.err.starts_with("error: the page needs a formula\n"), "{}", ran.err);
    assert!(!folder.path("n.html").exists());
}

/// With and without graphviz the verdict is in the drawing, by a sign and not by colour alone.
#[test]
fn a_verdict_in_svg() {
    let folder = Folder::with_dialog("draw-verdict");
    for path in [std::env::var("PATH").unwrap_or_default(), folder.path("").display().to_string()] {
        let mut command =
            folder.command(&["draw", "dialog.aut", "-e", "<close>true", "--svg", "m.svg", "--html", "m.html"]);
        finished(command.env("PATH", path)).expect_exit(0);
        let drawing = folder.read("m.svg");
        assert!(drawing.contains('\u{2713}') && drawing.contains('\u{2717}'), "{drawing}");
        assert!(folder.path("m.html").exists());
    }
}

#[cfg(unix)]
#[test]
fn svg_by_graphviz() {
    let folder = Folder::with_dialog("draw-graphviz");
    folder.write("bin/dot", "#!/bin/sh\ncat >/dev/null\necho '<svg>by graphviz</svg>'\n");
    make_executable(&folder);
    let path = format!("{}:/usr/bin:/bin", folder.path("bin").display());
    finished(folder.command(&["draw", "dialog.aut", "--svg", "m.svg"]).env("PATH", path)).expect_exit(0);
    assert_eq!(folder.read("m.svg"), "<svg>by graphviz</svg>\n");
}

#[test]
fn options() {
    let folder = Folder::with_dialog("draw-options");
    folder.write("other.txt", "0 shown\n");
    let ran = folder.run(&["draw", "dialog.aut", "--names", "other.txt"]).expect_exit(0);
    assert!(ran.out.contains("shown") && !ran.out.contains("closing"), "{}", ran.out);
    // P1 takes four rounds.
    folder.run(&["draw", "dialog.aut", "ends.mcf", "--limit", "3"]).expect_exit(2);
}
