//! `show`, and the help.

mod support;

use support::Folder;

/// `[true*]f` is `nu Z. f && [true]Z`, and `<true*.close>true` is `<true*><close>true`, which is `mu Z. <close>true || <true>Z`.
/// So ten nodes: nu, and, mu, or, diamond, true, diamond, variable, box, variable; two action nodes, true and close; and two
/// binders, the first at the root.
#[test]
fn a_formula_and_the_limits() {
    let ran = Folder::new("show").run(&["show", "-e", "[true*]<true*.close>true"]).expect_exit(0);
    for line in ["  formula nodes  10 of 64", "  action nodes   2 of 128", "  fixed points   2 of 6"] {
        assert!(ran.out.lines().any(|shown| shown == line), "{}", ran.out);
    }
    assert!(ran.out.starts_with("  bracketed      "), "{}", ran.out);
}

/// `&&` binds tighter than `||`, and `=>` is loosest.
#[test]
fn brackets() {
    let ran = Folder::new("show-brackets").run(&["show", "-e", "true => false || true && false"]).expect_exit(0);
    let line = ran.out.lines().next().unwrap_or_default();
    assert_eq!(line, "  bracketed      true => (false || (true && false))");
}

#[test]
fn a_formula_beyond_the_limits() {
    let formula = vec!["true"; 40].join(" && ");
    let ran = Folder::new("show-large").run(&["show", "-e", &formula]).expect_exit(0);
    assert!(ran.out.contains("\n  formula nodes  79 of 64: too many, the checker refuses it\n"), "{}", ran.out);
}

/// Forty choices in a row double what stands behind them each: far too many nodes to be written out.
#[test]
fn a_formula_that_is_not_written_out() {
    let formula = "[a*+b.c]".repeat(40) + "true";
    let ran = Folder::new("show-huge").run(&["show", "-e", &formula]).expect_exit(0);
    assert!(ran.out.contains("too large to be written out"), "{}", ran.out);
}

#[test]
fn help_has_examples() {
    let folder = Folder::new("help");
    for command in ["check", "test", "show", "convert", "draw"] {
        let ran = folder.run(&[command, "--help"]).expect_exit(0);
        assert!(ran.out.contains(&format!("Examples:\n  bithrowy {command} ")) || command == "test", "{}", ran.out);
        assert!(ran.out.contains(&format!("\n  bithrowy {command} ")), "{}", ran.out);
        assert!(!ran.out.contains('\u{1b}') && ran.err.is_empty());
    }
    let ran = folder.run(&["--help"]).expect_exit(0);
    for command in ["check", "test", "show", "convert", "draw"] {
        assert!(ran.out.contains(&format!("\n  {command} ")), "{}", ran.out);
    }
    assert_eq!(folder.run(&["--version"]).expect_exit(0).out, "bithrowy 0.1.0\n");
}
