//! One HTML page that needs no network: the model drawn, and the formula with parts to click.
//!
//! The page has one style and one script, both always the same. Its security policy allows these two alone, by their
//! hashes, so that a text from a model could do nothing even if it got out of its place. No text from a model or a formula
//! stands in the script: all of it is the content of elements, or an attribute.

mod parts;
mod states;
mod words;

use crate::amount::{of, thousands};
use crate::check::Checked;
use crate::draw::svg;
use crate::draw::xml::{escaped, Element};
use crate::model::Model;

const STYLE: &str = include_str!("page/page.css");
const SCRIPT: &str = include_str!("page/page.js");

/// The SHA-256 of the style and of the script. They change with each change of these files; a test says to what.
const STYLE_HASH: &str = "sha256-KPaiSI8a/aphEPB5dm/0cs+TJ3GpyCh04FXDxaUs4b0=";
const SCRIPT_HASH: &str = "sha256-vl8xyNeyUcGjerg3OQBbPZhixzvQDoGKa6lwYRE3siQ=";

/// The page. A click on a part of the formula fills and ticks the states where that part holds.
pub fn page(title: &str, model: &Model, answer: &Checked, explanation: &[String]) -> String {
    let main = Element::new("main")
        .lines([header(title, model, answer), formula(model, answer)])
        .lines([drawing(model, answer)])
        .lines(why(explanation))
        .lines([states::states(model, answer), footer(answer)]);
    let body = Element::new("body").lines([main, Element::new("script").markup(SCRIPT)]);
    let html = Element::new("html").with("lang", "en").lines([head(title), body]);
    format!("<!doctype html>\n{html}\n")
}

fn head(title: &str) -> Element {
    let policy = format!(
        "default-src 'none'; style-src '{STYLE_HASH}'; script-src '{SCRIPT_HASH}'; base-uri 'none'; form-action 'none'"
    );
    Element::new("head").lines([
        Element::single("meta").with("charset", "utf-8"),
        Element::single("meta").with("http-equiv", "Content-Security-Policy").with("content", policy),
        Element::single("meta").with("name", "viewport").with("content", "width=device-width, initial-scale=1"),
        Element::single("meta").with("name", "color-scheme").with("content", "light dark"),
        Element::single("meta").with("name", "referrer").with("content", "no-referrer"),
        Element::new("title").text(title),
        Element::new("style").markup(STYLE),
    ])
}

/// The title and the verdict.
fn header(title: &str, model: &Model, answer: &Checked) -> Element {
    Element::new("header").lines([Element::new("h1").text(title), words::verdict(model, answer), words::count(answer)])
}

/// The formula: as it was written, where that differs, and in parts to click.
fn formula(model: &Model, answer: &Checked) -> Element {
    section("formula", "The formula").lines(as_written(answer)).lines([
        parts::formula(answer),
        Element::new("p").with("class", "hint").text(
            "Choose a part by a click, or by Tab and Enter: the states where it holds are then filled and ticked, \
                 in the drawing and in the table.",
        ),
        words::all_parts(model, answer),
    ])
}

/// The formula's own text, unless it says the same in the same words.
fn as_written(answer: &Checked) -> Option<Element> {
    let text = answer.table.source.text.trim();
    let plain = |text: &str| text.split_whitespace().collect::<Vec<&str>>().join(" ");
    let differs = answer.table.nodes.is_empty() || plain(text) != plain(&answer.table.text(0));
    differs.then(|| {
        let lines: Vec<String> = text.lines().map(escaped).collect();
        Element::new("details").lines([
            Element::new("summary").text("As it was written"),
            Element::new("pre").with("class", "written").markup(&lines.join("\n")),
        ])
    })
}

/// The model drawn, as large as it is, in a frame that scrolls, or as wide as the page.
fn drawing(model: &Model, answer: &Checked) -> Element {
    let fit = Element::single("input").with("type", "checkbox").with("class", "fit");
    let frame = Element::new("div")
        .with("class", "drawing")
        .with("role", "region")
        .with("aria-label", "The model, drawn")
        .with("tabindex", 0)
        .markup(&svg(model, Some(answer)));
    section("model", "The model").lines([Element::new("label").child(fit).text(" as wide as the page"), frame])
}

/// The explanation, a line each; lines that begin with blanks belong to the line before.
fn why(explanation: &[String]) -> Option<Element> {
    let line = |line: &String| {
        let inner = line.starts_with(char::is_whitespace).then_some("inner");
        words::with_code(Element::new("li").with_some("class", inner), line.trim())
    };
    let list = Element::new("ul").with("class", "lines").lines(explanation.iter().map(line));
    (!explanation.is_empty()).then(|| section("why", "Why").lines([list]))
}

/// What the check took.
fn footer(answer: &Checked) -> Element {
    let rounds = format!(
        "Checked by two routes with the same answer: {} by the equation system, {} on sets of states.",
        of(answer.equation_rounds, "round"),
        of(answer.direct_rounds, "round")
    );
    let size = format!(
        "{} recorded, {} of them distinct; price {}.",
        of(answer.records, "transition"),
        thousands(answer.distinct),
        of(answer.cents, "cent")
    );
    Element::new("footer").lines([Element::new("p").text(&rounds), Element::new("p").text(&size)])
}

/// A section with its heading.
fn section(name: &str, heading: &str) -> Element {
    let id = format!("{name}-heading");
    Element::new("section")
        .with("aria-labelledby", &id)
        .with("class", name)
        .lines([Element::new("h2").with("id", &id).text(heading)])
}
