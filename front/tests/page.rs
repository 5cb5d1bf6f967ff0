//! The page: its sentences worked out by hand, its parts against the independent checker, hostile texts, and all of it in a
//! real browser where one is installed.

#[path = "support/case_texts.rs"]
mod case_texts;
mod drawing;

use bithrowy_front::back::texts;
use bithrowy_front::case;
use bithrowy_front::check::{check, Checked};
use bithrowy_front::expand::expand;
use bithrowy_front::model::Model;
use bithrowy_front::page::page;
use bithrowy_front::parser;
use bithrowy_front::source::Source;
use bithrowy_tests::generate;
use bithrowy_tests::meaning::solution_by_game;
use bithrowy_tests::random::Random;
use bithrowy_tests::reader::read_case;
use bithrowy_tests::tables::equations;
use case_texts::checked;
use drawing::browser::{encoded, Browser};
use drawing::programs::python;
use drawing::sha256::policy_hash;
use drawing::xml::{self, Element};
use drawing::{model_of, random_model, HOSTILE};
use std::collections::BTreeSet;
use std::sync::OnceLock;

const LIMIT: u64 = 20_000;

/// A page and what it was made from.
struct Trial {
    model: Model,
    answer: Checked,
    /// `values[node][state]`, by the independent checker.
    values: Vec<Vec<bool>>,
    page: String,
}

impl Trial {
    fn new(model: &Model, formula: &str, title: &str, explanation: &[&str]) -> Trial {
        let source = Source::new("f.mcf", formula);
        let read = parser::read(&source, &model.silent).unwrap_or_else(|fault| panic!("{fault}"));
        let expansion = expand(&source, &read).unwrap_or_else(|fault| panic!("{fault}"));
        let case = case::write(model, &expansion, true).unwrap_or_else(|fault| panic!("{fault}"));
        Trial::of(&case, title, explanation)
    }

    fn of(case: &case::Case, title: &str, explanation: &[&str]) -> Trial {
        let answer = checked(case, LIMIT);
        let lines: Vec<String> = explanation.iter().map(|line| line.to_string()).collect();
        let page = page(title, &case.model, &answer, &lines);
        Trial { model: case.model.clone(), answer, values: independent_values(&case.bytes), page }
    }

    /// The page's body without its script, which is well-formed as XML too.
    fn body(&self) -> Element {
        let body = self.page.split("<body>").nth(1).and_then(|rest| rest.split("\n<script>").next());
        xml::read(&format!("<body>{}</body>", body.expect("a body and a script")))
    }

    fn digits(&self, node: usize) -> String {
        self.values[node].iter().map(|&holds| if holds { '1' } else { '0' }).collect()
    }

    /// The line on a part, without the note on variables, worked out from the independent checker's values.
    fn sentence(&self, node: usize) -> String {
        let values = &self.values[node];
        let names: Vec<String> =
            (0..values.len()).filter(|&s| values[s]).map(|s| plain(&self.model.state(s))).collect();
        let of = format!("of {} state{}", values.len(), if values.len() == 1 { "" } else { "s" });
        let text = plain(&self.answer.table.text(node));
        match names.len() {
            0 => format!("{text} holds in none {of}."),
            count => format!("{text} holds in {count} {of}: {}.", names.join(", ")),
        }
    }
}

/// The value of each node in each state as the independent checker has it: the cell of its own equation file for the same
/// case, which has one more block in front where the formula's root is no binder.
fn independent_values(bytes: &[u8]) -> Vec<Vec<bool>> {
    let case = read_case(bytes).expect("an accepted case");
    let cells = solution_by_game(&equations(&case)).0;
    let shift = usize::from(!case.root_binds());
    cells.chunks(case.states).skip(shift).map(|values| values.to_vec()).collect()
}

/// A text as pages show it, with U+FFFD for what would act on what stands around it.
fn plain(text: &str) -> String {
    text.chars()
        .map(|c| if c.is_control() || "\u{202e}\u{2028}\u{fffe}".contains(c) { '\u{fffd}' } else { c })
        .collect()
}

/// The dialog of the drawings' tests: `closed`, `open`, and a state that is not reached.
fn dialog() -> Model {
    let transitions = [(0, "click", 1), (0, "click", 1), (1, "close", 0), (0, "hover", 0), (2, "close", 0)];
    model_of(3, &transitions, "0 closed\n1 open\n2 lost\n")
}

/// A close is possible: in open and in lost, by hand.
fn close_is_possible() -> Trial {
    Trial::new(
        &dialog(),
        "<close>true",
        "Close is possible",
        &["`<close>true` fails in closed:", "  no step is a close"],
    )
}

/// Formulas with all kinds of nodes; the last has a binder within a binder that uses both variables.
const FORMULAS: [&str; 7] = [
    "<close>true",
    "mu X. <true>true && [!close]X",
    "[true*]<true*.close>true",
    "nu X. [true]X && (mu Y. <close>X || <true>Y)",
    "(<click>true || [hover]false) && (false || <close>[click || close](true && <true>true))",
    "nu X. (mu Y. (<close>X || <true>Y) && [hover]X)",
    "mu X. nu X. <click>X || [true]X",
];

/// Pages of models by hand and by chance, and of random cases of both versions that are written back as text.
fn trials() -> &'static [Trial] {
    static TRIALS: OnceLock<Vec<Trial>> = OnceLock::new();
    TRIALS.get_or_init(make_trials)
}

fn make_trials() -> Vec<Trial> {
    let mut random = Random::new(18);
    let labels = ["click", "close", "hover", "focus|blur"];
    let mut trials: Vec<Trial> = FORMULAS.map(|formula| Trial::new(&dialog(), formula, "A dialog", &[])).into();
    for (states, transitions) in [(1, 1), (10, 25), (40, 90)] {
        let model = random_model(&mut random, states, transitions, &labels);
        trials.extend(FORMULAS.map(|formula| Trial::new(&model, formula, "A model", &[])));
    }
    let largest = random_model(&mut random, 256, 2048, &labels);
    trials.push(Trial::new(&largest, "nu X. [click]X && <true>true", "The largest model", &[]));
    while trials.len() < 60 {
        let bytes = generate::case(&mut random).bytes();
        let Ok(texts) = texts(&bytes) else { continue };
        let Ok(case) = case_texts::case_of(&texts.aut, &texts.mcf, true) else { continue };
        if case.model.states <= 40 && check(&case, LIMIT).is_ok() {
            trials.push(Trial::of(&case, "A case", &["`true` holds"]));
        }
    }
    trials
}

/// Each node has a button with the states where the independent checker says that it holds.
#[test]
fn parts_carry_their_states() {
    let mut kinds = BTreeSet::new();
    for trial in trials() {
        let body = trial.body();
        let buttons = body.all("button", "");
        assert_eq!(buttons.len(), trial.answer.table.nodes.len(), "{}", trial.answer.table.text(0));
        assert_eq!(buttons.len(), trial.values.len());
        for button in buttons {
            let node: usize = button.attribute("data-node").parse().expect("a node's number");
            assert_eq!(button.attribute("data-holds"), trial.digits(node), "{}", trial.answer.table.text(node));
            assert_eq!(button.attribute("aria-label"), plain(&trial.answer.table.text(node)));
            assert_eq!(button.attribute("aria-pressed"), if node == 0 { "true" } else { "false" });
            kinds.insert(format!("{:?}", trial.answer.table.nodes[node].kind).chars().take(3).collect::<String>());
        }
    }
    let all = ["And", "Box", "Dia", "Fal", "Mu", "Nu", "Or", "Tru", "Var"];
    assert_eq!(kinds.iter().map(String::as_str).collect::<Vec<&str>>(), all, "all kinds of nodes are tried");
}

/// The parts together are the formula's text, and each part's span has the part's own text.
#[test]
fn parts_are_the_formula() {
    for trial in trials() {
        let table = &trial.answer.table;
        let body = trial.body();
        let parts = &body.all("p", "parts")[0];
        assert_eq!(parts.whole_text, plain(&table.text(0)));
        for part in parts.all("span", "part") {
            let own: Vec<&Element> = part.children.iter().filter(|child| child.name == "button").collect();
            assert_eq!(own.len(), 1, "a button of its own");
            let node: usize = own[0].attribute("data-node").parse().expect("a node's number");
            // In its place a part may need brackets that it does not need alone.
            let unbracketed = |text: &str| text.replace(['(', ')'], "");
            assert_eq!(unbracketed(&part.whole_text), unbracketed(&plain(&table.text(node))));
        }
    }
}

#[test]
fn sentences_say_where_parts_hold() {
    for trial in trials() {
        let body = trial.body();
        for node in 0..trial.values.len() {
            let id = format!("says-{node}");
            let line = body.all("p", "").into_iter().find(|p| p.attribute("id") == id).expect("a line for each part");
            assert!(line.whole_text.starts_with(&trial.sentence(node)), "{} {}", line.whole_text, trial.sentence(node));
            assert_eq!(line.attribute("hidden"), if node == 0 { "" } else { "hidden" });
        }
    }
}

/// By hand: only a step from open and from lost is a close, and lost cannot be reached.
#[test]
fn sentences_by_hand() {
    let body = close_is_possible().body();
    let text = |name: &str, class: &str| -> Vec<String> {
        body.all(name, class).iter().map(|element| element.whole_text.trim().to_string()).collect()
    };
    assert_eq!(text("h1", ""), ["Close is possible"]);
    assert_eq!(text("p", "verdict"), ["✗ The formula fails in the initial state, closed."]);
    assert_eq!(text("p", "")[0], "It holds in 1 of the 2 states that can be reached.");
    let says = &body.all("div", "says")[0].whole_text;
    assert_eq!(
        says.trim().lines().collect::<Vec<&str>>(),
        ["<close> true holds in 2 of 3 states: open, lost.", "true holds in 3 of 3 states: closed, open, lost."]
    );
    let why: Vec<String> = body.all("li", "").iter().map(|line| line.whole_text.clone()).collect();
    assert_eq!(why, ["<close>true fails in closed:"]);
    assert_eq!(text("li", "inner"), ["no step is a close"]);
    let rows: Vec<Vec<&str>> = body.all("tr", "").iter().map(|row| row.whole_text.trim().lines().collect()).collect();
    assert_eq!(rows[1], ["closed", "✗ fails", "yes", "", "click → open", "hover → closed"]);
    assert_eq!(text("tr", "holds"), ["open\n✓ holds\nyes\n\nclose → closed", "lost\n✓ holds\nno\n\nclose → closed"]);
}

#[test]
fn sentences_about_variables() {
    let trial = Trial::new(&dialog(), "mu X. <true>X", "", &[]);
    let lines: Vec<String> = trial.body().all("p", "").iter().map(|line| line.whole_text.clone()).collect();
    let line = |start: &str| lines.iter().find(|line| line.starts_with(start)).expect("a line").clone();
    assert_eq!(line("mu X."), "mu X. <true> X holds in none of 3 states.");
    let open = "<true> X holds in none of 3 states.\nEach variable stands for the states of its binder.";
    assert_eq!(line("<true> X"), open);
    assert_eq!(line("X holds"), "X holds in none of 3 states.\nIt stands for the states of mu X. <true> X.");
}

/// As it was written is shown where that is not what the parts show, comments and all.
#[test]
fn written_where_it_differs() {
    let written = |formula: &str| {
        let body = Trial::new(&dialog(), formula, "", &[]).body();
        let lines: Vec<String> = body.all("pre", "written").iter().map(|text| text.whole_text.clone()).collect();
        lines
    };
    assert_eq!(written("  <close>\n true "), Vec::<String>::new());
    assert_eq!(written("% a comment\n!<close>true"), ["% a comment\n!<close>true"]);
}

/// The policy allows the style and the script of the page by their hashes, and nothing else.
#[test]
fn policy_fits_the_page() {
    let page = close_is_possible().page;
    let inside = |tag: &str| {
        let open = page.split(&format!("<{tag}>")).nth(1).unwrap_or_else(|| panic!("no {tag}"));
        open.split(&format!("</{tag}>")).next().expect("its end").to_string()
    };
    let expected = format!(
        "default-src 'none'; style-src '{}'; script-src '{}'; base-uri 'none'; form-action 'none'",
        policy_hash(&inside("style")),
        policy_hash(&inside("script"))
    );
    let policy =
        page.split("http-equiv=\"Content-Security-Policy\" content=\"").nth(1).and_then(|p| p.split('"').next());
    assert_eq!(policy.map(|policy| policy.replace("&#39;", "'")), Some(expected));
    assert_eq!(page.matches("<script").count(), 1);
    assert_eq!(page.matches("<style").count(), 1);
}

/// A model, a title and an explanation in which every text is hostile.
fn hostile() -> Trial {
    let list: Vec<(usize, &str, usize)> =
        HOSTILE.iter().enumerate().map(|(state, (text, _))| (state, *text, 0)).collect();
    let mut model = model_of(HOSTILE.len(), &list, "");
    for (state, (text, _)) in HOSTILE.iter().enumerate() {
        model.names.insert(state, format!("{state} {text}"));
    }
    let quoted = |text: &str| format!("\"{}\"", text.replace('\\', "\\\\").replace('"', "\\\""));
    let labels: Vec<String> = HOSTILE.iter().take(8).map(|(text, _)| quoted(text)).collect();
    let formula = format!("% {}\n<{}>true", HOSTILE[0].0, labels.join(" || "));
    let explanation: Vec<&str> = HOSTILE.iter().map(|(text, _)| *text).collect();
    Trial::new(&model, &formula, HOSTILE[0].0, &explanation)
}

/// The elements, and the attributes, that a page has: no text adds another one.
#[test]
fn hostile_texts_stay_texts() {
    let hostile = hostile();
    let others: BTreeSet<String> = trials().iter().flat_map(|trial| names_in(&trial.body())).collect();
    let body = hostile.body();
    assert_eq!(names_in(&body).difference(&others).collect::<Vec<&String>>(), Vec::<&String>::new());
    let shown: Vec<&str> = HOSTILE.iter().map(|(_, shown)| *shown).collect();
    let lines: Vec<&str> = body.all("li", "").iter().map(|line| line.whole_text.as_str()).collect();
    assert_eq!(lines, shown);
    let labels: Vec<&str> = body.all("bdi", "label").iter().map(|label| label.whole_text.as_str()).collect();
    assert_eq!(labels, shown);
    assert!(hostile
        .page
        .contains("<title>&quot;&gt;&lt;script&gt;document.title = &quot;broken&quot;&lt;/script&gt;</title>"));
}

fn names_in(element: &Element) -> BTreeSet<String> {
    let own = element.attributes.keys().map(|attribute| format!("{} {attribute}", element.name));
    let inner = element.children.iter().flat_map(names_in);
    own.chain([element.name.clone()]).chain(inner).collect()
}

/// Nothing on the page points elsewhere.
#[test]
fn page_needs_no_network() {
    let names = names_in(&close_is_possible().body());
    let attributes: BTreeSet<&str> = names.iter().filter_map(|name| name.split(' ').nth(1)).collect();
    for attribute in ["src", "href", "style", "srcset", "action", "data", "xlink:href"] {
        assert!(!attributes.contains(attribute), "{attribute}");
    }
    let page = close_is_possible().page;
    assert_eq!(page.matches("://").count(), 1, "only the name of SVG's namespace");
    assert_eq!(page.matches("url(").count(), page.matches("url(#model-arrow)").count());
    assert!(!page.contains("@import"));
}

/// Another reader of HTML finds each tag closed.
#[test]
fn page_is_read_by_another_reader() {
    let script = "import sys, html.parser\n\
        class Reader(html.parser.HTMLParser):\n\
        \x20   opened, scripts = [], 0\n\
        \x20   def handle_starttag(self, tag, attributes):\n\
        \x20       self.scripts += tag == 'script'\n\
        \x20       self.opened.append(tag)\n\
        \x20   def handle_startendtag(self, tag, attributes):\n\
        \x20       assert tag in ('meta', 'input'), tag\n\
        \x20   def handle_endtag(self, tag):\n\
        \x20       assert self.opened.pop() == tag, tag\n\
        reader = Reader()\n\
        reader.feed(sys.stdin.buffer.read().decode('utf-8'))\n\
        reader.close()\n\
        print(reader.opened, reader.scripts)\n";
    for trial in [close_is_possible(), hostile()] {
        let Some(printed) = python(script, &trial.page, "that another reader reads the page") else { return };
        assert_eq!(printed, "[] 1\n");
    }
}

/// What `browser.js` has to see when a node is chosen.
fn seen(trial: &Trial, node: usize) -> String {
    let digits = trial.digits(node);
    format!("{digits} {digits} {digits} {digits} {node} {}", encoded(&trial.sentence(node)))
}

/// Compares what a browser saw of a page with the independent checker's values.
fn compare(trial: &Trial, title: &str, lines: &[String]) {
    let names: Vec<String> = (0..trial.model.states).map(|state| encoded(&plain(&trial.model.state(state)))).collect();
    let facts = [
        format!("title {}", encoded(title)),
        format!("formula {}", encoded(&plain(&trial.answer.table.text(0)))),
        format!("names {}", names.join(",")),
        "scripts 1".to_string(),
        "requests 0".to_string(),
        "styled true".to_string(),
        "focusable true".to_string(),
    ];
    for (line, fact) in lines.iter().zip(&facts) {
        assert_eq!(line, fact);
    }
    let mut steps = lines[facts.len()..].iter();
    // The note on variables is not compared here.
    let mut next = |what: &str, node: usize| {
        let line = steps.next().expect("a line for each step");
        let expected = format!("{what}{}", seen(trial, node));
        assert!(line.starts_with(&expected), "{line}\n{expected}");
    };
    next("start ", 0);
    let buttons = trial.body();
    for button in buttons.all("button", "") {
        let node: usize = button.attribute("data-node").parse().expect("a node's number");
        next(&format!("part {node} "), node);
        next(&format!("again {node} "), 0);
        next(&format!("beside {node} "), node);
    }
    assert_eq!(steps.next(), None);
}

/// Every part of every page is clicked in a browser, under the page's own security policy.
#[test]
fn parts_in_a_browser() {
    let Some(browser) = Browser::new("parts", "that a click on a part shows its states") else { return };
    let hostile = hostile();
    let trials = || trials().iter().chain([&hostile]);
    let pages: Vec<&str> = trials().map(|trial| trial.page.as_str()).collect();
    let (lines, console) = browser.visit(&pages);
    assert_eq!(console, Vec::<String>::new());
    for (trial, lines) in trials().zip(&lines) {
        let title = trial.page.split("<title>").nth(1).and_then(|rest| rest.split("</title>").next()).expect("a title");
        compare(trial, &xml::read(&format!("<t>{title}</t>")).whole_text, lines);
    }
}

/// A page by itself, as people open it.
#[test]
fn page_alone_in_a_browser() {
    let Some(browser) = Browser::new("alone", "that a browser opens the page without a complaint") else { return };
    let opened = browser.open(&hostile().page, 60).expect("the browser opens the page in time");
    assert_eq!(opened.console, Vec::<String>::new());
    assert_eq!(opened.document.matches("<script").count(), 1);
}

/// Without the security policy, too, no text becomes a script; and a page in which one does is noticed.
#[test]
fn hostile_texts_in_a_browser() {
    let Some(browser) = Browser::new("hostile", "that no text becomes a script in a browser") else { return };
    let hostile = hostile().page;
    let policy = hostile.split("content=\"").nth(1).and_then(|rest| rest.split('"').next()).expect("a policy");
    let open = hostile.replace(policy, "default-src 'unsafe-inline'");
    let broken = open.replace("<h1>", &format!("<h1>{}", HOSTILE[0].0));
    let (lines, console) = browser.visit(&[&open, &broken]);
    assert_eq!(console, Vec::<String>::new());
    assert_eq!(lines[0][0], format!("title {}", encoded(HOSTILE[0].1)));
    assert_eq!(lines[1][0], "title broken");
}
