//! The reports of `test` for other programs: TAP, JUnit and JSON, read back.

mod support;

use serde_json::{json, Value};
use std::process::Command;
use support::{finished, Folder, DIALOG, ENDS, HOVER};

/// Three checks: one as expected, one not, one at fault; with names that have to be escaped.
fn suite(name: &str) -> Folder {
    let folder = Folder::new(name);
    folder.write("dialog.aut", DIALOG);
    folder.write("hover.aut", HOVER);
    folder.write("a.mcf", format!("% name: <Ends> & \"#1\" \\ 'x'\n% models: *.aut\n{ENDS}"));
    folder.write("b.mcf", "% name: It is broken\n% models: dialog.aut\n[\"a<b>&]]>\u{1}\"]false\n");
    folder
}

#[test]
fn tap() {
    let ran = suite("report-tap").run(&["test", ".", "--tap"]).expect_exit(2);
    let points: Vec<&str> = ran.out.lines().filter(|line| !line.starts_with("  ")).collect();
    let expected = [
        "TAP version 14",
        "1..3",
        "ok 1 - <Ends> & \"\\#1\" \\\\ 'x': ./dialog.aut",
        "not ok 2 - <Ends> & \"\\#1\" \\\\ 'x': ./hover.aut",
        "not ok 3 - It is broken: ./dialog.aut",
    ];
    assert_eq!(points, expected);
    assert_eq!(ran.out.matches("\n  ---\n").count(), 2);
    assert_eq!(ran.out.matches("\n  ...\n").count(), 2);
    let reasons = ran.out.lines().filter_map(|line| line.strip_prefix("  reasons: "));
    let reasons: Vec<Value> = reasons.map(|text| serde_json::from_str(text).expect("it is a list")).collect();
    assert!(reasons.len() == 2 && reasons.iter().all(|list| list.as_array().is_some_and(|list| !list.is_empty())));
}

#[test]
fn json_report() {
    let folder = suite("report-json");
    folder.run(&["test", ".", "--json", "report.json"]).expect_exit(2);
    let report: Value = serde_json::from_str(&folder.read("report.json")).expect("it is JSON");
    let summary = &report["summary"];
    let count = |name: &str| summary[name].as_u64();
    assert_eq!(["checks", "as_expected", "unexpected"].map(count), [Some(3), Some(1), Some(1)]);
    assert_eq!(["faults", "differ", "not_run"].map(count), [Some(1), Some(0), Some(0)]);
    assert_eq!(report["exit"], 2);
    let checks = report["checks"].as_array().expect("there are checks");
    assert_eq!(checks[0]["name"], "<Ends> & \"#1\" \\ 'x'");
    assert_eq!((&checks[0]["expected"], &checks[0]["as_expected"]), (&json!(true), &json!(true)));
    assert_eq!(checks[0]["answer"]["rounds"]["direct"], 4);
    assert_eq!((&checks[1]["as_expected"], &checks[1]["answer"]["verdict"]), (&json!(false), &json!(false)));
    assert_eq!((&checks[2]["answer"], &checks[2]["fault"]["file"]), (&Value::Null, &json!("./b.mcf")));
}

/// The fields that docs/REPORTS.md names in a section: those in backticks in the first column of its table.
fn documented(section: &str) -> Vec<&'static str> {
    let page = include_str!("../../docs/REPORTS.md");
    let (_, rest) = page.split_once(&format!("## {section}\n")).expect("the section is there");
    let section = rest.split("\n## ").next().unwrap_or_default();
    let rows = section.lines().filter_map(|line| line.strip_prefix("| `")?.split(" | ").next());
    let mut fields: Vec<&str> = rows.flat_map(|cell| cell.trim_end_matches('`').split("`, `")).collect();
    fields.sort();
    fields
}

fn fields(object: &Value) -> Vec<&str> {
    let mut fields: Vec<&str> = object.as_object().expect("it is an object").keys().map(String::as_str).collect();
    fields.sort();
    fields
}

#[test]
fn the_page_about_reports_names_all_fields() {
    let folder = suite("report-fields");
    folder.run(&["test", ".", "--json", "report.json"]).expect_exit(2);
    let report: Value = serde_json::from_str(&folder.read("report.json")).expect("it is JSON");
    assert_eq!(fields(&report), documented("Test"));
    assert_eq!(fields(&report["summary"]), documented("Summary"));
    assert_eq!(fields(&report["checks"][0]), documented("One of the checks"));
    assert_eq!(fields(&report["checks"][0]["answer"]), documented("Answer"));
    assert_eq!(fields(&report["checks"][0]["answer"]["states"][0]), documented("State"));
    assert_eq!(fields(&report["checks"][2]["fault"]), documented("Fault"));
    let checked = folder.run(&["check", "dialog.aut", "-e", "true", "--json"]).expect_exit(0).json();
    let mut expected = [documented("Answer"), documented("Check")].concat();
    expected.sort();
    assert_eq!(fields(&checked), expected);
    let faulty = folder.run(&["check", "nothing.aut", "-e", "true", "--json"]).expect_exit(2).json();
    assert_eq!(fields(&faulty), documented("Check"));
    assert_eq!(fields(&faulty["faults"][0]), ["differ", "help", "message"]);
}

#[test]
fn junit() {
    let folder = suite("report-junit");
    folder.run(&["test", ".", "--junit", "report.xml"]).expect_exit(2);
    let report = folder.read("report.xml");
    assert_eq!(
        elements(&report),
        ["testsuites", "testsuite", "testcase", "testcase", "failure", "testsuite", "testcase", "error"]
    );
    let attribute = |text: &str| assert!(report.contains(text), "{text}: {report}");
    attribute("<testsuites name=\"bithrowy\" tests=\"3\" failures=\"1\" errors=\"1\" ");
    attribute("<testsuite name=\"./a.mcf\" tests=\"2\" failures=\"1\" errors=\"0\" ");
    attribute("classname=\"&lt;Ends&gt; &amp; &quot;#1&quot; \\ &apos;x&apos;\"");
    attribute("<failure message=\"fails, but is expected to hold\" type=\"verdict\">");
    assert!(!report.contains('\u{1}'));
}

/// The names of the elements in order. Fails if they are not closed in order, or if a `<` or `&` stands where none may.
fn elements(xml: &str) -> Vec<&str> {
    let (mut names, mut open) = (Vec::new(), Vec::new());
    let body = xml.strip_prefix("<?xml version=\"1.0\" encoding=\"UTF-8\"?>\n").expect("it says that it is XML");
    for part in body.split('<').skip(1) {
        let (tag, text) = part.split_once('>').expect("a tag ends");
        let name = tag.split([' ', '/']).next().unwrap_or_default();
        if let Some(closed) = tag.strip_prefix('/') {
            assert_eq!(open.pop(), Some(closed));
        } else {
            names.push(name);
            open.extend((!tag.ends_with('/')).then_some(name));
        }
        assert_eq!(tag.matches('"').count() % 2, 0, "quotes are closed: {tag}");
        for reference in format!("{tag}{text}").split('&').skip(1) {
            let known = ["amp;", "lt;", "gt;", "quot;", "apos;", "#10;", "#9;", "#13;"];
            assert!(known.iter().any(|known| reference.starts_with(known)), "&{reference}");
        }
    }
    assert!(open.is_empty());
    names
}

/// The results are printed all the same, and the other report is written.
#[test]
fn reports_that_cannot_be_written() {
    let folder = suite("report-unwritten");
    let ran = folder.run(&["test", "a.mcf", "--junit", "nowhere/r.xml", "--json", "r.json"]).expect_exit(2);
    assert!(ran.out.ends_with("2 checks of 1 formula on 2 models: 1 as expected, 1 not as expected\n"), "{}", ran.out);
    assert!(ran.err.starts_with("error: nowhere/r.xml cannot be written: "), "{}", ran.err);
    let report: Value = serde_json::from_str(&folder.read("r.json")).expect("it is JSON");
    assert_eq!(report["exit"], 1);
    let ran = folder.run(&["test", "a.mcf", "--tap", "--junit", "nowhere/r.xml", "--json", "nowhere/r"]).expect_exit(2);
    assert!(ran.out.starts_with("TAP version 14\n1..2\n"), "{}", ran.out);
    assert!(ran.err.contains("error: nowhere/r.xml ") && ran.err.contains("error: nowhere/r "), "{}", ran.err);
}

/// Another reader of XML, where there is one.
#[test]
fn junit_by_another_reader() {
    let folder = suite("report-junit-python");
    folder.run(&["test", ".", "--junit", "report.xml"]).expect_exit(2);
    let script = "import xml.etree.ElementTree as e; t = e.parse('report.xml').getroot(); \
                  print(len(t.findall('.//testcase')), t[0][0].get('classname'), len(t.find('.//failure').text) > 20)";
    if Command::new("python3").arg("--version").output().is_err() {
        println!("not tested: python3 is not here");
        return;
    }
    let ran = finished(Command::new("python3").args(["-c", script]).current_dir(folder.path(""))).expect_exit(0);
    assert_eq!(ran.out, "3 <Ends> & \"#1\" \\ 'x' True\n");
}
