//! The report in JUnit's form, which build servers read.

use super::result::{Checked, Report, Standing};
use super::text;
use std::fmt::Write;

pub fn text(report: &Report) -> String {
    let mut xml = String::from("<?xml version=\"1.0\" encoding=\"UTF-8\"?>\n");
    let all: Vec<&Checked> = report.results.iter().collect();
    let _ = writeln!(xml, "<testsuites name=\"bithrowy\" {}>", counts(&all));
    for suite in suites(&all) {
        let name = suite.first().map_or("", |result| result.formula.as_str());
        let _ = writeln!(xml, "  <testsuite name=\"{}\" {}>", escaped(name), counts(suite));
        suite.iter().for_each(|result| xml += &case(result));
        xml += "  </testsuite>\n";
    }
    xml + "</testsuites>\n"
}

/// The checks of one formula are a suite.
fn suites<'a, 'b>(all: &'b [&'a Checked]) -> Vec<&'b [&'a Checked]> {
    all.chunk_by(|one, next| one.formula == next.formula).collect()
}

fn counts(results: &[&Checked]) -> String {
    let count = |of: &[Standing]| results.iter().filter(|result| of.contains(&result.standing())).count();
    let seconds: f64 = results.iter().map(|result| result.time.as_secs_f64()).sum();
    format!(
        "tests=\"{}\" failures=\"{}\" errors=\"{}\" time=\"{seconds:.6}\"",
        results.len(),
        count(&[Standing::Unexpected]),
        count(&[Standing::Fault, Standing::Differ]),
    )
}

fn case(result: &Checked) -> String {
    let start = format!(
        "    <testcase name=\"{}\" classname=\"{}\" time=\"{:.6}\"",
        escaped(result.model()),
        escaped(&result.name),
        result.time.as_secs_f64()
    );
    let (element, kind) = match result.standing() {
        Standing::AsExpected => return start + "/>\n",
        Standing::Unexpected => ("failure", "verdict"),
        Standing::Fault => ("error", "fault"),
        Standing::Differ => ("error", "differ"),
    };
    let (message, reasons) = (escaped(&result.words()), escaped(&text::reasons(result).join("\n")));
    format!("{start}>\n      <{element} message=\"{message}\" type=\"{kind}\">{reasons}</{element}>\n    </testcase>\n")
}

/// Text in an element or an attribute. XML cannot hold control characters at all: they are replaced.
fn escaped(text: &str) -> String {
    text.chars().fold(String::new(), |mut escaped, c| {
        match c {
            '&' => escaped += "&amp;",
            '<' => escaped += "&lt;",
            '>' => escaped += "&gt;",
            '"' => escaped += "&quot;",
            '\'' => escaped += "&apos;",
            '\n' | '\t' | '\r' => {
                let _ = write!(escaped, "&#{};", c as u32);
            }
            c if c.is_control() || matches!(c, '\u{fffe}' | '\u{ffff}') => escaped.push(char::REPLACEMENT_CHARACTER),
            c => escaped.push(c),
        }
        escaped
    })
}
