//! A strict reader of the XML that the drawings are: elements, attributes in double quotes, text, five entities.

use std::collections::BTreeMap;

#[derive(Debug, Default, PartialEq, Eq)]
pub struct Element {
    pub name: String,
    pub attributes: BTreeMap<String, String>,
    pub children: Vec<Element>,
    /// The text that stands in it directly.
    pub text: String,
    /// That text, with the text of its children in their places.
    pub whole_text: String,
}

impl Element {
    pub fn attribute(&self, name: &str) -> &str {
        self.attributes.get(name).map_or("", |value| value)
    }

    pub fn number(&self, name: &str) -> f64 {
        self.attribute(name).parse().unwrap_or_else(|_| panic!("no number: {name} of {self:?}"))
    }

    pub fn is(&self, name: &str, class: &str) -> bool {
        self.name == name && self.attribute("class").split(' ').any(|word| word == class)
    }

    /// All elements in it that are of a name and a class, itself too, in the order of the text.
    pub fn all<'a>(&'a self, name: &str, class: &str) -> Vec<&'a Element> {
        let mut all: Vec<&Element> = self.is(name, class).then_some(self).into_iter().collect();
        all.extend(self.children.iter().flat_map(|child| child.all(name, class)));
        all
    }

    /// The text of its children of a name.
    pub fn child_text(&self, name: &str) -> Vec<&str> {
        self.children.iter().filter(|child| child.name == name).map(|child| child.text.as_str()).collect()
    }
}

/// Reads a text that is one element and perhaps blanks behind it.
pub fn read(text: &str) -> Element {
    let mut rest = text;
    let element = element(&mut rest);
    assert_eq!(rest.trim(), "", "more behind the element");
    element
}

fn element(rest: &mut &str) -> Element {
    let tag = between(rest, "<", ">");
    let (opened, is_empty) = tag.strip_suffix('/').map_or((tag.as_str(), false), |opened| (opened, true));
    let (name, attributes) = opened.split_once(' ').unwrap_or((opened, ""));
    let mut element = Element { name: name.to_string(), attributes: read_attributes(attributes), ..Element::default() };
    if is_empty {
        return element;
    }
    loop {
        let upto = rest.find('<').unwrap_or_else(|| panic!("{name} does not end"));
        let text = unescaped(&rest[..upto]);
        element.text.push_str(&text);
        element.whole_text.push_str(&text);
        *rest = &rest[upto..];
        if rest.starts_with("</") {
            assert_eq!(between(rest, "</", ">"), name);
            return element;
        }
        let child = self::element(rest);
        element.whole_text.push_str(&child.whole_text);
        element.children.push(child);
    }
}

/// What stands between two words at the start of the rest, which then begins behind it.
fn between(rest: &mut &str, open: &str, close: &str) -> String {
    let inner = rest.strip_prefix(open).unwrap_or_else(|| panic!("no {open} but {rest:.40}"));
    let (inside, behind) = inner.split_once(close).unwrap_or_else(|| panic!("no {close} in {inner:.40}"));
    *rest = behind;
    inside.to_string()
}

fn read_attributes(text: &str) -> BTreeMap<String, String> {
    let mut attributes = BTreeMap::new();
    let mut rest = text.trim_start();
    while !rest.is_empty() {
        let (name, behind) = rest.split_once("=\"").unwrap_or_else(|| panic!("no attribute: {rest}"));
        let (value, behind) = behind.split_once('"').unwrap_or_else(|| panic!("no end of an attribute: {behind}"));
        assert!(name.chars().all(|c| c.is_ascii_alphanumeric() || c == '-' || c == ':'), "an attribute's name: {name}");
        assert!(attributes.insert(name.to_string(), unescaped(value)).is_none(), "{name} twice");
        rest = behind.trim_start();
    }
    attributes
}

/// The text with its entities read. Characters that XML forbids are refused.
fn unescaped(text: &str) -> String {
    assert!(!text.contains(['<', '>']), "markup in a text: {text}");
    assert!(text.chars().all(|c| c == '\n' || (!c.is_control() && c != '\u{fffe}' && c != '\u{ffff}')), "{text:?}");
    let mut all = String::new();
    let mut parts = text.split('&');
    all.push_str(parts.next().unwrap_or_default());
    for part in parts {
        let (entity, behind) = part.split_once(';').unwrap_or_else(|| panic!("no entity: &{part}"));
        all.push(match entity {
            "amp" => '&',
            "lt" => '<',
            "gt" => '>',
            "quot" => '"',
            "#39" => '\'',
            _ => panic!("an unknown entity: {entity}"),
        });
        all.push_str(behind);
    }
    all
}
