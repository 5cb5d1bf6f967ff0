//! Elements of SVG and HTML. All text goes through `escaped`, so that none of it can become markup.

use crate::source::visible_letter;
use std::fmt;

/// An element with its attributes and content, written out as it is built.
pub(crate) struct Element {
    name: &'static str,
    attributes: String,
    /// None for an element that HTML writes without an end.
    content: Option<String>,
}

impl Element {
    pub fn new(name: &'static str) -> Element {
        Element { name, attributes: String::new(), content: Some(String::new()) }
    }

    /// An element that never has content, and no end tag in HTML.
    pub fn single(name: &'static str) -> Element {
        Element { name, attributes: String::new(), content: None }
    }

    /// With one more attribute.
    pub fn with(mut self, attribute: &str, value: impl fmt::Display) -> Element {
        self.attributes.push_str(&format!(" {attribute}=\"{}\"", escaped(&value.to_string())));
        self
    }

    /// With one more attribute, if there is a value.
    pub fn with_some(self, attribute: &str, value: Option<impl fmt::Display>) -> Element {
        match value {
            Some(value) => self.with(attribute, value),
            None => self,
        }
    }

    /// With a number as an attribute, rounded to a tenth.
    pub fn at(self, attribute: &str, number: f64) -> Element {
        self.with(attribute, format!("{number:.1}"))
    }

    /// With more text in it.
    pub fn text(self, text: &str) -> Element {
        self.markup(&escaped(text))
    }

    /// With another element in it, behind what it has.
    pub fn child(self, child: Element) -> Element {
        self.markup(&child.to_string())
    }

    /// With further elements in it, each in a line of its own.
    pub fn lines(mut self, children: impl IntoIterator<Item = Element>) -> Element {
        for child in children {
            self = self.markup("\n").child(child);
        }
        self
    }

    /// With more in it that is markup already.
    pub fn markup(mut self, markup: &str) -> Element {
        self.content.get_or_insert_with(String::new).push_str(markup);
        self
    }
}

impl fmt::Display for Element {
    fn fmt(&self, f: &mut fmt::Formatter) -> fmt::Result {
        let (name, attributes) = (self.name, &self.attributes);
        match &self.content {
            Some(content) => write!(f, "<{name}{attributes}>{content}</{name}>"),
            None => write!(f, "<{name}{attributes}/>"),
        }
    }
}

/// The text for an element's content or a quoted attribute: none of its characters is markup.
pub(crate) fn escaped(text: &str) -> String {
    let mut all = String::new();
    for character in text.chars().map(visible) {
        match character {
            '&' => all.push_str("&amp;"),
            '<' => all.push_str("&lt;"),
            '>' => all.push_str("&gt;"),
            '"' => all.push_str("&quot;"),
            '\'' => all.push_str("&#39;"),
            _ => all.push(character),
        }
    }
    all
}

/// The character, or U+FFFD for one that acts on what stands around it, or that XML forbids.
pub(crate) fn visible(character: char) -> char {
    if matches!(character, '\u{fffe}' | '\u{ffff}') {
        char::REPLACEMENT_CHARACTER
    } else {
        visible_letter(character)
    }
}
