//! XML, an element a line, always well formed. Attributes stand as they are written:
//! they hold numbers and names of our own. Text is escaped.

use std::fmt::Display;

/// A document that is being written.
pub struct Xml {
    text: String,
    open: Vec<&'static str>,
}

impl Xml {
    /// An SVG of this width and height.
    pub fn svg(width: i32, height: i32) -> Xml {
        let mut xml = Xml { text: String::new(), open: Vec::new() };
        let space = "http://www.w3.org/2000/svg";
        let size = format_args!(r#"width="{width}" height="{height}""#);
        xml.open("svg", format_args!(r#"xmlns="{space}" viewBox="0 0 {width} {height}" {size}"#));
        xml
    }

    /// An element that holds what follows, until it is closed.
    pub fn open(&mut self, name: &'static str, attributes: impl Display) {
        self.tag(name, attributes, ">");
        self.open.push(name);
    }

    /// Closes the element that was opened last.
    pub fn close(&mut self) {
        if let Some(name) = self.open.pop() {
            self.text += &format!("</{name}>\n");
        }
    }

    /// An element without content.
    pub fn leaf(&mut self, name: &str, attributes: impl Display) {
        self.tag(name, attributes, "/>");
    }

    /// An element with text in it.
    pub fn text(&mut self, name: &str, attributes: impl Display, text: &str) {
        self.tag(name, attributes, &format!(">{}</{name}>", escaped(text)));
    }

    /// The document, all elements closed.
    pub fn finish(mut self) -> String {
        while !self.open.is_empty() {
            self.close();
        }
        self.text
    }

    fn tag(&mut self, name: &str, attributes: impl Display, end: &str) {
        let tag = format!("<{name} {attributes}");
        self.text += tag.trim_end();
        self.text += end;
        self.text.push('\n');
    }
}

/// Text with nothing in it that XML reads as a sign; characters that XML does not
/// allow are replaced.
fn escaped(text: &str) -> String {
    let mut escaped = String::with_capacity(text.len());
    for character in text.chars() {
        match character {
            '&' => escaped.push_str("&amp;"),
            '<' => escaped.push_str("&lt;"),
            '>' => escaped.push_str("&gt;"),
            '"' => escaped.push_str("&quot;"),
            '\n' | '\t' => escaped.push(character),
            _ if character.is_control() || matches!(character, '\u{fffe}' | '\u{ffff}') => {
                escaped.push('\u{fffd}')
            }
            _ => escaped.push(character),
        }
    }
    escaped
}

#[cfg(test)]
mod tests {
    use super::*;

    #[test]
    fn signs_are_escaped_and_elements_closed() {
        let mut xml = Xml::svg(1, 2);
        xml.open("g", "");
        xml.text("title", "", "x > 1 & y\u{1b}");
        let expected = "<svg xmlns=\"http://www.w3.org/2000/svg\" viewBox=\"0 0 1 2\" width=\"1\" height=\"2\">\n\
            <g>\n<title>x &gt; 1 &amp; y\u{fffd}</title>\n</g>\n</svg>\n";
        assert_eq!(xml.finish(), expected);
    }
}
