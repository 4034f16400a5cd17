//! Reads the mark-up of a page, strictly: what is left open, or is closed but not open, panics.

/// An element's start: its name, its attributes, and what a script or style has in it.
#[derive(Clone, Debug, PartialEq)]
pub struct Element {
    pub name: String,
    pub attributes: Vec<(String, String)>,
    pub raw: Option<String>,
}

impl Element {
    pub fn attribute(&self, name: &str) -> Option<&str> {
        let found = self.attributes.iter().find(|(attribute, _)| attribute == name);
        found.map(|(_, value)| value.as_str())
    }
}

/// Elements that have no end.
const VOID: [&str; 2] = ["meta", "input"];
/// Elements whose text is taken as it is, up to their end.
const RAW: [&str; 2] = ["script", "style"];

/// The elements of a page in order.
pub fn elements(page: &str) -> Vec<Element> {
    let mut rest = page.strip_prefix("<!DOCTYPE html>\n").expect("a page says what it is");
    let (mut elements, mut open) = (Vec::new(), Vec::new());
    while let Some(start) = rest.find('<') {
        assert!(!rest[..start].contains('>'), "a > in the text {:?}", &rest[..start]);
        let (tag, after) = rest[start + 1..].split_once('>').expect("a tag ends");
        rest = after;
        if let Some(closed) = tag.strip_prefix('/') {
            assert_eq!(open.pop().as_deref(), Some(closed), "what was opened last is closed");
            continue;
        }
        let mut element = element(tag);
        if RAW.contains(&element.name.as_str()) {
            let end = format!("</{}>", element.name);
            let lower = rest.to_lowercase().find(&end[..end.len() - 1]).expect("it ends");
            assert!(rest[lower..].starts_with(&end), "{} ends plainly", element.name);
            element.raw = Some(rest[..lower].to_string());
            rest = &rest[lower + end.len()..];
        } else if !VOID.contains(&element.name.as_str()) {
            open.push(element.name.clone());
        }
        elements.push(element);
    }
    assert!(open.is_empty(), "{open:?} stay open");
    assert_eq!(rest, "\n", "nothing comes after the page");
    elements
}

/// An element from its tag: values are in double quotes.
fn element(tag: &str) -> Element {
    let (name, mut rest) = tag.split_once(' ').unwrap_or((tag, ""));
    assert!(name.chars().all(|letter| letter.is_ascii_alphanumeric()), "{name:?} is a name");
    let mut attributes = Vec::new();
    while !rest.trim().is_empty() {
        let end = rest.find(['=', ' ']).unwrap_or(rest.len());
        let name = rest[..end].to_string();
        let quoted = rest[end..].strip_prefix("=\"");
        let (value, after) = match quoted {
            Some(quoted) => quoted.split_once('"').expect("a value ends"),
            None => ("", &rest[end..]),
        };
        attributes.push((name, value.to_string()));
        rest = after.trim_start();
    }
    Element { name: name.to_string(), attributes, raw: None }
}
