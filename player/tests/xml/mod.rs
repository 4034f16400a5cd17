//! A small checker of XML 1.0, as much of it as a picture uses: one element with elements and texts
//! in it. It stops with a message at what isn't well-formed.

/// The name of an element, and its attributes by name and value.
pub struct Tag {
    pub name: String,
    attributes: Vec<(String, String)>,
}

impl Tag {
    /// The value of an attribute; empty where there is none.
    pub fn get(&self, name: &str) -> &str {
        self.attributes.iter().find(|(other, _)| other == name).map_or("", |(_, value)| value)
    }
}

/// An element and the text that stands directly in it, up to its first child.
pub struct Element {
    pub tag: Tag,
    pub text: String,
}

/// The elements of a document in the order in which they open.
pub fn elements(document: &str) -> Vec<Element> {
    document.chars().for_each(check_character);
    let (mut elements, mut open): (Vec<Element>, Vec<String>) = (vec![], vec![]);
    let mut rest = document.strip_prefix('<').expect("a document starts with its element");
    loop {
        let (inside, after) = rest.split_once('>').expect("a tag ends");
        if let Some(name) = inside.strip_prefix('/') {
            assert_eq!(open.pop().as_deref(), Some(name), "tags are closed in order");
        } else {
            let tag = tag(inside.strip_suffix('/').unwrap_or(inside));
            if !inside.ends_with('/') {
                open.push(tag.name.clone());
            }
            elements.push(Element { tag, text: String::new() });
        }
        let Some((between, next)) = after.split_once('<') else {
            assert!(open.is_empty() && after.trim().is_empty(), "{open:?} stays open: {after}");
            return elements;
        };
        assert!(!open.is_empty(), "there is one element around all");
        let text = unescaped(between);
        if !inside.ends_with('/') && !inside.starts_with('/') {
            elements.last_mut().expect("it has just opened").text = text;
        } else {
            assert!(text.trim().is_empty(), "'{text}' stands between elements");
        }
        rest = next;
    }
}

/// "Char: #x9, #xA, #xD, #x20 to #xD7FF, #xE000 to #xFFFD, #x10000 to #x10FFFF."
fn check_character(character: char) {
    let allowed = matches!(
        character,
        '\t' | '\n' | '\r' | ' '..='\u{d7ff}' | '\u{e000}'..='\u{fffd}' | '\u{10000}'..
    );
    assert!(allowed, "{} is in the document", character.escape_unicode());
}

/// A name and attributes, each once and with its value in double quotes.
fn tag(inside: &str) -> Tag {
    let (name, mut rest) = inside.split_once(' ').unwrap_or((inside, ""));
    check_name(name);
    let mut attributes: Vec<(String, String)> = vec![];
    while !rest.trim().is_empty() {
        let (named, after) = rest.trim_start().split_once("=\"").expect("a value in quotes");
        let (value, next) = after.split_once('"').expect("a value ends");
        check_name(named);
        assert!(attributes.iter().all(|(other, _)| other != named), "{named} is there twice");
        attributes.push((named.to_string(), unescaped(value)));
        rest = next;
    }
    Tag { name: name.to_string(), attributes }
}

fn check_name(name: &str) {
    let plain = name.chars().all(|letter| letter.is_ascii_alphanumeric() || letter == '-');
    assert!(plain && name.starts_with(|first: char| first.is_ascii_alphabetic()), "<{name}");
}

/// A text with its references put in; an ampersand that starts none is wrong.
fn unescaped(text: &str) -> String {
    assert!(!text.contains('<'), "a raw < in '{text}'");
    let mut parts = text.split('&');
    let mut plain = parts.next().unwrap_or_default().to_string();
    for part in parts {
        let (reference, rest) = part.split_once(';').expect("a reference ends");
        plain.push(match reference {
            "amp" => '&',
            "lt" => '<',
            "gt" => '>',
            "quot" => '"',
            other => panic!("&{other}; is no reference"),
        });
        plain += rest;
    }
    plain
}
