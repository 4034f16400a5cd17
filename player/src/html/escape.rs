//! Plain text for where it stands in the page.

/// Text between two tags, or in an attribute.
pub fn in_html(text: &str) -> String {
    let mut escaped = String::new();
    for letter in text.chars() {
        match letter {
            '&' => escaped += "&amp;",
            '<' => escaped += "&lt;",
            '>' => escaped += "&gt;",
            '"' => escaped += "&quot;",
            '\'' => escaped += "&#39;",
            letter => escaped.push(letter),
        }
    }
    escaped
}

/// A string of JSON that may stand within a script: it has neither control characters nor `<`, so
/// that nothing in it ends the script or starts a comment.
pub fn in_script(text: &str) -> String {
    let mut escaped = String::from("\"");
    for letter in text.chars() {
        match letter {
            '"' => escaped += "\\\"",
            '\\' => escaped += "\\\\",
            '<' | '\u{2028}' | '\u{2029}' => escaped += &code(letter),
            letter if letter.is_control() => escaped += &code(letter),
            letter => escaped.push(letter),
        }
    }
    escaped + "\""
}

fn code(letter: char) -> String {
    format!("\\u{:04x}", u32::from(letter))
}
