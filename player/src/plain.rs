//! Text from outside, such as a session's line or a file's name, made fit to be printed and drawn.
//! A terminal obeys control characters, XML forbids most of them, and marks that turn the direction
//! of writing make a line look like another one.

/// The text with a blank for each tab, and with each character that isn't to be passed on written
/// as its number: `\u{1b}`. It is one form for all of them, in letters that every font has.
pub fn plain(text: &str) -> String {
    text.chars().map(plain_character).collect()
}

fn plain_character(character: char) -> String {
    match character {
        '\t' => " ".to_string(),
        harmless if is_plain(harmless) => harmless.to_string(),
        other => other.escape_unicode().to_string(),
    }
}

/// Whether a character stands for itself, in its place, and can be seen.
fn is_plain(character: char) -> bool {
    let code = u32::from(character);
    let turns_direction = matches!(
        character,
        '\u{61c}' | '\u{200e}'..='\u{200f}' | '\u{202a}'..='\u{202e}' | '\u{2066}'..='\u{2069}'
    );
    let ends_line = matches!(character, '\u{2028}' | '\u{2029}');
    let unseen = matches!(character, '\u{200b}' | '\u{2060}' | '\u{feff}');
    let no_character = code & 0xfffe == 0xfffe || (0xfdd0..=0xfdef).contains(&code);
    !(character.is_control() || turns_direction || ends_line || unseen || no_character)
}

/// How many columns a text has at most: two for a letter that may be a wide one.
fn columns(text: &str) -> usize {
    text.chars().map(|letter| if letter.is_ascii() { 1 } else { 2 }).sum()
}

const CUT: char = '…';

/// The text made plain, in so many columns at most; where more is cut off, a mark says so.
pub fn cut(text: &str, most: usize) -> String {
    let whole = plain(text);
    if columns(&whole) <= most {
        return whole;
    }
    let mut kept = String::new();
    for character in text.chars().map(plain_character) {
        if columns(&kept) + columns(&character) + 2 > most {
            break;
        }
        kept += &character;
    }
    kept.push(CUT);
    kept
}

/// The text made plain, broken at its blanks into lines of so many columns at most. A longer word
/// is cut, and so is the text where it has more lines than are allowed.
pub fn wrapped(text: &str, most: usize, lines_allowed: usize) -> Vec<String> {
    let mut lines = vec![String::new()];
    for word in plain(text).split_whitespace() {
        let word = cut(word, most);
        let line = lines.last_mut().expect("there is a first line");
        if line.is_empty() {
            *line = word;
        } else if columns(line) + 1 + columns(&word) <= most {
            *line += &format!(" {word}");
        } else {
            lines.push(word);
        }
    }
    if lines.len() > lines_allowed {
        lines.truncate(lines_allowed);
        let last = lines.pop().unwrap_or_default();
        lines.push(cut(&format!("{last} {CUT}"), most));
    }
    lines
}
