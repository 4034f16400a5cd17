//! The definitions' own numbers, read from their texts: `NAME = EXPRESSION` of the limits, and lists
//! of widths as `NAME = 2 ∷ key_size ∷ []`.

use crate::file;
use std::collections::BTreeMap;

/// The limits and sizes by their names.
pub struct Limits {
    expressions: BTreeMap<String, String>,
}

impl Limits {
    pub fn read() -> Limits {
        let text = file("crates/limits/specs/Limits.antt");
        let lines = text.lines().filter(|line| !line.starts_with("--"));
        let equations = lines.filter_map(|line| line.split_once(" = "));
        let named = equations.map(|(name, value)| (name.to_string(), value.to_string()));
        Limits { expressions: named.collect() }
    }

    /// The names of all limits.
    pub fn names(&self) -> impl Iterator<Item = &str> {
        self.expressions.keys().map(String::as_str)
    }

    /// The number that a name, or an expression over names, stands for.
    pub fn value(&self, expression: &str) -> usize {
        let spaced = expression.replace('(', " ( ").replace(')', " ) ");
        let words: Vec<&str> = spaced.split_whitespace().collect();
        let (value, rest) = self.sum(&words);
        assert!(rest.is_empty(), "all of '{expression}' is read");
        value
    }

    fn sum<'a>(&self, words: &'a [&'a str]) -> (usize, &'a [&'a str]) {
        let (mut value, mut rest) = self.product(words);
        while let [sign @ ("+" | "-"), after @ ..] = rest {
            let (next, left) = self.product(after);
            value = if *sign == "+" { value + next } else { value - next };
            rest = left;
        }
        (value, rest)
    }

    fn product<'a>(&self, words: &'a [&'a str]) -> (usize, &'a [&'a str]) {
        let (mut value, mut rest) = self.factor(words);
        while let [sign @ ("*" | "/"), after @ ..] = rest {
            let (next, left) = self.factor(after);
            value = if *sign == "*" { value * next } else { value / next };
            rest = left;
        }
        (value, rest)
    }

    fn factor<'a>(&self, words: &'a [&'a str]) -> (usize, &'a [&'a str]) {
        match words {
            ["(", after @ ..] => {
                let (value, rest) = self.sum(after);
                assert_eq!(rest.first(), Some(&")"), "a bracket is closed");
                (value, &rest[1..])
            }
            [word, rest @ ..] => (self.named(word), rest),
            [] => panic!("an expression does not end so"),
        }
    }

    /// A number, or the value of a name.
    fn named(&self, word: &str) -> usize {
        match word.parse() {
            Ok(number) => number,
            Err(_) => {
                let known = self.expressions.get(word);
                self.value(known.unwrap_or_else(|| panic!("there is a limit {word}")))
            }
        }
    }

    /// The widths that a list writes: `2 ∷ key_size ∷ []`.
    fn widths(&self, list: &str) -> Vec<usize> {
        let items = list.split('∷').map(str::trim).filter(|item| *item != "[]");
        items.map(|item| self.value(item)).collect()
    }

    /// A table of widths by its file and name.
    pub fn width_table(&self, path: &str, name: &str) -> Vec<usize> {
        let text = file(path);
        let start = format!("{name} = ");
        let mut lines = text.lines().filter_map(|line| line.strip_prefix(&start));
        let list = lines.next().unwrap_or_else(|| panic!("{path} has {name}"));
        self.widths(list)
    }

    /// The widths of a request of each kind, from kind 0 on, which there is none of: the lines of
    /// `forms` below its name.
    pub fn forms(&self) -> Vec<Vec<usize>> {
        let text = file("crates/requests/specs/RequestRecord.antt");
        let lines = text.lines().skip_while(|line| *line != "forms =").skip(1);
        let forms = lines.map(str::trim).take_while(|line| !line.is_empty());
        let lists: Vec<String> = forms.map(|line| line.replace(['(', ')'], "")).collect();
        assert_eq!(lists.last().map(String::as_str), Some("∷ []"), "a list of lists is closed");
        let lists = lists[..lists.len() - 1].iter();
        lists.map(|list| self.widths(list.trim_start_matches('∷'))).collect()
    }
}
