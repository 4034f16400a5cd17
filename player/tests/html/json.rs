//! Reads the JSON of a page, strictly: what isn't JSON panics.

#[derive(Clone, Debug, PartialEq)]
pub enum Json {
    Bool(bool),
    Number(i64),
    Text(String),
    List(Vec<Json>),
    Object(Vec<(String, Json)>),
}

impl Json {
    pub fn parse(text: &str) -> Json {
        let mut rest = Rest(text);
        let value = rest.value();
        assert_eq!(rest.0.trim(), "", "nothing comes after the value");
        value
    }

    /// The field of an object.
    pub fn at(&self, name: &str) -> &Json {
        let Json::Object(fields) = self else { panic!("{self:?} is no object") };
        let field = fields.iter().find(|(field, _)| field == name);
        &field.unwrap_or_else(|| panic!("there is no {name}")).1
    }

    pub fn list(&self) -> &[Json] {
        let Json::List(list) = self else { panic!("{self:?} is no list") };
        list
    }

    pub fn text(&self) -> &str {
        let Json::Text(text) = self else { panic!("{self:?} is no text") };
        text
    }

    pub fn number(&self) -> i64 {
        let Json::Number(number) = self else { panic!("{self:?} is no number") };
        *number
    }

    pub fn texts(&self) -> Vec<&str> {
        self.list().iter().map(Json::text).collect()
    }
}

/// What is still to be read.
struct Rest<'a>(&'a str);

impl Rest<'_> {
    /// Takes a mark if it comes next.
    fn takes(&mut self, mark: char) -> bool {
        self.0 = self.0.trim_start_matches([' ', '\n']);
        let after = self.0.strip_prefix(mark);
        self.0 = after.unwrap_or(self.0);
        after.is_some()
    }

    fn expects(&mut self, mark: char) {
        assert!(self.takes(mark), "{mark} comes next in {:.40}", self.0);
    }

    fn value(&mut self) -> Json {
        if self.takes('{') {
            return Json::Object(self.items('}', |rest| {
                rest.expects('"');
                let name = rest.string();
                rest.expects(':');
                (name, rest.value())
            }));
        }
        if self.takes('[') {
            return Json::List(self.items(']', Rest::value));
        }
        if self.takes('"') {
            return Json::Text(self.string());
        }
        let end = self.0.find([',', ']', '}', '\n']).unwrap_or(self.0.len());
        let (word, rest) = self.0.split_at(end);
        self.0 = rest;
        match word {
            "true" => Json::Bool(true),
            "false" => Json::Bool(false),
            number => Json::Number(number.parse().expect("a whole number")),
        }
    }

    /// What stands between a mark and its end, with commas between.
    fn items<Item>(&mut self, end: char, item: impl Fn(&mut Self) -> Item) -> Vec<Item> {
        let mut items = Vec::new();
        if self.takes(end) {
            return items;
        }
        loop {
            items.push(item(self));
            if self.takes(end) {
                return items;
            }
            self.expects(',');
        }
    }

    /// The rest of a string, of which the first quote is taken.
    fn string(&mut self) -> String {
        let mut string = String::new();
        let mut letters = self.0.char_indices();
        while let Some((place, letter)) = letters.next() {
            match letter {
                '"' => {
                    self.0 = &self.0[place + 1..];
                    return string;
                }
                '\\' => string.push(match letters.next() {
                    Some((_, mark @ ('"' | '\\'))) => mark,
                    Some((place, 'u')) => {
                        letters.nth(3);
                        let code = u32::from_str_radix(&self.0[place + 1..place + 5], 16);
                        char::from_u32(code.expect("four digits")).expect("a character")
                    }
                    other => panic!("{other:?} after a backslash"),
                }),
                letter => {
                    assert!(!letter.is_control(), "{letter:?} is raw in a string");
                    string.push(letter);
                }
            }
        }
        panic!("a string has no end")
    }
}
