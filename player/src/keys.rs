//! Keys, and how they are written: as one number, or as pupil/delivery.

use crate::digits::number;
use std::collections::BTreeMap;
use std::fmt;

pub use keydesk::Key;

/// The two ways to write a key.
#[derive(Clone, Copy, Debug, PartialEq, Eq)]
pub enum Form {
    /// One number below 2^64.
    Number,
    /// Pupil and delivery, the upper and the lower half.
    Halves,
}

/// A key together with the form in which it was written, or is to be.
#[derive(Clone, Copy, Debug, PartialEq, Eq)]
pub struct Written {
    pub key: Key,
    pub form: Form,
}

impl Written {
    /// Reads a key in either form; nothing where it is neither.
    pub fn parse(text: &str) -> Option<Written> {
        match text.split_once('/') {
            None => Some(Written { key: Key(number(text)?), form: Form::Number }),
            Some((pupil, delivery)) => {
                let halves = (number::<u32>(pupil)?, number::<u32>(delivery)?);
                let key = Key(u64::from(halves.0) << 32 | u64::from(halves.1));
                Some(Written { key, form: Form::Halves })
            }
        }
    }
}

impl fmt::Display for Written {
    fn fmt(&self, to: &mut fmt::Formatter) -> fmt::Result {
        match self.form {
            Form::Number => write!(to, "{}", self.key.0),
            Form::Halves => write!(to, "{}/{}", self.key.0 >> 32, self.key.0 as u32),
        }
    }
}

/// How each key of a session was last written. An entry's key and a separator were written by some
/// line, so that a drawing can write them in the same way.
#[derive(Clone, Debug, Default)]
pub struct Forms(BTreeMap<Key, Form>);

impl Forms {
    pub fn note(&mut self, written: Written) {
        self.0.insert(written.key, written.form);
    }

    /// The key in the form in which it was last written; a number where it never was.
    pub fn written(&self, key: Key) -> Written {
        Written { key, form: self.0.get(&key).copied().unwrap_or(Form::Number) }
    }
}
