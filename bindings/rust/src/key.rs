//! Keys (document 01, Keys and entries).

use std::fmt;

/// A key of the index: the pupil in the upper half, the delivery in the lower. It is a kind of its
/// own, so that it is never mixed with a record number.
///
/// ```
/// use keydesk::Key;
///
/// let key = Key::of(7, 30);
/// assert_eq!((key.pupil(), key.delivery()), (7, 30));
/// assert_eq!(key.to_string(), "7/30");
/// assert_eq!(key.next(), Some(Key::of(7, 31)));
/// assert!(Key::of(6, u32::MAX) < Key::of(7, 0));
/// ```
#[derive(Clone, Copy, Debug, PartialEq, Eq, PartialOrd, Ord, Hash)]
pub struct Key(pub u64);

impl Key {
    /// The lowest key.
    pub const LOWEST: Key = Key(0);
    /// The highest key, 2^64 - 2.
    pub const HIGHEST: Key = Key(u64::MAX - 1);
    /// Names the end of the index, above every key, and is none: the desk refuses it in a request.
    pub const END: Key = Key(u64::MAX);

    /// The key of a pupil's delivery.
    pub const fn of(pupil: u32, delivery: u32) -> Key {
        Key((pupil as u64) << 32 | delivery as u64)
    }

    /// The upper half.
    pub const fn pupil(self) -> u32 {
        (self.0 >> 32) as u32
    }

    /// The lower half.
    pub const fn delivery(self) -> u32 {
        self.0 as u32
    }

    /// The next key up; none above the highest. A walk over a range goes on from here.
    pub fn next(self) -> Option<Key> {
        (self < Key::HIGHEST).then(|| Key(self.0 + 1))
    }
}

impl From<u64> for Key {
    fn from(number: u64) -> Key {
        Key(number)
    }
}

/// As pupil/delivery.
impl fmt::Display for Key {
    fn fmt(&self, to: &mut fmt::Formatter) -> fmt::Result {
        write!(to, "{}/{}", self.pupil(), self.delivery())
    }
}
