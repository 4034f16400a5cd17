//! Keys (document 01, Keys and entries).

/// A key, or the mark of the end of the index. A kind of its own, so that it is never mixed with
/// a record number or a page number.
#[derive(Clone, Copy, Debug, PartialEq, Eq, PartialOrd, Ord)]
pub struct Key(pub u64);

impl Key {
    pub const LOWEST: Key = Key(0);
    pub const HIGHEST: Key = Key(u64::MAX - 1);
    /// Names the end of the index and is never a key. Being above every key, it also serves as
    /// the name of the lock on the end.
    pub const END: Key = Key(u64::MAX);

    /// The key that lies so far above this one, or the highest if there is none.
    pub fn up(self, distance: u64) -> Key {
        Key(self.0.saturating_add(distance)).min(Key::HIGHEST)
    }
}
