//! The picture: the pages and the desk together, as bytes and as plain values.

use crate::layout::desk::Desk;
use crate::layout::pages::{Index, Page};
use std::collections::BTreeMap;

/// The picture as bytes.
#[derive(Clone, Debug, PartialEq, Eq)]
pub struct Picture {
    pub pages: Vec<u8>,
    pub desk: Vec<u8>,
}

/// The picture as plain values.
#[derive(Clone, Debug, PartialEq, Eq)]
pub struct Tables {
    pub index: Index,
    pub desk: Desk,
}

impl Tables {
    /// "Fresh: page 1 is an empty leaf and the root, used 2, height 1, desk empty" (document 01,
    /// Records and pages).
    pub fn fresh() -> Tables {
        let pages = BTreeMap::from([(1, Page::Leaf(Vec::new()))]);
        Tables { index: Index { root: 1, height: 1, pages }, desk: Desk::empty() }
    }

    pub fn encode(&self) -> Picture {
        Picture { pages: self.index.encode(), desk: self.desk.encode() }
    }

    /// The values, or nothing where the bytes don't follow the layouts.
    pub fn decode(pages: &[u8], desk: &[u8]) -> Option<Tables> {
        Some(Tables { index: Index::decode(pages)?, desk: Desk::decode(desk)? })
    }
}

impl Picture {
    pub fn decode(&self) -> Option<Tables> {
        Tables::decode(&self.pages, &self.desk)
    }
}
