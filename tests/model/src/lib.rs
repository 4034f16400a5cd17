//! The key desk, written from documents 01 and 02 alone as a second opinion on the proved desk.
//!
//! Plain before fast: a call decodes the whole picture into plain values, acts on them as the
//! rule book says, and encodes the whole picture again. Read `key`, `entry` and `layout` for what
//! there is, `tree` for the index, `locks` and `queue` for the rules, `whole` for what a picture
//! must be, and `desk` for a call. `demand3` checks a run from its answers; `generators` and
//! `session` serve the tests.

pub mod demand3;
pub mod desk;
pub mod entry;
pub mod generators;
pub mod key;
pub mod layout;
pub mod locks;
pub mod picture;
pub mod program;
pub mod queue;
pub mod session;
pub mod tree;
pub mod whole;
