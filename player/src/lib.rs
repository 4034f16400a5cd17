//! Plays a session of the key desk written in plain text, and draws where things stand. It asks the
//! proved desk through the package `keydesk` and adds no rule of its own.
//!
//! Read `text` for what a line may say, `session` for how it is played, `words` for what is said,
//! `behind` and `circle` for who is in the way; `picture` for how bytes become plain values, `show`
//! and `svg` for how they are drawn, `html` for the page that steps through a session.

pub mod behind;
pub mod bytes;
pub mod changes;
pub mod circle;
pub mod digits;
pub mod html;
pub mod keys;
pub mod live;
pub mod picture;
pub mod plain;
pub mod rows;
pub mod session;
pub mod show;
pub mod sources;
pub mod svg;
pub mod text;
pub mod transcript;
pub mod usage;
pub mod words;
