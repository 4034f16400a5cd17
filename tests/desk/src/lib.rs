//! A desk on bytes beside the model: the same calls to both, and every byte compared after each.
//!
//! `under_test` names the desk that is held to the model, and `beside` makes the calls. `runs` are
//! seeded sessions, `met` counts what they reach, and `scripts` lead them to what chance alone seldom
//! reaches. `pictures` are whole; `wrongs` damage their plain values, and `judging` compares the
//! verdicts.

pub mod beside;
pub mod judging;
pub mod met;
pub mod pictures;
pub mod runs;
pub mod scripts;
pub mod under_test;
pub mod wrongs;
