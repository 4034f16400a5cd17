//! The proved key desk, called from Rust. A thin cover over the static library that `rt` makes of
//! the crate `desk`: it writes requests as records, reads answers from theirs, and adds no rule of
//! its own. The rules are document 01's; `include/keydesk.h` declares the same for C.
//!
//! A [`Desk`] is asked one [`Request`] at a time and gives [`Answers`]. **Answers to other
//! transactions come in one's own call**: a commit is followed by answers to those who waited
//! behind it, and a request that closes a circle of waits can turn another's away. So whoever asks
//! hands every answer to the transaction that it names.
//!
//! ```
//! use keydesk::{Desk, Key, Number, Refusal, Request};
//!
//! /// A desk, and what each of the transactions 1 to 16 was told last.
//! struct Server {
//!     desk: Desk,
//!     told: [Option<Number>; 17],
//! }
//!
//! impl Server {
//!     fn ask(&mut self, request: Request) -> Result<(), Refusal> {
//!         for answer in self.desk.ask(request)? {
//!             self.told[usize::from(answer.transaction)] = Some(answer.says);
//!         }
//!         Ok(())
//!     }
//! }
//!
//! let mut server = Server { desk: Desk::fresh(), told: [None; 17] };
//!
//! // A coach (1) puts in a ball of pupil 7.
//! server.ask(Request::begin(1))?;
//! server.ask(Request::insert(1, Key::of(7, 30), 503))?;
//!
//! // The night job (2) reads all that pupil 7 can have. The ball may yet be taken back: it waits.
//! server.ask(Request::begin(2))?;
//! server.ask(Request::read(2, Key::of(7, 0), Key::of(7, u32::MAX)))?;
//! assert_eq!(server.told[2], Some(Number::StillQueued { behind: 1 }));
//!
//! // The coach commits, and that call answers both.
//! server.ask(Request::commit(1))?;
//! assert_eq!(server.told[1], Some(Number::Done));
//! assert_eq!(server.told[2], Some(Number::Found { key: Key::of(7, 30), record: 503 }));
//! # Ok::<(), Refusal>(())
//! ```
//!
//! `examples/rust/src/bin/server.rs` is a whole loop. Below the types are the two functions of the
//! library, [`fresh`] and [`serve`], over slices of any length and any bytes.

#![deny(missing_docs)]

mod answer;
mod desk;
mod key;
mod library;
pub mod number;
mod refusal;
mod request;

pub use answer::{Answer, Answers, Number};
pub use desk::Desk;
pub use key::Key;
pub use library::{ANSWER, ANSWERS, DESK, PAGES, REQUEST, Returned, TRANSACTIONS, fresh, serve};
pub use refusal::Refusal;
pub use request::{Asks, Record, Request};
