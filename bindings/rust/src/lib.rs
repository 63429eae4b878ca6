//! Subjects of ReactiveX with backpressure: a safe crate over the library for C, which is proved.
//!
//! A [`Subject`] passes each note from its producers to its observers, in order and once. Each observer says how many items
//! it wants, and by its [`Policy`] what becomes of those that it did not ask for yet. What the subject gives waits, in the
//! order in which it was given, until it is taken ([`Subject::given`], or by a callback of each observer, [`Dispatcher`]).
//!
//! ```
//! use hazoxe::{Errors, Kind, Policy, Rules, Signal, Strategy, Subject};
//!
//! # fn main() -> Result<(), hazoxe::Error> {
//! let mut subject = Subject::open(&Rules::of(Kind::Publish))?;
//! let policy = Policy { strategy: Strategy::Latest(1), errors: Errors::Delay };
//! let who = subject.join(policy, 1, 0)?;
//! for text in ["one", "two", "three"] {
//!     subject.next(0, 0, text)?;
//! }
//! assert_eq!(subject.waiting(who)?, 1); // of the two that were not asked for, the latest
//! subject.request(who, 1)?;
//! for note in subject.given() {
//!     match note.signal() {
//!         Signal::Next { place, text, .. } => assert!((place, text) == (0, b"one") || (place, text) == (2, b"three")),
//!         other => panic!("{other:?}"),
//!     }
//! }
//! subject.complete(0, 0)?;
//! assert_eq!(subject.complete(0, 0), Err(hazoxe::Error::Ended));
//! assert_eq!(subject.given().next().map(|note| note.signal() == Signal::Completed), Some(true));
//! # Ok(())
//! # }
//! ```
//!
//! This crate is not proved: it hands on what it is told, and its types keep what the library's header asks of a caller. The
//! library takes its memory from `malloc`.

mod block;
mod dispatcher;
mod error;
mod heap;
mod note;
mod policy;
mod raw;
mod rules;
mod subject;

pub use block::Given;
pub use dispatcher::Dispatcher;
pub use error::Error;
pub use note::{Note, Signal};
pub use policy::{Errors, Policy, Strategy};
pub use rules::{Kind, Rules};
pub use subject::{Counts, Subject};
