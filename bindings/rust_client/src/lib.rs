//! A client of rxline, the line server of Hazoxe, by the standard library alone.
//!
//! ```no_run
//! use rxline::{Client, Note};
//!
//! fn main() -> Result<(), rxline::Error> {
//!     let mut client = Client::connect("/run/hazoxe/hazoxe.sock")?;
//!     client.publish("s", "hello")?;
//!     for note in client.subscribe("s")? {
//!         match note? {
//!             Note::Item(item) => println!("{:?} {}", item.place, String::from_utf8_lossy(&item.text)),
//!             other => println!("{other:?}"),
//!         }
//!     }
//!     Ok(())
//! }
//! ```
//!
//! A subscription comes again where its connection or its server was lost, and tells each item once: what it can't tell any more is
//! told as [`Note::Missed`], and that another server began as [`Note::Restarted`].

mod backoff;
mod client;
mod connection;
mod error;
mod lines;
mod many;
mod note;
mod options;
mod policy;
mod position;
mod progress;
mod subscription;

pub use client::Client;
pub use error::{Error, Refusal};
pub use many::NotAllPublished;
pub use note::{Item, Missed, Note};
pub use options::{Options, Subscribe};
pub use policy::{Errors, Strategy};
pub use position::{BadPosition, Position};
pub use subscription::Subscription;
