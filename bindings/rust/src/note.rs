use crate::raw;
use std::fmt;

/// The place and port of an item that is a seed.
const SEED: u32 = u32::MAX;

/// A note that was given to an observer. It is read where the subject keeps it, so what is to outlast the next call for the
/// subject is copied.
#[derive(Clone, Copy)]
pub struct Note<'a> {
    pub(crate) head: &'a raw::Note,
    pub(crate) text: &'a [u8],
}

/// What an observer is given: an item, or a terminal, after which nothing comes.
#[derive(Clone, Copy, PartialEq, Eq, Hash)]
pub enum Signal<'a> {
    /// An item of this text, by the port that it came by, with its place: how many items its subject accepted before it.
    Next { port: u32, place: u32, text: &'a [u8] },
    /// Completion.
    Completed,
    /// An error of this text.
    Failed(&'a [u8]),
}

/// A text as it is written in Rust, `b"OVERFLOW"`.
struct Escaped<'a>(&'a [u8]);

impl fmt::Debug for Escaped<'_> {
    fn fmt(&self, f: &mut fmt::Formatter<'_>) -> fmt::Result {
        write!(f, "b\"{}\"", self.0.escape_ascii())
    }
}

impl fmt::Debug for Signal<'_> {
    fn fmt(&self, f: &mut fmt::Formatter<'_>) -> fmt::Result {
        match *self {
            Signal::Next { port, place, text } => {
                f.debug_struct("Next").field("port", &port).field("place", &place).field("text", &Escaped(text)).finish()
            }
            Signal::Completed => f.write_str("Completed"),
            Signal::Failed(text) => f.debug_tuple("Failed").field(&Escaped(text)).finish(),
        }
    }
}

impl<'a> Note<'a> {
    /// The number of the observer.
    #[inline]
    pub fn observer(&self) -> u32 {
        self.head.observer
    }

    /// What it was given.
    #[inline]
    pub fn signal(&self) -> Signal<'a> {
        match self.head.kind {
            0 => Signal::Next { port: self.head.port, place: self.head.place, text: self.text },
            1 => Signal::Completed,
            _ => Signal::Failed(self.text),
        }
    }

    /// The text; a completion has none.
    #[inline]
    pub fn text(&self) -> &'a [u8] {
        self.text
    }

    /// Whether it is the seed of a subject, which came by no port and has no place.
    pub fn is_seed(&self) -> bool {
        self.head.kind == 0 && self.head.place == SEED
    }
}

impl fmt::Debug for Note<'_> {
    fn fmt(&self, f: &mut fmt::Formatter<'_>) -> fmt::Result {
        f.debug_struct("Note").field("observer", &self.observer()).field("signal", &self.signal()).finish()
    }
}

impl PartialEq for Note<'_> {
    fn eq(&self, other: &Note<'_>) -> bool {
        self.observer() == other.observer() && self.signal() == other.signal()
    }
}

impl Eq for Note<'_> {}
