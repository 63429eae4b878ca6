use crate::error::Error;
use std::fmt;

const MAX_ROOM: u16 = 1024;

/// What becomes of items for which a subscriber is too slow. A room is 0 to 1,024 items, of `Latest` 1 to 1,024.
#[derive(Clone, Copy, Debug, Default, PartialEq, Eq, Hash)]
pub enum Strategy {
    /// All wait.
    #[default]
    Buffer,
    /// The first so many wait, and the others are lost.
    Drop(u16),
    /// The newest so many wait, and older ones are lost.
    Latest(u16),
    /// So many wait; one more ends this subscriber's line by an overflow.
    Bounded(u16),
}

impl Strategy {
    pub(crate) fn check(self) -> Result<(), Error> {
        match self {
            Strategy::Buffer | Strategy::Drop(..=MAX_ROOM) | Strategy::Latest(1..=MAX_ROOM) | Strategy::Bounded(..=MAX_ROOM) => {
                Ok(())
            }
            _ => Err(Error::Invalid("a room has 0 to 1,024 items, under Latest 1 to 1,024")),
        }
    }
}

impl fmt::Display for Strategy {
    fn fmt(&self, f: &mut fmt::Formatter<'_>) -> fmt::Result {
        match self {
            Strategy::Buffer => f.write_str("BUFFER"),
            Strategy::Drop(room) => write!(f, "DROP:{room}"),
            Strategy::Latest(room) => write!(f, "LATEST:{room}"),
            Strategy::Bounded(room) => write!(f, "BOUNDED:{room}"),
        }
    }
}

/// Where an error stands: before the items that wait, which are then lost, or behind them.
#[derive(Clone, Copy, Debug, Default, PartialEq, Eq, Hash)]
pub enum Errors {
    /// Before them.
    Ahead,
    /// Behind them.
    #[default]
    Delay,
}

impl fmt::Display for Errors {
    fn fmt(&self, f: &mut fmt::Formatter<'_>) -> fmt::Result {
        f.write_str(match self {
            Errors::Ahead => "AHEAD",
            Errors::Delay => "DELAY",
        })
    }
}
