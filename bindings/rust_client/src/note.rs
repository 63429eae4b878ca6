use crate::position::Position;
use std::fmt;

/// An item.
#[derive(Clone, PartialEq, Eq, Hash)]
pub struct Item {
    /// Its text: 0 to 1,024 bytes, none of them a line feed.
    pub text: Vec<u8>,
    /// How many items its subject accepted before it; `None` of a seed.
    pub place: Option<u32>,
    /// The port of its producer; `None` of a seed.
    pub port: Option<u32>,
}

impl fmt::Debug for Item {
    fn fmt(&self, f: &mut fmt::Formatter<'_>) -> fmt::Result {
        f.debug_struct("Item")
            .field("text", &format_args!("b\"{}\"", self.text.escape_ascii()))
            .field("place", &self.place)
            .field("port", &self.port)
            .finish()
    }
}

/// Items that are not told: the subject had them no more when this subscriber came again, or its strategy let go of them.
///
/// Where it came again and was told the end at once, nothing tells whether there were any behind what it heard.
#[derive(Clone, Copy, Debug, PartialEq, Eq, Hash)]
pub struct Missed {
    /// The place of the first of them.
    pub first: u32,
    /// The place of the last of them; `None` where nothing tells.
    pub last: Option<u32>,
}

/// What a subscriber is told.
#[derive(Clone, Debug, PartialEq, Eq, Hash)]
pub enum Note {
    /// An item.
    Item(Item),
    /// Items that are not told.
    Missed(Missed),
    /// Another server began, whose places begin at 0. What the one before had behind this position is lost.
    Restarted(Position),
    /// This subscriber was too slow for its room, under [`Strategy::Bounded`](crate::Strategy). It comes again by itself, where it
    /// reconnects.
    Overflow,
    /// The subject is over. Nothing comes behind it.
    Completed,
    /// The subject ended by an error of this text. Nothing comes behind it.
    Failed(Vec<u8>),
}
