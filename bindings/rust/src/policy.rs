/// What becomes of the items that an observer did not request yet. A room is the most items that wait, up to 1,024.
#[derive(Clone, Copy, Debug, PartialEq, Eq, Hash)]
pub enum Strategy {
    /// All of them wait.
    Buffer,
    /// An item that finds the room full is lost.
    Drop(u16),
    /// Where an item finds the room, of at least 1, full, the oldest that waits is lost.
    Latest(u16),
    /// Where an item finds the room full, the observer ends by the error `OVERFLOW`.
    Bounded(u16),
}

/// Where an error stands among the items that wait for an observer.
#[derive(Clone, Copy, Debug, PartialEq, Eq, Hash)]
pub enum Errors {
    /// Before them: they are never given.
    Ahead,
    /// Behind them.
    Delay,
}

/// How an observer is to be served.
#[derive(Clone, Copy, Debug, PartialEq, Eq, Hash)]
pub struct Policy {
    pub strategy: Strategy,
    pub errors: Errors,
}

impl Policy {
    /// The numbers of its strategy, room and error mode.
    pub(crate) fn numbers(self) -> (u32, u32, u32) {
        let (strategy, room) = match self.strategy {
            Strategy::Buffer => (0, 0),
            Strategy::Drop(room) => (1, room),
            Strategy::Latest(room) => (2, room),
            Strategy::Bounded(room) => (3, room),
        };
        let errors = match self.errors {
            Errors::Ahead => 0,
            Errors::Delay => 1,
        };
        (strategy, u32::from(room), errors)
    }
}
