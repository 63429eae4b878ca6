use std::error;
use std::fmt;

/// Why a call did nothing. The first seven are the subject's refusals, in its order.
#[derive(Clone, Copy, Debug, PartialEq, Eq, Hash)]
#[non_exhaustive]
pub enum Error {
    /// The subject has ended.
    Ended,
    /// As many observers are held as may be.
    Full,
    /// As many joins, or items, were accepted as may be.
    Spent,
    /// A request for no items.
    ZeroRequest,
    /// No observer of that number is held.
    NoObserver,
    /// More than 4,294,967,295 items would be owed.
    TooMuch,
    /// There was no memory, or the budget has no bytes left.
    Memory,
    /// A count that is not 1 to 4,096.
    BadCount,
    /// An age that is not at least 1 millisecond.
    BadAge,
    /// Not 1 to 64 observers, or no joins or items.
    BadLimits,
    /// A text of more than 1,024 bytes.
    TooLong,
    /// A text with a line feed.
    HasLf,
    /// A room of more than 1,024 items, or of Latest one of none.
    BadRoom,
}

impl Error {
    /// What a number of the library means. `None` where the call did what it was called for. No other number comes: this
    /// crate asks for no kind, strategy or error mode that there is not, and calls for subjects alone.
    pub(crate) fn of_number(number: u32) -> Option<Error> {
        Some(match number {
            0 => return None,
            1 => Error::Ended,
            2 => Error::Full,
            3 => Error::Spent,
            4 => Error::ZeroRequest,
            5 => Error::NoObserver,
            6 => Error::TooMuch,
            7 => Error::Memory,
            12 => Error::BadCount,
            13 => Error::BadAge,
            14 => Error::BadLimits,
            15 => Error::TooLong,
            16 => Error::HasLf,
            18 => Error::BadRoom,
            other => unreachable!("the library answered {other}"),
        })
    }

    /// The same as a result.
    pub(crate) fn check(number: u32) -> Result<(), Error> {
        match Error::of_number(number) {
            None => Ok(()),
            Some(error) => Err(error),
        }
    }
}

impl fmt::Display for Error {
    fn fmt(&self, f: &mut fmt::Formatter<'_>) -> fmt::Result {
        f.write_str(match self {
            Error::Ended => "the subject has ended",
            Error::Full => "as many observers are held as may be",
            Error::Spent => "as many joins or items were accepted as may be",
            Error::ZeroRequest => "a request is for at least 1 item",
            Error::NoObserver => "no observer of that number is held",
            Error::TooMuch => "more than 4294967295 items would be owed",
            Error::Memory => "there is no memory, or the budget has no bytes left",
            Error::BadCount => "a count is 1 to 4096, and for a Replay alone",
            Error::BadAge => "an age is at least 1 millisecond, and for a Replay alone",
            Error::BadLimits => "limits are 1 to 64 observers, and at least 1 join and item",
            Error::TooLong => "a text has at most 1024 bytes",
            Error::HasLf => "a text has no line feed",
            Error::BadRoom => "a room has 0 to 1024 items, under Latest 1 to 1024, under Buffer 0",
        })
    }
}

impl error::Error for Error {}
