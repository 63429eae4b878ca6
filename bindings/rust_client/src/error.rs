use std::error;
use std::fmt;
use std::io;

/// Why a server did not carry out a line, which changed nothing; the connection goes on.
#[derive(Clone, Debug, PartialEq, Eq, Hash)]
#[non_exhaustive]
pub enum Refusal {
    /// The text has more than 1,024 bytes. Such a text is not sent.
    TooLong,
    /// The server does not know the line: it is of another version.
    BadLine,
    /// The configuration has no subject of that name.
    NoSuchSubject,
    /// Somebody completed the subject, or failed it: for good, until the server is started again.
    Ended,
    /// As many observers are held as may be: it may go once one has left.
    Full,
    /// As many joins, or items, were accepted as may be, until the server is started again.
    Spent,
    /// The server had no memory, or the budget of the subject is used up: it may go later.
    OutOfMemory,
    /// The thread of the subject ended by a fault of its own: the server has to be started again.
    SubjectGone,
    /// The server does not speak version 2.
    BadVersion,
    /// A word that this crate does not know.
    Other(String),
}

impl Refusal {
    pub(crate) fn of_word(word: &str) -> Refusal {
        match word {
            "LONG" => Refusal::TooLong,
            "SYNTAX" => Refusal::BadLine,
            "SUBJECT" => Refusal::NoSuchSubject,
            "ENDED" => Refusal::Ended,
            "FULL" => Refusal::Full,
            "SPENT" => Refusal::Spent,
            "MEMORY" => Refusal::OutOfMemory,
            "GONE" => Refusal::SubjectGone,
            "VERSION" => Refusal::BadVersion,
            other => Refusal::Other(other.to_owned()),
        }
    }
}

impl fmt::Display for Refusal {
    fn fmt(&self, f: &mut fmt::Formatter<'_>) -> fmt::Result {
        f.write_str(match self {
            Refusal::TooLong => "a text has at most 1,024 bytes",
            Refusal::BadLine => "the server does not know the line",
            Refusal::NoSuchSubject => "the server has no such subject",
            Refusal::Ended => "the subject has ended",
            Refusal::Full => "as many observers are held as may be",
            Refusal::Spent => "as many joins or items were accepted as may be",
            Refusal::OutOfMemory => "there is no memory, or the subject's budget is used up",
            Refusal::SubjectGone => "the subject's thread ended by a fault",
            Refusal::BadVersion => "the server does not speak this version",
            Refusal::Other(word) => return write!(f, "the server answered ERR {word}"),
        })
    }
}

/// Why a call did not do what it was called for.
#[derive(Debug)]
#[non_exhaustive]
pub enum Error {
    /// The server did not carry out the line.
    Refused(Refusal),
    /// Nobody listens at the path. Nothing was sent.
    NoServer(io::Error),
    /// The connection ended before the answer came. What was sent may have been carried out, or not.
    Lost(io::Error),
    /// Nothing came in time. What was sent may have been carried out, or not.
    TimedOut,
    /// The server said what no server of this protocol says: this.
    Protocol(String),
    /// What was handed in is no text, subject or room, for this reason. Nothing was sent.
    Invalid(&'static str),
}

impl Error {
    /// Whether another connection, or the same line later, may go where this one did not.
    pub(crate) fn may_pass(&self) -> bool {
        match self {
            Error::Refused(refusal) => matches!(refusal, Refusal::Full | Refusal::OutOfMemory),
            Error::NoServer(_) | Error::Lost(_) | Error::TimedOut => true,
            Error::Protocol(_) | Error::Invalid(_) => false,
        }
    }

    pub(crate) fn is_of_connection(&self) -> bool {
        matches!(self, Error::NoServer(_) | Error::Lost(_) | Error::TimedOut)
    }
}

impl fmt::Display for Error {
    fn fmt(&self, f: &mut fmt::Formatter<'_>) -> fmt::Result {
        match self {
            Error::Refused(refusal) => refusal.fmt(f),
            Error::NoServer(fault) => write!(f, "no server is there: {fault}"),
            Error::Lost(fault) => write!(f, "the connection was lost: {fault}"),
            Error::TimedOut => f.write_str("nothing came in time"),
            Error::Protocol(said) => write!(f, "the server said {said:?}"),
            Error::Invalid(reason) => f.write_str(reason),
        }
    }
}

impl error::Error for Error {
    fn source(&self) -> Option<&(dyn error::Error + 'static)> {
        match self {
            Error::NoServer(fault) | Error::Lost(fault) => Some(fault),
            _ => None,
        }
    }
}
