use std::error::Error;
use std::fmt;
use std::str::FromStr;

/// How far a subscriber is: which server it heard, and the place of the last item that it was told of, or that it knows to be
/// missed; `None` before the first. As a text it is `EPOCH-PLACE`.
#[derive(Clone, Debug, PartialEq, Eq, Hash)]
pub struct Position {
    /// Which server.
    pub epoch: String,
    /// The last place.
    pub place: Option<u32>,
}

/// A text is no position.
#[derive(Clone, Copy, Debug, PartialEq, Eq)]
pub struct BadPosition;

impl fmt::Display for BadPosition {
    fn fmt(&self, f: &mut fmt::Formatter<'_>) -> fmt::Result {
        f.write_str("the text is no position: EPOCH-PLACE")
    }
}

impl Error for BadPosition {}

impl fmt::Display for Position {
    fn fmt(&self, f: &mut fmt::Formatter<'_>) -> fmt::Result {
        write!(f, "{}-", self.epoch)?;
        match self.place {
            Some(place) => write!(f, "{place}"),
            None => Ok(()),
        }
    }
}

impl FromStr for Position {
    type Err = BadPosition;

    fn from_str(text: &str) -> Result<Position, BadPosition> {
        let (epoch, place) = text.rsplit_once('-').ok_or(BadPosition)?;
        let place = match place {
            "" => None,
            digits => Some(digits.parse().map_err(|_| BadPosition)?),
        };
        Ok(Position { epoch: epoch.to_owned(), place })
    }
}
