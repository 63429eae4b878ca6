use crate::error::Error;
use crate::raw;
use std::num::NonZeroU64;

/// What a subject gives to an observer that joins.
#[derive(Clone, Debug, PartialEq, Eq, Hash)]
pub enum Kind {
    /// What comes after the joining.
    Publish,
    /// The last item, else the seed, where there is one, and then what comes.
    Behavior(Option<Vec<u8>>),
    /// The last item, once the subject has completed.
    Async,
    /// The last items, and then what comes.
    Replay {
        /// At most so many, 1 to 4,096.
        count: Option<u16>,
        /// Only those younger than so many milliseconds, at least 1.
        age: Option<u64>,
    },
}

/// The subject that is asked for.
#[derive(Clone, Debug, PartialEq, Eq, Hash)]
pub struct Rules {
    pub kind: Kind,
    /// The most observers held at a time, 1 to 64.
    pub observers: u32,
    /// The most joins in all, at least 1.
    pub joins: u32,
    /// The most items in all, at least 1.
    pub items: u32,
    /// So many bytes at most the subject's texts and lists take; `None`: all that there are. Some 50 bytes for the count of
    /// them are never given back.
    pub budget: Option<NonZeroU64>,
}

impl Rules {
    /// A subject of this kind, with the greatest limits and no budget.
    pub fn of(kind: Kind) -> Rules {
        Rules { kind, observers: 64, joins: u32::MAX, items: u32::MAX, budget: None }
    }

    /// The same for the library, to which 0 means none.
    pub(crate) fn to_raw(&self) -> Result<raw::Rules, Error> {
        let (kind, count, age) = match self.kind {
            Kind::Publish => (0, 0, 0),
            Kind::Behavior(None) => (1, 0, 0),
            Kind::Behavior(Some(_)) => (2, 0, 0),
            Kind::Async => (3, 0, 0),
            Kind::Replay { count: Some(0), .. } => return Err(Error::BadCount),
            Kind::Replay { age: Some(0), .. } => return Err(Error::BadAge),
            Kind::Replay { count, age } => (4, count.unwrap_or(0), age.unwrap_or(0)),
        };
        Ok(raw::Rules {
            age,
            budget: self.budget.map_or(0, NonZeroU64::get),
            kind,
            count: u32::from(count),
            observers: self.observers,
            joins: self.joins,
            items: self.items,
        })
    }

    /// The seed; of no bytes where there is none.
    pub(crate) fn seed(&self) -> &[u8] {
        match &self.kind {
            Kind::Behavior(Some(seed)) => seed,
            _ => &[],
        }
    }
}
