use crate::policy::{Errors, Strategy};
use crate::position::Position;
use std::time::Duration;

/// How a client connects and waits.
#[derive(Clone, Debug)]
pub struct Options {
    /// How long an answer may take; `None` for any time. At first 10 seconds.
    pub timeout: Option<Duration>,
    /// How long a lost server is waited for, by a subscription and by `publish_many` with `resend`; `None`, as at first, for ever,
    /// zero for not at all.
    pub patience: Option<Duration>,
    /// The subject by which a server that is reached through another one's socket, as by ssh, tells which one it is.
    pub epoch_subject: Option<String>,
    /// How many lines `publish_many` sends before the first is answered, at least 1. At first 64.
    pub window: usize,
    /// Whether `publish_many` sends what was not answered once more by the next connection, so that it may be emitted twice. At
    /// first it does not.
    pub resend: bool,
}

impl Default for Options {
    fn default() -> Options {
        Options { timeout: Some(Duration::from_secs(10)), patience: None, epoch_subject: None, window: 64, resend: false }
    }
}

impl Options {
    pub(crate) fn reconnects(&self) -> bool {
        self.patience != Some(Duration::ZERO)
    }
}

/// How a subject is followed: at first all its items, from now on.
#[derive(Clone, Debug, Default)]
pub struct Subscribe {
    /// What becomes of items for which this subscriber is too slow.
    pub strategy: Strategy,
    /// Where an error stands.
    pub errors: Errors,
    /// The position behind which it goes on; `None` for whatever the subject has for who comes anew.
    pub since: Option<Position>,
    /// How long to wait for a note; `None` for ever.
    pub timeout: Option<Duration>,
}
