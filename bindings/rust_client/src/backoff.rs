use std::collections::hash_map::RandomState;
use std::hash::{BuildHasher, Hasher};
use std::time::{Duration, Instant};

const FIRST: Duration = Duration::from_millis(100);
const MOST: Duration = Duration::from_secs(5);

/// Waits that double, each by chance somewhat shorter, so that many who lost one server do not come again together. It gives up
/// when its patience has passed since the first try that failed.
pub(crate) struct Backoff {
    patience: Option<Duration>,
    pause: Duration,
    since: Option<Instant>,
}

impl Backoff {
    pub(crate) fn new(patience: Option<Duration>) -> Backoff {
        Backoff { patience, pause: FIRST, since: None }
    }

    /// A try went well.
    pub(crate) fn reset(&mut self) {
        self.pause = FIRST;
        self.since = None;
    }

    /// How long to wait from now on; `None` for giving up.
    pub(crate) fn pause(&mut self) -> Option<Duration> {
        let since = *self.since.get_or_insert_with(Instant::now);
        let left = match self.patience {
            None => MOST,
            Some(patience) => patience.checked_sub(since.elapsed()).filter(|left| !left.is_zero())?,
        };
        let pause = self.pause.mul_f64(0.5 + 0.5 * by_chance());
        self.pause = MOST.min(2 * self.pause);
        Some(pause.min(left))
    }
}

/// A number from 0 to 1, another one each time.
fn by_chance() -> f64 {
    let drawn = RandomState::new().build_hasher().finish();
    drawn as f64 / u64::MAX as f64
}
