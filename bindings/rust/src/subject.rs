use crate::block::{Block, Given};
use crate::error::Error;
use crate::policy::Policy;
use crate::raw;
use crate::rules::Rules;
use std::cell::UnsafeCell;
use std::mem;

/// A subject. It may be moved to another thread, and is used by one thread at a time.
///
/// Moments are milliseconds of the caller's own clock; only a Replay with an age looks at them. Ports are numbers of the
/// caller's own, by which an item tells where it came from.
///
/// ```
/// use hazoxe::{Kind, Rules, Subject};
/// let mut subject = Subject::open(&Rules::of(Kind::Publish)).unwrap();
/// let elsewhere = std::thread::spawn(move || {
///     subject.next(0, 0, "a text that takes memory, which the other thread gives back").unwrap();
///     subject
/// });
/// assert_eq!(elsewhere.join().unwrap().counts().given, 0);
/// ```
///
/// ```compile_fail
/// fn shares<T: Sync>() {}
/// shares::<hazoxe::Subject>();
/// ```
pub struct Subject {
    raw: UnsafeCell<raw::Subject>,
    /// What was taken of the library and not yielded yet.
    block: Block,
}

// The library's desk for a subject holds plain data and atomic counts, which it proves of its own handle; no call keeps
// anything of the thread that made it. It is not `Sync`, since a call through `&self` may not overlap another.
unsafe impl Send for Subject {}

/// What can be counted of a subject.
#[derive(Clone, Copy, Debug, PartialEq, Eq, Hash)]
pub struct Counts {
    /// How many observers are held.
    pub observers: u32,
    /// How many joins were accepted: the number of the next observer.
    pub joins: u32,
    /// How many notes were given and not taken yet.
    pub given: usize,
    /// How many events were refused for want of memory.
    pub misses: u64,
}

impl Subject {
    /// A subject by these rules.
    ///
    /// # Errors
    ///
    /// In this order: `TooLong`, `HasLf` of a seed, `BadCount`, `BadAge`, `BadLimits`, `Memory`; but a count or an age of 0
    /// goes first.
    pub fn open(rules: &Rules) -> Result<Subject, Error> {
        let asked = rules.to_raw()?;
        let seed = rules.seed();
        let mut raw = raw::Subject::EMPTY;
        let number = unsafe { raw::hazoxe_proved_open(&mut raw, &asked, seed.as_ptr(), seed.len()) };
        Error::check(number)?;
        Ok(Subject { raw: UnsafeCell::new(raw), block: Block::default() })
    }

    /// A producer emits an item of this text, by a port, at a moment.
    ///
    /// # Errors
    ///
    /// In this order: `TooLong`, `HasLf`, `Memory` for the text, `Ended`, `Spent`, `Memory`. The subject stays as it was.
    #[inline]
    pub fn next(&mut self, port: u32, at: u64, text: impl AsRef<[u8]>) -> Result<(), Error> {
        let text = text.as_ref();
        Error::check(unsafe { raw::hazoxe_proved_next(self.raw.get(), port, at, text.as_ptr(), text.len()) })
    }

    /// A producer completes the subject.
    ///
    /// # Errors
    ///
    /// `Ended`, `Memory`. The subject stays as it was.
    pub fn complete(&mut self, port: u32, at: u64) -> Result<(), Error> {
        Error::check(unsafe { raw::hazoxe_proved_complete(self.raw.get(), port, at) })
    }

    /// A producer ends the subject by an error of this text.
    ///
    /// # Errors
    ///
    /// In this order: `TooLong`, `HasLf`, `Memory` for the text, `Ended`, `Memory`. The subject stays as it was.
    pub fn fail(&mut self, port: u32, at: u64, text: impl AsRef<[u8]>) -> Result<(), Error> {
        let text = text.as_ref();
        Error::check(unsafe { raw::hazoxe_proved_error(self.raw.get(), port, at, text.as_ptr(), text.len()) })
    }

    /// An observer joins at a moment, with a request of `first` items, 0 or more. Its number: from 0, in the order of joining.
    ///
    /// # Errors
    ///
    /// `BadRoom`, `Full`, `Spent`, `Memory`. The subject stays as it was.
    pub fn join(&mut self, policy: Policy, first: u32, at: u64) -> Result<u32, Error> {
        let (strategy, room, errors) = policy.numbers();
        let mut who = 0;
        Error::check(unsafe {
            raw::hazoxe_proved_join(self.raw.get(), strategy, room, errors, first, at, &mut who)
        })?;
        Ok(who)
    }

    /// An observer requests `n` items more.
    ///
    /// # Errors
    ///
    /// `ZeroRequest`, `NoObserver`, `TooMuch`, `Memory`. The subject stays as it was.
    pub fn request(&mut self, who: u32, n: u32) -> Result<(), Error> {
        Error::check(unsafe { raw::hazoxe_proved_request(self.raw.get(), who, n) })
    }

    /// An observer leaves, with what waits for it. What it was given can still be taken.
    ///
    /// # Errors
    ///
    /// `NoObserver`.
    pub fn dispose(&mut self, who: u32) -> Result<(), Error> {
        Error::check(unsafe { raw::hazoxe_proved_dispose(self.raw.get(), who) })
    }

    /// The notes that were given and not taken yet, in their order. Each that the iterator yields is taken, and the others
    /// wait on.
    ///
    /// All of them go at once from the library to memory of the subject's own, where they are read in place, so it may be that
    /// a budget has more bytes left after this call, though nothing was yielded yet.
    ///
    /// ```
    /// use hazoxe::{Errors, Kind, Policy, Rules, Strategy, Subject};
    /// # fn main() -> Result<(), hazoxe::Error> {
    /// let mut subject = Subject::open(&Rules::of(Kind::Publish))?;
    /// subject.join(Policy { strategy: Strategy::Buffer, errors: Errors::Delay }, u32::MAX, 0)?;
    /// let texts: Vec<String> = (0..400).map(|n| n.to_string().repeat(1 + n % 300)).collect();
    /// let mut taken = Vec::new();
    /// for part in texts.chunks(40) {
    ///     for text in part {
    ///         subject.next(0, 0, text)?;
    ///     }
    ///     taken.extend(subject.given().take(7).map(|note| note.text().to_vec())); // the others wait on
    /// }
    /// assert_eq!(subject.counts().given, 400 - 10 * 7);
    /// while let Some(note) = subject.given().nth(0) {
    ///     taken.push(note.text().to_vec());
    /// }
    /// assert_eq!(taken, texts.iter().map(|text| text.as_bytes().to_vec()).collect::<Vec<_>>());
    /// # Ok(())
    /// # }
    /// ```
    pub fn given(&mut self) -> Given<'_> {
        self.block.fill(self.raw.get_mut());
        self.block.given()
    }

    /// How many notes wait for an observer to request them, the terminal included.
    ///
    /// # Errors
    ///
    /// `NoObserver`.
    pub fn waiting(&self, who: u32) -> Result<usize, Error> {
        let mut count = 0;
        Error::check(unsafe { raw::hazoxe_proved_waiting(self.raw.get(), who, &mut count) })?;
        Ok(count)
    }

    /// What can be counted of it.
    pub fn counts(&self) -> Counts {
        let mut counts = raw::Counts::default();
        let number = unsafe { raw::hazoxe_proved_count(self.raw.get(), &mut counts) };
        debug_assert_eq!(number, raw::OK);
        let raw::Counts { observers, joins, given, misses } = counts;
        Counts { observers, joins, given: given + self.block.len(), misses }
    }
}

impl Drop for Subject {
    fn drop(&mut self) {
        unsafe { raw::hazoxe_proved_close(self.raw.get()) };
    }
}

// A subject of another layout than the header's would be no subject.
const _: () = assert!(mem::size_of::<raw::Subject>() == 16 && mem::size_of::<raw::Rules>() == 40);
