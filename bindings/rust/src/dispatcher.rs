use crate::error::Error;
use crate::note::Signal;
use crate::policy::Policy;
use crate::subject::Subject;
use std::collections::HashMap;
use std::ops::{Deref, DerefMut};

type Callback<'f> = Box<dyn FnMut(Signal<'_>) + 'f>;

/// A subject whose observers each have a callback. A loop over [`Subject::given`] that looks for the notes of one observer takes
/// those of all the others as well; here each note goes to whom it was given.
///
/// It is used as the subject that it holds, and beside that has [`subscribe`](Dispatcher::subscribe) and
/// [`dispatch`](Dispatcher::dispatch).
///
/// ```
/// use hazoxe::{Dispatcher, Errors, Kind, Policy, Rules, Signal, Strategy, Subject};
/// use std::cell::RefCell;
/// # fn main() -> Result<(), hazoxe::Error> {
/// let (log, last) = (RefCell::new(Vec::new()), RefCell::new(None));
/// let mut subject = Dispatcher::new(Subject::open(&Rules::of(Kind::Publish))?);
/// let of = |strategy| Policy { strategy, errors: Errors::Delay };
/// subject.subscribe(of(Strategy::Buffer), u32::MAX, 0, |signal| log.borrow_mut().push(format!("{signal:?}")))?;
/// let who = subject.subscribe(of(Strategy::Latest(1)), 0, 0, |signal| *last.borrow_mut() = Some(format!("{signal:?}")))?;
/// subject.next(0, 0, "a")?;
/// subject.next(0, 0, "b")?;
/// subject.request(who, 1)?;
/// subject.dispatch()?;
/// assert_eq!(*log.borrow(), [r#"Next { port: 0, place: 0, text: b"a" }"#, r#"Next { port: 0, place: 1, text: b"b" }"#]);
/// assert_eq!(last.borrow().as_deref(), Some(r#"Next { port: 0, place: 1, text: b"b" }"#));
/// # Ok(())
/// # }
/// ```
pub struct Dispatcher<'f> {
    subject: Subject,
    callbacks: HashMap<u32, Callback<'f>>,
}

impl<'f> Dispatcher<'f> {
    /// A dispatcher of this subject.
    pub fn new(subject: Subject) -> Dispatcher<'f> {
        Dispatcher { subject, callbacks: HashMap::new() }
    }

    /// An observer joins as by [`Subject::join`], and what it is given goes to this callback. Its number.
    ///
    /// # Errors
    ///
    /// Those of `join`. The subject stays as it was.
    pub fn subscribe(
        &mut self,
        policy: Policy,
        first: u32,
        at: u64,
        callback: impl FnMut(Signal<'_>) + 'f,
    ) -> Result<u32, Error> {
        let who = self.subject.join(policy, first, at)?;
        self.callbacks.insert(who, Box::new(callback));
        Ok(who)
    }

    /// Takes the notes that were given, in their order, and hands each to the callback of its observer.
    ///
    /// # Errors
    ///
    /// `NoObserver` at a note of an observer that joined without a callback. It waits on, with those behind it.
    pub fn dispatch(&mut self) -> Result<(), Error> {
        let mut given = self.subject.given();
        while let Some(who) = given.next_observer() {
            let callback = self.callbacks.get_mut(&who).ok_or(Error::NoObserver)?;
            given.next().into_iter().for_each(|note| callback(note.signal()));
        }
        self.forget_who_left();
        Ok(())
    }

    /// Lets go of the callbacks of observers that are held no more, and were given all.
    fn forget_who_left(&mut self) {
        let subject = &self.subject;
        if self.callbacks.len() > subject.counts().observers as usize {
            self.callbacks.retain(|who, _| subject.waiting(*who).is_ok());
        }
    }

    /// The subject alone, without the callbacks.
    pub fn into_subject(self) -> Subject {
        self.subject
    }
}

impl Deref for Dispatcher<'_> {
    type Target = Subject;

    fn deref(&self) -> &Subject {
        &self.subject
    }
}

impl DerefMut for Dispatcher<'_> {
    fn deref_mut(&mut self) -> &mut Subject {
        &mut self.subject
    }
}
