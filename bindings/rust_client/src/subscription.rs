use crate::backoff::Backoff;
use crate::connection::{after, sooner, Connection, Ends};
use crate::error::Error;
use crate::lines::join;
use crate::note::Note;
use crate::options::{Options, Subscribe};
use crate::position::Position;
use crate::progress::Progress;
use std::path::{Path, PathBuf};
use std::thread;
use std::time::{Duration, Instant};

/// The notes of one subject, over connections that end and servers that begin anew.
///
/// It ends behind [`Note::Completed`] or [`Note::Failed`]. An error is told too: `TimedOut`, where no note came in time, after
/// which the next can be asked for again; `Lost` or `NoServer`, where it may not reconnect or has tried for as long as it may;
/// `Refused`, where the next server has no such subject, or can't take one more observer for good. Dropping it leaves the subject.
pub struct Subscription {
    path: PathBuf,
    line: Vec<u8>,
    options: Options,
    timeout: Option<Duration>,
    backoff: Backoff,
    progress: Progress,
    connection: Option<Connection>,
}

impl Subscription {
    pub(crate) fn open(path: &Path, options: &Options, subject: &str, how: &Subscribe) -> Result<Subscription, Error> {
        let mut subscription = Subscription {
            path: path.to_owned(),
            line: join(subject, how)?,
            options: options.clone(),
            timeout: how.timeout,
            backoff: Backoff::new(options.patience),
            progress: Progress::new(how.since.clone(), how.strategy),
            connection: None,
        };
        subscription.join(None)?;
        Ok(subscription)
    }

    /// How far it is, the last note that was handed out included. Who keeps it once the note is worked on, and hands it to
    /// [`Subscribe::since`], goes on behind it.
    pub fn position(&self) -> Option<&Position> {
        self.progress.position()
    }

    /// Says how long the next notes are waited for; `None` for ever.
    pub fn set_timeout(&mut self, timeout: Option<Duration>) {
        self.timeout = timeout;
    }

    fn take_or_hear(&mut self) -> Result<Option<Note>, Error> {
        let ends = after(self.timeout);
        loop {
            let note = self.progress.take();
            if note.is_some() || self.progress.is_over {
                return Ok(note);
            }
            self.hear_or_join(ends)?;
        }
    }

    /// Hears one line, or joins once more, or waits before the next try.
    fn hear_or_join(&mut self, ends: Ends) -> Result<(), Error> {
        let done = match &mut self.connection {
            None => self.join(ends),
            Some(connection) => match connection.line(ends) {
                Ok(line) => {
                    self.backoff.reset();
                    self.progress.hear(&line)
                }
                Err(Error::TimedOut) => return Err(Error::TimedOut),
                Err(fault) => Err(fault),
            },
        };
        if let Err(fault) = done {
            self.connection = None;
            self.wait(fault, ends)?;
        }
        if self.progress.is_over || self.progress.comes_again {
            self.connection = None;
            self.progress.is_over |= !self.options.reconnects();
        }
        Ok(())
    }

    fn join(&mut self, ends: Ends) -> Result<(), Error> {
        let ends = sooner(ends, after(self.options.timeout));
        let (connection, epoch) = Connection::joined(&self.path, &self.line, &self.options, ends)?;
        self.connection = Some(connection);
        self.progress.joined(epoch);
        Ok(())
    }

    /// Waits before the next try; the fault, where there is to be none.
    fn wait(&mut self, fault: Error, ends: Ends) -> Result<(), Error> {
        let may_come_again = self.options.reconnects() && fault.may_pass();
        let pause = may_come_again.then(|| self.backoff.pause()).flatten().ok_or(fault)?;
        let left = ends.map_or(pause, |ends| ends.saturating_duration_since(Instant::now()));
        thread::sleep(pause.min(left));
        if left < pause {
            return Err(Error::TimedOut);
        }
        Ok(())
    }
}

impl Iterator for Subscription {
    type Item = Result<Note, Error>;

    fn next(&mut self) -> Option<Result<Note, Error>> {
        self.take_or_hear().transpose()
    }
}
