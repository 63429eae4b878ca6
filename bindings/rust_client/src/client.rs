use crate::backoff::Backoff;
use crate::connection::{after, Connection};
use crate::error::Error;
use crate::lines::{self, check, HELLO};
use crate::many::{Batch, NotAllPublished};
use crate::options::{Options, Subscribe};
use crate::subscription::Subscription;
use std::path::{Path, PathBuf};
use std::thread;

/// Emits by one connection of its own, which is made anew where it was lost, and follows subjects by one each.
pub struct Client {
    path: PathBuf,
    options: Options,
    connection: Option<Connection>,
}

impl Client {
    /// Connects to the server at this path; where it has no room for one more connection, once it has.
    ///
    /// # Errors
    ///
    /// `NoServer`.
    pub fn connect(path: impl AsRef<Path>) -> Result<Client, Error> {
        Client::connect_with(path, Options::default())
    }

    /// The same, by these options.
    ///
    /// # Errors
    ///
    /// `NoServer`.
    pub fn connect_with(path: impl AsRef<Path>, options: Options) -> Result<Client, Error> {
        let connection = Some(Connection::open(path.as_ref())?);
        Ok(Client { path: path.as_ref().to_owned(), options, connection })
    }

    /// Emits an item; once this returns the server has it.
    ///
    /// # Errors
    ///
    /// `Invalid`, `Refused` and `NoServer`: it was not emitted. `Lost`, `TimedOut`: it may have been, or not.
    pub fn publish(&mut self, subject: &str, text: impl AsRef<[u8]>) -> Result<(), Error> {
        self.ask(&lines::publish(subject, text.as_ref())?)
    }

    /// Emits these in their order, up to a window of them before the first is answered, and returns how many there were.
    ///
    /// # Errors
    ///
    /// [`NotAllPublished`], which tells of each what became of it: where one is refused no more are sent.
    pub fn publish_many<T: AsRef<[u8]>>(
        &mut self,
        subject: &str,
        texts: impl IntoIterator<Item = T>,
    ) -> Result<usize, NotAllPublished> {
        let lines = texts.into_iter().map(|text| lines::publish(subject, text.as_ref()));
        let mut batch = Batch::new(lines, self.options.window);
        let mut backoff = Backoff::new(self.options.patience);
        while let Err(fault) = self.exchange(&mut batch, &mut backoff) {
            self.connection = None;
            let may_resend = self.options.resend && self.options.reconnects() && fault.is_of_connection();
            match may_resend.then(|| backoff.pause()).flatten() {
                Some(pause) => thread::sleep(pause),
                None => {
                    batch.stop(fault);
                    break;
                }
            }
            batch.send_again();
        }
        batch.outcome()
    }

    fn exchange<I>(&mut self, batch: &mut Batch<I>, backoff: &mut Backoff) -> Result<(), Error>
    where
        I: Iterator<Item = Result<Vec<u8>, Error>>,
    {
        let timeout = self.options.timeout;
        let connection = self.connected()?;
        loop {
            let lines = batch.more();
            if !lines.is_empty() {
                connection.send(&lines, after(timeout))?;
            }
            if !batch.waits() {
                return Ok(());
            }
            batch.answer(&connection.line(after(timeout))?)?;
            backoff.reset();
        }
    }

    /// Completes the subject, for good.
    ///
    /// # Errors
    ///
    /// As [`Client::publish`].
    pub fn complete(&mut self, subject: &str) -> Result<(), Error> {
        self.ask(&lines::complete(subject)?)
    }

    /// Ends the subject by an error, for good.
    ///
    /// # Errors
    ///
    /// As [`Client::publish`].
    pub fn fail(&mut self, subject: &str, text: impl AsRef<[u8]>) -> Result<(), Error> {
        self.ask(&lines::fail(subject, text.as_ref())?)
    }

    /// Asks the server for an answer, and for nothing else.
    ///
    /// # Errors
    ///
    /// `NoServer`, `Lost`, `TimedOut`.
    pub fn ping(&mut self) -> Result<(), Error> {
        self.ask(HELLO)
    }

    /// Follows a subject, all its items from now on, by a connection of its own: once this returns it has joined.
    ///
    /// # Errors
    ///
    /// `Invalid`, `Refused`, `NoServer`, `Lost`, `TimedOut`.
    pub fn subscribe(&self, subject: &str) -> Result<Subscription, Error> {
        self.subscribe_with(subject, &Subscribe::default())
    }

    /// The same, by these rules.
    ///
    /// # Errors
    ///
    /// `Invalid`, `Refused`, `NoServer`, `Lost`, `TimedOut`.
    pub fn subscribe_with(&self, subject: &str, how: &Subscribe) -> Result<Subscription, Error> {
        Subscription::open(&self.path, &self.options, subject, how)
    }

    fn ask(&mut self, line: &[u8]) -> Result<(), Error> {
        let timeout = self.options.timeout;
        let answer = self.connected().and_then(|connection| {
            connection.send(line, after(timeout))?;
            connection.line(after(timeout))
        });
        if answer.is_err() {
            self.connection = None;
        }
        check(&answer?)
    }

    /// The connection, made anew where it is gone, for lines and all their answers.
    fn connected(&mut self) -> Result<&mut Connection, Error> {
        if self.connection.as_mut().map_or(false, Connection::is_cut) {
            self.connection = None;
        }
        match &mut self.connection {
            Some(connection) => Ok(connection),
            gone => Ok(gone.insert(Connection::open(&self.path)?)),
        }
    }
}
