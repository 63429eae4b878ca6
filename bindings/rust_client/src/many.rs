use crate::error::{Error, Refusal};
use crate::lines::check;
use std::collections::VecDeque;
use std::error;
use std::fmt;
use std::ops::Range;

/// Of many texts some were not accepted. The numbers are places in what was handed in, from 0. Those from `unanswered.end` on were
/// not sent.
#[derive(Debug)]
pub struct NotAllPublished {
    /// How many were accepted.
    pub accepted: usize,
    /// Those that were refused, and why.
    pub refused: Vec<(usize, Refusal)>,
    /// Those that were sent, and whose answers never came: they may have been emitted, or not.
    pub unanswered: Range<usize>,
    /// What came between: the first refusal, a text that is none, or how the connection was lost.
    pub cause: Error,
}

impl fmt::Display for NotAllPublished {
    fn fmt(&self, f: &mut fmt::Formatter<'_>) -> fmt::Result {
        let (refused, unanswered) = (self.refused.len(), self.unanswered.len());
        write!(f, "{} accepted, {refused} refused, {unanswered} unanswered: {}", self.accepted, self.cause)
    }
}

impl error::Error for NotAllPublished {
    fn source(&self) -> Option<&(dyn error::Error + 'static)> {
        Some(&self.cause)
    }
}

/// The lines of `publish_many`, of which some are on their way at a time. No more are sent once one was refused, or one could not
/// be made.
pub(crate) struct Batch<I> {
    lines: I,
    window: usize,
    /// What goes before the others.
    again: VecDeque<Vec<u8>>,
    unanswered: VecDeque<Vec<u8>>,
    answered: usize,
    sent: usize,
    refused: Vec<(usize, Refusal)>,
    cause: Option<Error>,
}

impl<I: Iterator<Item = Result<Vec<u8>, Error>>> Batch<I> {
    pub(crate) fn new(lines: I, window: usize) -> Batch<I> {
        Batch {
            lines,
            window: window.max(1),
            again: VecDeque::new(),
            unanswered: VecDeque::new(),
            answered: 0,
            sent: 0,
            refused: Vec::new(),
            cause: None,
        }
    }

    /// The lines to send now: none while more than half a window waits for answers.
    pub(crate) fn more(&mut self) -> Vec<u8> {
        let mut sent = Vec::new();
        if self.unanswered.len() > self.window / 2 {
            return sent;
        }
        while self.unanswered.len() < self.window {
            match self.next_line() {
                Some(line) => {
                    sent.extend_from_slice(&line);
                    self.unanswered.push_back(line);
                }
                None => break,
            }
        }
        self.sent = self.sent.max(self.answered + self.unanswered.len());
        sent
    }

    fn next_line(&mut self) -> Option<Vec<u8>> {
        if let Some(line) = self.again.pop_front() {
            return Some(line);
        }
        if self.cause.is_some() {
            return None;
        }
        match self.lines.next()? {
            Ok(line) => Some(line),
            Err(fault) => {
                self.stop(fault);
                None
            }
        }
    }

    /// Whether an answer is to come.
    pub(crate) fn waits(&self) -> bool {
        !self.unanswered.is_empty()
    }

    /// Takes the answer to the oldest line that has none.
    pub(crate) fn answer(&mut self, answer: &[u8]) -> Result<(), Error> {
        match check(answer) {
            Ok(()) => {}
            Err(Error::Refused(refusal)) => {
                self.refused.push((self.answered, refusal.clone()));
                self.stop(Error::Refused(refusal));
            }
            Err(fault) => return Err(fault),
        }
        self.unanswered.pop_front();
        self.answered += 1;
        Ok(())
    }

    /// Sends no more, for this cause, unless there was one before.
    pub(crate) fn stop(&mut self, fault: Error) {
        self.cause.get_or_insert(fault);
        self.again.clear();
    }

    /// The connection is another one: what has no answer is to be sent once more.
    pub(crate) fn send_again(&mut self) {
        self.unanswered.append(&mut self.again);
        std::mem::swap(&mut self.unanswered, &mut self.again);
    }

    /// How many were accepted, where all were.
    pub(crate) fn outcome(self) -> Result<usize, NotAllPublished> {
        let accepted = self.answered - self.refused.len();
        match self.cause {
            None => Ok(accepted),
            Some(cause) => Err(NotAllPublished { accepted, refused: self.refused, unanswered: self.answered..self.sent, cause }),
        }
    }
}
