use crate::error::Error;
use crate::lines::said;
use crate::note::{Item, Missed, Note};
use crate::policy::Strategy;
use crate::position::Position;
use std::collections::VecDeque;

/// Makes notes of lines, so that each item is told once, and a gap or another server is told too. They wait until they are taken,
/// and the position is that of the last one that was.
pub(crate) struct Progress {
    position: Option<Position>,
    notes: VecDeque<Note>,
    epoch: Option<String>,
    /// The place that is to come next; `None` before the first item, for who comes anew wants what there is.
    next: Option<u32>,
    may_overflow: bool,
    /// Whether it was offered an item by the connection by which it joined last.
    is_offered: bool,
    heard_seed: bool,
    /// Whether it heard something new since the last overflow.
    heard_more: bool,
    pub(crate) is_over: bool,
    pub(crate) comes_again: bool,
}

/// The place behind this one.
fn behind(place: Option<u32>) -> u32 {
    place.map_or(0, |place| place.saturating_add(1))
}

impl Progress {
    pub(crate) fn new(since: Option<Position>, strategy: Strategy) -> Progress {
        Progress {
            epoch: since.as_ref().map(|since| since.epoch.clone()),
            next: since.as_ref().map(|since| behind(since.place)),
            position: since,
            notes: VecDeque::new(),
            may_overflow: matches!(strategy, Strategy::Bounded(_)),
            is_offered: false,
            heard_seed: false,
            heard_more: true,
            is_over: false,
            comes_again: false,
        }
    }

    pub(crate) fn position(&self) -> Option<&Position> {
        self.position.as_ref()
    }

    /// The first note that waits.
    pub(crate) fn take(&mut self) -> Option<Note> {
        let note = self.notes.pop_front()?;
        let place = match &note {
            Note::Item(Item { place: Some(place), .. }) => Some(Some(*place)),
            Note::Missed(Missed { last: Some(last), .. }) => Some(Some(*last)),
            Note::Restarted(_) => Some(None),
            _ => None,
        };
        if let (Some(place), Some(epoch)) = (place, &self.epoch) {
            self.position = Some(Position { epoch: epoch.clone(), place });
        }
        Some(note)
    }

    /// It has joined at the server of this epoch, and what was told before is taken.
    pub(crate) fn joined(&mut self, epoch: String) {
        self.comes_again = false;
        self.is_offered = false;
        let anew = Position { epoch: epoch.clone(), place: None };
        match self.epoch.replace(epoch) {
            None => self.position = Some(anew),
            Some(before) if before == anew.epoch => self.next = Some(self.next.unwrap_or(0)),
            Some(before) => {
                let last = self.position.clone().unwrap_or(Position { epoch: before, place: None });
                self.notes.push_back(Note::Restarted(last));
                self.next = Some(0);
                self.heard_seed = false;
            }
        }
    }

    /// A line was told at the server where it joined last.
    pub(crate) fn hear(&mut self, line: &[u8]) -> Result<(), Error> {
        let mut words = line.splitn(2, |byte| *byte == b' ');
        match (words.next(), words.next()) {
            (Some(b"NEXT"), Some(rest)) => self.hear_item(rest).ok_or_else(|| Error::Protocol(said(line)))?,
            (Some(b"DONE"), None) => self.end(Note::Completed),
            // Twice with nothing new in between it is the subject's own error, or no room will ever do.
            (Some(b"FAILED"), Some(b"OVERFLOW")) if self.may_overflow && self.heard_more => {
                self.heard_more = false;
                self.comes_again = true;
                self.notes.push_back(Note::Overflow);
            }
            (Some(b"FAILED"), Some(text)) => self.end(Note::Failed(text.to_vec())),
            _ => return Err(Error::Protocol(said(line))),
        }
        Ok(())
    }

    fn end(&mut self, note: Note) {
        if let (Some(first), false) = (self.next, self.is_offered) {
            self.notes.push_back(Note::Missed(Missed { first, last: None }));
        }
        self.is_over = true;
        self.notes.push_back(note);
    }

    /// `None` where it is no item.
    fn hear_item(&mut self, rest: &[u8]) -> Option<()> {
        let mut words = rest.splitn(3, |byte| *byte == b' ');
        let (place, port, text) = (words.next()?, words.next()?, words.next()?.to_vec());
        self.is_offered = true;
        if place == b"-" && port == b"-" {
            if !self.heard_seed {
                self.heard_seed = true;
                self.notes.push_back(Note::Item(Item { text, place: None, port: None }));
            }
            return Some(());
        }
        let (place, port) = (number(place)?, number(port)?);
        self.hear_place(place, Item { text, place: Some(place), port: Some(port) });
        Some(())
    }

    fn hear_place(&mut self, place: u32, item: Item) {
        let awaited = self.next.unwrap_or(place);
        if place < awaited {
            return;
        }
        if place > awaited {
            self.notes.push_back(Note::Missed(Missed { first: awaited, last: Some(place - 1) }));
        }
        self.notes.push_back(Note::Item(item));
        self.next = Some(behind(Some(place)));
        self.heard_more = true;
    }
}

fn number(word: &[u8]) -> Option<u32> {
    std::str::from_utf8(word).ok()?.parse().ok()
}
