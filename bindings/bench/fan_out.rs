//! One item after another to a number of observers that ask for all: by the crate, and by plain Rust of the same duty. The words
//! of the command line are `crate` or `plain`, the observers, and the items. What it prints is the same for both.

use std::collections::VecDeque;
use std::env;
use std::rc::Rc;

const TEXT: &[u8] = b"twelve bytes";

/// What was read off the notes, so that each is looked at.
#[derive(Default)]
struct Read {
    notes: u64,
    bytes: u64,
    places: u64,
}

impl Read {
    fn add(&mut self, place: u32, text: &[u8]) {
        self.notes += 1;
        self.bytes += u64::from(text[text.len() - 1]);
        self.places += u64::from(place);
    }
}

fn by_crate(observers: u32, items: u32) -> Read {
    use hazoxe::{Errors, Kind, Policy, Rules, Signal, Strategy, Subject};
    let mut subject = Subject::open(&Rules::of(Kind::Publish)).unwrap();
    for _ in 0..observers {
        subject.join(Policy { strategy: Strategy::Buffer, errors: Errors::Delay }, u32::MAX, 0).unwrap();
    }
    let mut read = Read::default();
    for _ in 0..items {
        subject.next(0, 0, TEXT).unwrap();
        for note in subject.given() {
            if let Signal::Next { place, text, .. } = note.signal() {
                read.add(place, text);
            }
        }
    }
    read
}

/// A hub as one would write it: each observer has a queue of what it did not ask for yet.
#[derive(Default)]
struct Plain {
    observers: Vec<Observer>,
    accepted: u32,
    given: Vec<(u32, Item)>,
}

struct Observer {
    who: u32,
    owed: u32,
    waiting: VecDeque<Item>,
}

#[derive(Clone)]
struct Item {
    port: u32,
    place: u32,
    text: Rc<[u8]>,
}

impl Plain {
    fn next(&mut self, port: u32, text: &[u8]) {
        let item = Item { port, place: self.accepted, text: text.into() };
        self.accepted += 1;
        for observer in &mut self.observers {
            if observer.owed > 0 {
                observer.owed -= 1;
                self.given.push((observer.who, item.clone()));
            } else {
                observer.waiting.push_back(item.clone());
            }
        }
    }
}

fn by_plain(observers: u32, items: u32) -> Read {
    let mut hub = Plain::default();
    hub.observers.extend((0..observers).map(|who| Observer { who, owed: u32::MAX, waiting: VecDeque::new() }));
    let mut read = Read::default();
    for _ in 0..items {
        hub.next(0, TEXT);
        for (_, item) in hub.given.drain(..) {
            assert_eq!(item.port, 0);
            read.add(item.place, &item.text);
        }
    }
    read
}

fn main() {
    let words: Vec<String> = env::args().skip(1).collect();
    let (observers, items) = (words[1].parse().unwrap(), words[2].parse().unwrap());
    let read = if words[0] == "crate" { by_crate(observers, items) } else { by_plain(observers, items) };
    println!("{} notes, {} {}", read.notes, read.bytes, read.places);
}
