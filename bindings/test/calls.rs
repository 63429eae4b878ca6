//! What the scripts do not show of the Rust crate: ports, budgets, counts, many notes at once, what is given back, callbacks, and
//! sentences, which alone it prints with the word `sentences`.

use hazoxe::{Dispatcher, Error, Errors, Kind, Policy, Rules, Signal, Strategy, Subject};
use std::alloc::{GlobalAlloc, Layout, System};
use std::cell::RefCell;
use std::num::NonZeroU64;
use std::sync::atomic::{AtomicUsize, Ordering::SeqCst};

/// Counts what the crate's own lists take.
struct Counting;

static TAKEN: AtomicUsize = AtomicUsize::new(0);

unsafe impl GlobalAlloc for Counting {
    unsafe fn alloc(&self, layout: Layout) -> *mut u8 {
        TAKEN.fetch_add(layout.size(), SeqCst);
        System.alloc(layout)
    }

    unsafe fn dealloc(&self, at: *mut u8, layout: Layout) {
        TAKEN.fetch_sub(layout.size(), SeqCst);
        System.dealloc(at, layout)
    }
}

#[global_allocator]
static COUNTING: Counting = Counting;

const BUFFER: Policy = Policy { strategy: Strategy::Buffer, errors: Errors::Delay };

fn of(kind: Kind) -> Subject {
    Subject::open(&Rules::of(kind)).unwrap()
}

fn ports_and_seeds() {
    let mut subject = of(Kind::Behavior(Some(Vec::new())));
    subject.join(BUFFER, u32::MAX, 0).unwrap();
    subject.next(7, 0, b"a\0b").unwrap();
    subject.fail(9, 0, b"over\0").unwrap();
    let told: Vec<String> = subject.given().map(|note| format!("{note:?} {}", note.is_seed())).collect();
    let seed = r#"Note { observer: 0, signal: Next { port: 4294967295, place: 4294967295, text: b"" } } true"#;
    let item = r#"Note { observer: 0, signal: Next { port: 7, place: 0, text: b"a\x00b" } } false"#;
    let end = r#"Note { observer: 0, signal: Failed(b"over\x00") } false"#;
    assert_eq!(told, [seed, item, end]);
}

fn budget_is_kept() {
    let rules = Rules { observers: 1, budget: NonZeroU64::new(100_000), ..Rules::of(Kind::Publish) };
    let mut subject = Subject::open(&rules).unwrap();
    let who = subject.join(BUFFER, 0, 0).unwrap();
    let refused = (0..1_000).find_map(|_| subject.next(0, 0, [b'a'; 1024]).err());
    assert_eq!(refused, Some(Error::Memory));
    let waits = subject.waiting(who).unwrap();
    assert!(20 < waits && waits < 100, "{waits} wait");
    let little = Rules { budget: NonZeroU64::new(1), ..rules };
    assert_eq!(Subject::open(&little).err(), Some(Error::Memory));
}

fn counts_and_waiting() {
    let mut subject = of(Kind::Publish);
    for first in [2, 0, 0] {
        subject.join(BUFFER, first, 0).unwrap();
    }
    subject.dispose(2).unwrap();
    for text in ["a", "b", "c"] {
        subject.next(0, 0, text).unwrap();
    }
    assert_eq!([0, 1].map(|who| subject.waiting(who)), [Ok(1), Ok(3)]);
    assert_eq!(subject.waiting(2), Err(Error::NoObserver));
    let told = |subject: &Subject| format!("{:?}", subject.counts());
    assert_eq!(told(&subject), "Counts { observers: 2, joins: 3, given: 2, misses: 0 }");
    assert_eq!(subject.given().next().unwrap().text(), b"a");
    assert_eq!(told(&subject), "Counts { observers: 2, joins: 3, given: 1, misses: 0 }");
}

/// All that were given come by one call, however many they are and however long.
fn many_notes_come_at_once() {
    for (many, length) in [(64, 0), (65, 0), (66, 1), (200, 9), (1_000, 0), (3, 1_024), (200, 1_024), (65, 31), (64, 33)] {
        let mut subject = of(Kind::Publish);
        subject.join(BUFFER, u32::MAX, 0).unwrap();
        for round in 0..2 {
            (0..many).for_each(|_| subject.next(0, 0, vec![b'a'; length]).unwrap());
            assert_eq!(subject.given().count(), many, "of {length} bytes, round {round}");
        }
    }
}

/// What was yielded is given back while others are left, and nearly all once none is.
fn what_was_yielded_is_given_back() {
    let before = TAKEN.load(SeqCst);
    let mut subject = of(Kind::Publish);
    subject.join(BUFFER, u32::MAX, 0).unwrap();
    let most = (0..200)
        .map(|round| {
            (0..50).for_each(|_| subject.next(0, 0, [b'a'; 1_000]).unwrap());
            let many = if round == 0 { 7 } else { 50 }; // 43 are left each time
            assert_eq!(subject.given().take(many).count(), many);
            TAKEN.load(SeqCst) - before
        })
        .max();
    assert!(most < Some(600_000), "{most:?} bytes for at most 93 notes"); // 10,000,000 bytes were told
    assert_eq!(subject.given().count(), 43);
    assert_eq!(subject.given().count(), 0);
    (0..5_000).for_each(|_| subject.next(0, 0, [b'a'; 1_000]).unwrap());
    assert_eq!(subject.given().count(), 5_000);
    assert_eq!(subject.given().count(), 0);
    assert!(TAKEN.load(SeqCst) - before < 100_000);
    drop(subject);
    assert_eq!(TAKEN.load(SeqCst), before);
}

fn each_note_goes_to_its_observer() {
    let heard = RefCell::new([const { String::new() }; 2]);
    let hears = |place: usize| {
        let heard = &heard;
        move |signal: Signal<'_>| heard.borrow_mut()[place] += &format!("{} ", String::from_utf8_lossy(text_of(signal)))
    };
    let mut subject = Dispatcher::new(of(Kind::Publish));
    subject.subscribe(BUFFER, u32::MAX, 0, hears(0)).unwrap();
    subject.subscribe(BUFFER, 1, 0, hears(1)).unwrap();
    subject.next(0, 0, "a").unwrap();
    subject.next(0, 0, "b").unwrap();
    assert_eq!(subject.dispatch(), Ok(()));
    subject.dispose(0).unwrap();
    let alone = subject.join(BUFFER, 1, 0).unwrap();
    subject.next(0, 0, "c").unwrap();
    subject.request(1, 9).unwrap();
    assert_eq!(subject.dispatch(), Err(Error::NoObserver)); // of the one that has no callback
    assert_eq!(*heard.borrow(), ["a b ", "a "]);
    assert_eq!(subject.given().next().map(|note| (note.observer(), note.text())), Some((alone, &b"c"[..])));
    assert_eq!(subject.dispatch(), Ok(()));
    subject.dispose(alone).unwrap();
    assert_eq!(subject.dispatch(), Ok(())); // the first has left, and its callback with it
    subject.next(0, 0, "d").unwrap();
    assert_eq!(subject.dispatch(), Ok(()));
    assert_eq!(*heard.borrow(), ["a b ", "a b c d "]);
    subject.complete(0, 0).unwrap();
    assert_eq!(subject.into_subject().given().count(), 1);
}

fn text_of(signal: Signal<'_>) -> &[u8] {
    match signal {
        Signal::Next { text, .. } | Signal::Failed(text) => text,
        Signal::Completed => b"done",
    }
}

fn print_sentences() {
    use Error::*;
    let all = [Ended, Full, Spent, ZeroRequest, NoObserver, TooMuch, Memory, BadCount, BadAge, BadLimits, TooLong, HasLf, BadRoom];
    for error in all {
        println!("{error}");
    }
}

fn main() {
    if std::env::args().nth(1).as_deref() == Some("sentences") {
        return print_sentences();
    }
    ports_and_seeds();
    budget_is_kept();
    counts_and_waiting();
    many_notes_come_at_once();
    what_was_yielded_is_given_back();
    each_note_goes_to_its_observer();
}
