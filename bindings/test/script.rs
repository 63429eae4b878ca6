//! Runs a script of one subject over the library, and prints what `rxline script` prints for it in the second version of notes.
//! The words of the command line are the subject: KIND COUNT AGE OBSERVERS JOINS ITEMS, and the seed where it has one.

use hazoxe::{Error, Errors, Kind, Note, Policy, Rules, Signal, Strategy, Subject};
use std::env;
use std::io::{self, BufRead, BufWriter, Write};

fn rules_of(words: &[String]) -> Rules {
    let number = |place: usize| words[place].parse::<u64>().unwrap();
    let or_none = |n: u64| if n == 0 { None } else { Some(n) };
    let seed = words.get(6).map(|seed| seed.clone().into_bytes());
    let kind = match number(0) {
        0 => Kind::Publish,
        1 | 2 => Kind::Behavior(seed),
        3 => Kind::Async,
        _ => Kind::Replay { count: or_none(number(1)).map(|n| n as u16), age: or_none(number(2)) },
    };
    Rules { observers: number(3) as u32, joins: number(4) as u32, items: number(5) as u32, ..Rules::of(kind) }
}

fn policy_of(strategy: &str, errors: &str) -> Policy {
    let (name, room) = strategy.split_once(':').unwrap_or((strategy, "0"));
    let room = room.parse().unwrap();
    let strategy = match name {
        "BUFFER" => Strategy::Buffer,
        "DROP" => Strategy::Drop(room),
        "LATEST" => Strategy::Latest(room),
        _ => Strategy::Bounded(room),
    };
    Policy { strategy, errors: if errors == "AHEAD" { Errors::Ahead } else { Errors::Delay } }
}

fn number(word: Option<&str>) -> u32 {
    word.unwrap().parse().unwrap()
}

/// Carries out one line. The number of an observer that it made.
fn carry_out(subject: &mut Subject, at: &mut u64, line: &str) -> Result<Option<u32>, Error> {
    let text = line.splitn(3, ' ').nth(2).unwrap_or("");
    let mut words = line.split(' ');
    match words.next().unwrap() {
        "PUB" => subject.next(0, *at, text)?,
        "FAIL" => subject.fail(0, *at, text)?,
        "END" => subject.complete(0, *at)?,
        "REQUEST" => subject.request(number(words.nth(1)), number(words.next()))?,
        "DISPOSE" => subject.dispose(number(words.nth(1)))?,
        "AT" => *at = words.next().unwrap().parse().unwrap(),
        "JOIN" => {
            let policy = policy_of(words.nth(1).unwrap(), words.next().unwrap());
            return subject.join(policy, number(words.next()), *at).map(Some);
        }
        _ => {}
    }
    Ok(None)
}

fn word_of(error: Error) -> &'static str {
    match error {
        Error::Ended => "ENDED",
        Error::Full => "FULL",
        Error::Spent => "SPENT",
        Error::ZeroRequest => "ZERO",
        Error::NoObserver => "OBSERVER",
        Error::TooMuch => "TOOMUCH",
        Error::Memory => "MEMORY",
        Error::TooLong => "LONG",
        _ => "SYNTAX",
    }
}

fn print(out: &mut impl Write, note: Note<'_>) -> io::Result<()> {
    write!(out, "s {} ", note.observer())?;
    match note.signal() {
        Signal::Next { .. } if note.is_seed() => out.write_all(b"NEXT - - ")?,
        Signal::Next { port, place, .. } => write!(out, "NEXT {place} {port} ")?,
        Signal::Completed => out.write_all(b"DONE")?,
        Signal::Failed(_) => out.write_all(b"FAILED ")?,
    }
    out.write_all(note.text())?;
    out.write_all(b"\n")
}

fn main() -> io::Result<()> {
    let words: Vec<String> = env::args().skip(1).collect();
    let mut subject = Subject::open(&rules_of(&words)).unwrap();
    let mut at = 0;
    let mut out = BufWriter::new(io::stdout().lock());
    for line in io::stdin().lock().lines() {
        match carry_out(&mut subject, &mut at, &line?) {
            Ok(None) => writeln!(out, "OK")?,
            Ok(Some(who)) => writeln!(out, "OK {who}")?,
            Err(error) => writeln!(out, "ERR {}", word_of(error))?,
        }
        for note in subject.given() {
            print(&mut out, note)?;
        }
    }
    out.flush()
}
