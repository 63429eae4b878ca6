//! What `client.py` does, by the crate.

use rxline::{Client, Error, NotAllPublished, Note, Options, Strategy, Subscribe};
use std::env;
use std::io::{self, Read, Write};
use std::sync::Mutex;
use std::thread;
use std::time::Duration;

fn strategy_of(word: &str) -> Strategy {
    let (name, room) = word.split_once(':').unwrap_or((word, "0"));
    let room = room.parse().unwrap();
    match name {
        "BUFFER" => Strategy::Buffer,
        "DROP" => Strategy::Drop(room),
        "LATEST" => Strategy::Latest(room),
        "BOUNDED" => Strategy::Bounded(room),
        _ => panic!("{word}"),
    }
}

fn tell(words: &[u8]) {
    let mut out = io::stdout().lock();
    out.write_all(words).and_then(|()| out.write_all(b"\n")).and_then(|()| out.flush()).unwrap();
}

fn words_of(note: Note) -> Vec<u8> {
    match note {
        Note::Item(item) => match item.place {
            Some(place) => [format!("item {place} ").as_bytes(), &item.text].concat(),
            None => [b"seed ", item.text.as_slice()].concat(),
        },
        Note::Missed(missed) => {
            let last = missed.last.map_or("-".to_owned(), |last| last.to_string());
            format!("missed {} {last}", missed.first).into_bytes()
        }
        Note::Restarted(last) => format!("restarted {last}").into_bytes(),
        Note::Overflow => b"overflow".to_vec(),
        Note::Completed => b"completed".to_vec(),
        Note::Failed(text) => [b"failed ", text.as_slice()].concat(),
    }
}

fn seconds(word: &str) -> Option<Duration> {
    (word != "-").then(|| Duration::from_secs_f64(word.parse().unwrap()))
}

fn follow(path: &str, subject: &str, strategy: &str, since: &str, epoch: &str, patience: &str) -> Result<(), Error> {
    let epoch_subject = (epoch != "-").then(|| epoch.to_owned());
    let client = Client::connect_with(path, Options { epoch_subject, patience: seconds(patience), ..Options::default() })?;
    let since = (since != "-").then(|| since.parse().unwrap());
    let mut notes =
        client.subscribe_with(subject, &Subscribe { strategy: strategy_of(strategy), since, ..Subscribe::default() })?;
    tell(b"joined");
    while let Some(note) = notes.next() {
        let words = words_of(note?);
        tell(&[notes.position().unwrap().to_string().as_bytes(), b" ", &words].concat());
    }
    Ok(())
}

fn published(first: usize, outcome: &NotAllPublished) -> usize {
    tell(format!("accepted {first} {}", first + outcome.accepted).as_bytes());
    tell(format!("unknown {} {}", first + outcome.unanswered.start, first + outcome.unanswered.end).as_bytes());
    thread::sleep(Duration::from_millis(10));
    first + outcome.unanswered.end
}

fn input() -> Vec<u8> {
    let mut came = Vec::new();
    io::stdin().read_to_end(&mut came).unwrap();
    came
}

fn texts(came: &[u8]) -> Vec<&[u8]> {
    came.strip_suffix(b"\n").unwrap().split(|byte| *byte == b'\n').collect()
}

fn publish(path: &str, subject: &str, way: &str) -> Result<(), Error> {
    let came = input();
    let texts = texts(&came);
    let mut client = Client::connect_with(path, Options { resend: way == "resend", ..Options::default() })?;
    let mut first = 0;
    while first < texts.len() {
        first = match client.publish_many(subject, &texts[first..]) {
            Ok(count) => {
                tell(format!("accepted {first} {}", first + count).as_bytes());
                first + count
            }
            Err(outcome) => published(first, &outcome),
        };
    }
    Ok(())
}

fn refused(path: &str, count: &str) -> Result<(), Error> {
    let mut client = Client::connect(path)?;
    for _ in 0..count.parse().unwrap() {
        match client.publish("s", "a") {
            Err(Error::Refused(refusal)) => tell(format!("{refusal:?} {refusal}").as_bytes()),
            other => panic!("{other:?}"),
        }
    }
    Ok(())
}

fn tell_kind<T>(done: Result<T, Error>) {
    if let Err(fault) = done {
        tell(kind_of(&fault).as_bytes());
    }
}

fn kind_of(fault: &Error) -> String {
    match fault {
        Error::Invalid(_) => "invalid".to_owned(),
        Error::NoServer(_) => "no server".to_owned(),
        Error::Lost(_) => "lost".to_owned(),
        Error::TimedOut => "timed out".to_owned(),
        Error::Refused(refusal) => format!("{refusal:?}"),
        other => format!("{other:?}"),
    }
}

fn misuse(path: &str) -> Result<(), Error> {
    let mut client = Client::connect(path)?;
    let (name, text) = ("x".repeat(33), "a".repeat(1025));
    for (subject, text) in [("s", "a\nb"), ("S", "a"), ("", "a"), ("s t", "a"), (&name, "a"), ("s", &text)] {
        tell_kind(client.publish(subject, text));
    }
    for room in ["DROP:1025", "LATEST:0", "LATEST:1025", "BOUNDED:1025"] {
        tell_kind(client.subscribe_with("s", &Subscribe { strategy: strategy_of(room), ..Subscribe::default() }));
    }
    tell_kind(Client::connect(format!("{path}.none")));
    Ok(())
}

fn waits(path: &str) -> Result<(), Error> {
    let timeout = Some(Duration::from_millis(100));
    let mut client = Client::connect_with(path, Options { timeout, ..Options::default() })?;
    tell_kind(client.ping());
    tell_kind(client.publish("s", "a"));
    if let Err(outcome) = client.publish_many("s", ["a", "b"]) {
        tell(format!("{} {} {}", outcome.accepted, outcome.unanswered.len(), kind_of(&outcome.cause)).as_bytes());
    }
    Ok(())
}

fn quiet(path: &str) -> Result<(), Error> {
    let mut client = Client::connect(path)?;
    let timeout = Some(Duration::from_millis(100));
    let mut notes = client.subscribe_with("p", &Subscribe { timeout, ..Subscribe::default() })?;
    tell_kind(notes.next().unwrap());
    client.publish("p", "a")?;
    notes.set_timeout(None);
    tell(&words_of(notes.next().unwrap()?));
    Ok(())
}

fn idle(path: &str, patience: &str) -> Result<(), Error> {
    let mut client = Client::connect_with(path, Options { patience: seconds(patience), ..Options::default() })?;
    let mut notes = client.subscribe("p")?;
    tell(b"joined");
    tell_kind(notes.next().unwrap());
    io::stdin().read_line(&mut String::new()).unwrap();
    client.ping()?;
    tell(b"pinged");
    io::stdin().read_line(&mut String::new()).unwrap();
    let count = client.publish_many("p", ["a", "b"]).map_err(|outcome| outcome.cause)?;
    tell(format!("published {count}").as_bytes());
    Ok(())
}

fn slow(path: &str) -> Result<(), Error> {
    let client = Client::connect_with(path, Options { patience: Some(Duration::ZERO), ..Options::default() })?;
    let notes = client.subscribe_with("p", &Subscribe { strategy: Strategy::Bounded(64), ..Subscribe::default() })?;
    tell(b"joined");
    io::stdin().read_line(&mut String::new()).unwrap();
    for note in notes {
        match note? {
            Note::Item(_) => {}
            other => tell(&words_of(other)),
        }
    }
    Ok(())
}

fn many(path: &str, subject: &str) -> Result<(), Error> {
    let came = input();
    match Client::connect(path)?.publish_many(subject, texts(&came)) {
        Ok(count) => tell(format!("accepted {count}").as_bytes()),
        Err(outcome) => {
            let refused: String = outcome.refused.iter().map(|(at, refusal)| format!(" {at}:{refusal:?}")).collect();
            let (accepted, unanswered, cause) = (outcome.accepted, outcome.unanswered.len(), kind_of(&outcome.cause));
            tell(format!("accepted {accepted} refused{refused} unanswered {unanswered} {cause}").as_bytes());
        }
    }
    Ok(())
}

fn shared(path: &str, count: &str) -> Result<(), Error> {
    let client = Client::connect(path)?;
    let (notes, count) = (client.subscribe("p")?, count.parse().unwrap());
    let client = Mutex::new(client);
    let heard = thread::scope(|scope| {
        for _ in 0..4 {
            scope.spawn(|| (0..count).for_each(|_| client.lock().unwrap().publish("p", "a").unwrap()));
        }
        notes.take(4 * count).filter(|note| matches!(note, Ok(Note::Item(item)) if item.text == b"a")).count()
    });
    tell(heard.to_string().as_bytes());
    tell(b"");
    Ok(())
}

fn main() -> Result<(), Error> {
    let words: Vec<String> = env::args().skip(1).collect();
    let words: Vec<&str> = words.iter().map(String::as_str).collect();
    match words[..] {
        ["follow", path, subject, strategy, since, epoch, patience] => follow(path, subject, strategy, since, epoch, patience),
        ["publish", path, subject, way] => publish(path, subject, way),
        ["end", path, subject] => Client::connect(path)?.complete(subject),
        ["fail", path, subject, text] => Client::connect(path)?.fail(subject, text),
        ["refused", path, count] => refused(path, count),
        ["misuse", path] => misuse(path),
        ["waits", path] => waits(path),
        ["quiet", path] => quiet(path),
        ["idle", path, patience] => idle(path, patience),
        ["slow", path] => slow(path),
        ["many", path, subject] => many(path, subject),
        ["shared", path, count] => shared(path, count),
        _ => panic!("{words:?}"),
    }
}
