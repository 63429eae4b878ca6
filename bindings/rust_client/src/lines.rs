//! The lines of a session: those that are sent, and what their answers say.

use crate::error::{Error, Refusal};
use crate::options::Subscribe;

const MAX_TEXT: usize = 1024;
const MAX_NAME: usize = 32;

pub(crate) const HELLO: &[u8] = b"HELLO 2\n";

fn check_subject(subject: &str) -> Result<(), Error> {
    let is_name = |byte: u8| matches!(byte, b'a'..=b'z' | b'0'..=b'9' | b'-');
    if (1..=MAX_NAME).contains(&subject.len()) && subject.bytes().all(is_name) {
        return Ok(());
    }
    Err(Error::Invalid("a subject has 1 to 32 of a to z, 0 to 9 and -"))
}

/// A line with a text. One CR before the LF is no part of a line, so a text that ends in CR is followed by one CR more.
fn line_with(word: &str, subject: &str, text: &[u8]) -> Result<Vec<u8>, Error> {
    check_subject(subject)?;
    if text.contains(&b'\n') {
        return Err(Error::Invalid("a text has no line feed"));
    }
    if text.len() > MAX_TEXT {
        return Err(Error::Refused(Refusal::TooLong));
    }
    let end: &[u8] = if text.ends_with(b"\r") { b"\r\n" } else { b"\n" };
    Ok([word.as_bytes(), b" ", subject.as_bytes(), b" ", text, end].concat())
}

pub(crate) fn publish(subject: &str, text: &[u8]) -> Result<Vec<u8>, Error> {
    line_with("PUB", subject, text)
}

pub(crate) fn complete(subject: &str) -> Result<Vec<u8>, Error> {
    check_subject(subject)?;
    Ok(format!("END {subject}\n").into_bytes())
}

pub(crate) fn fail(subject: &str, text: &[u8]) -> Result<Vec<u8>, Error> {
    line_with("FAIL", subject, text)
}

pub(crate) fn join(subject: &str, how: &Subscribe) -> Result<Vec<u8>, Error> {
    check_subject(subject)?;
    how.strategy.check()?;
    Ok(format!("SUB {subject} {} {}\n", how.strategy, how.errors).into_bytes())
}

pub(crate) fn said(line: &[u8]) -> String {
    String::from_utf8_lossy(line).into_owned()
}

/// What an answer that is not the one wanted says.
fn refused(answer: &[u8]) -> Error {
    match answer.strip_prefix(b"ERR ") {
        Some(word) if !word.is_empty() => Error::Refused(Refusal::of_word(&said(word))),
        _ => Error::Protocol(said(answer)),
    }
}

pub(crate) fn check(answer: &[u8]) -> Result<(), Error> {
    if answer == b"OK" {
        return Ok(());
    }
    Err(refused(answer))
}

pub(crate) fn check_joined(answer: &[u8]) -> Result<(), Error> {
    if answer.starts_with(b"JOINED ") {
        return Ok(());
    }
    Err(refused(answer))
}

/// The text of an item that tells the epoch of its server.
pub(crate) fn epoch_in(note: &[u8]) -> Result<String, Error> {
    let mut words = note.splitn(4, |byte| *byte == b' ');
    match (words.next(), words.nth(2)) {
        (Some(b"NEXT"), Some(text)) => Ok(said(text)),
        _ => Err(Error::Protocol(said(note))),
    }
}
