use crate::error::Error;
use crate::lines::{check, check_joined, epoch_in, join, HELLO};
use crate::options::{Options, Subscribe};
use std::fs;
use std::io::{self, ErrorKind, Read, Write};
use std::os::unix::fs::MetadataExt;
use std::os::unix::net::UnixStream;
use std::path::Path;
use std::time::{Duration, Instant};

/// No line of a server has as many bytes.
const MAX_LINE: usize = 4096;
const PIECE: usize = 65_536;

/// The moment when waiting ends; `None` for never.
pub(crate) type Ends = Option<Instant>;

pub(crate) fn after(wait: Option<Duration>) -> Ends {
    wait.map(|wait| Instant::now() + wait)
}

/// The sooner of the two.
pub(crate) fn sooner(one: Ends, other: Ends) -> Ends {
    match (one, other) {
        (Some(one), Some(other)) => Some(one.min(other)),
        (one, other) => one.or(other),
    }
}

/// Lines both ways.
pub(crate) struct Connection {
    peer: UnixStream,
    came: Vec<u8>,
    /// Where the next line begins in what came.
    at: usize,
}

impl Connection {
    pub(crate) fn open(path: &Path) -> Result<Connection, Error> {
        let peer = UnixStream::connect(path).map_err(Error::NoServer)?;
        Ok(Connection { peer, came: Vec::new(), at: 0 })
    }

    /// Sends these. A fault may leave a front of them sent.
    pub(crate) fn send(&mut self, lines: &[u8], ends: Ends) -> Result<(), Error> {
        self.peer.set_write_timeout(left(ends)?).map_err(Error::Lost)?;
        self.peer.write_all(lines).map_err(fault)
    }

    /// The next line, without its LF. After `TimedOut` it can be asked for again.
    pub(crate) fn line(&mut self, ends: Ends) -> Result<Vec<u8>, Error> {
        let mut looked = self.at;
        loop {
            if let Some(length) = self.came[looked..].iter().position(|byte| *byte == b'\n') {
                let line = self.came[self.at..looked + length].to_vec();
                self.at = looked + length + 1;
                return Ok(line);
            }
            self.came.drain(..self.at);
            self.at = 0;
            looked = self.came.len();
            if looked > MAX_LINE {
                return Err(Error::Protocol("a line without an end".to_owned()));
            }
            self.receive(ends)?;
        }
    }

    fn receive(&mut self, ends: Ends) -> Result<(), Error> {
        self.peer.set_read_timeout(left(ends)?).map_err(Error::Lost)?;
        let had = self.came.len();
        self.came.resize(had + PIECE, 0);
        let read = self.peer.read(&mut self.came[had..]);
        self.came.truncate(had + *read.as_ref().unwrap_or(&0));
        match read {
            Ok(0) => Err(Error::Lost(ErrorKind::UnexpectedEof.into())),
            Ok(_) => Ok(()),
            Err(error) if error.kind() == ErrorKind::Interrupted => Ok(()),
            Err(error) => Err(fault(error)),
        }
    }

    /// Whether it has ended, as far as can be told without waiting, where no answer is to come.
    pub(crate) fn is_cut(&mut self) -> bool {
        let looked = self.peer.set_nonblocking(true).and_then(|()| self.peer.read(&mut [0]));
        let is_open = matches!(looked, Err(ref error) if error.kind() == ErrorKind::WouldBlock);
        !is_open || self.peer.set_nonblocking(false).is_err()
    }

    /// Makes it an observer's.
    fn join(&mut self, line: &[u8], ends: Ends) -> Result<(), Error> {
        self.send(&[HELLO, line].concat(), ends)?;
        check(&self.line(ends)?)?;
        check_joined(&self.line(ends)?)
    }

    /// One that this `SUB` made an observer's, and the epoch of its server.
    pub(crate) fn joined(path: &Path, line: &[u8], options: &Options, ends: Ends) -> Result<(Connection, String), Error> {
        let epoch = epoch_of(path, options, ends)?;
        let mut connection = Connection::open(path)?;
        connection.join(line, ends)?;
        if epoch_of(path, options, ends)? != epoch {
            return Err(Error::Lost(io::Error::new(ErrorKind::ConnectionReset, "another server began meanwhile")));
        }
        Ok((connection, epoch))
    }
}

/// Which server is at this path: the item that the subject for it tells first, where there is one, else when its socket was made: a
/// server makes it anew each time that it begins.
fn epoch_of(path: &Path, options: &Options, ends: Ends) -> Result<String, Error> {
    if let Some(subject) = &options.epoch_subject {
        let mut connection = Connection::open(path)?;
        connection.join(&join(subject, &Subscribe::default())?, ends)?;
        return epoch_in(&connection.line(ends)?);
    }
    let file = fs::metadata(path).map_err(Error::NoServer)?;
    let began = i128::from(file.mtime()) * 1_000_000_000 + i128::from(file.mtime_nsec());
    Ok(format!("{began:x}.{:x}", file.ino()))
}

/// How long may be waited yet.
fn left(ends: Ends) -> Result<Option<Duration>, Error> {
    match ends.map(|ends| ends.saturating_duration_since(Instant::now())) {
        Some(Duration::ZERO) => Err(Error::TimedOut),
        left => Ok(left),
    }
}

fn fault(error: io::Error) -> Error {
    match error.kind() {
        ErrorKind::WouldBlock | ErrorKind::TimedOut => Error::TimedOut,
        _ => Error::Lost(error),
    }
}
