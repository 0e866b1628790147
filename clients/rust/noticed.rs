//! A client of noticed(8): it logs what happened to each recipient of a mail, and has the notice made.
//!
//! ```no_run
//! # use noticed::*;
//! # fn bounce(now: u64, arrived: u64) -> Result<(), Error> {
//! let key = Key { service: Service::Bounce, queue_id: b"A1B2C3" };
//! let mut client = Client::new("/run/noticed/socket");
//! let logged = client.append(key, &Outcome::new(b"bob@example.org", Action::Failed, b"5.1.1"), Some(0))?;
//! if logged.reply == Reply::Logged {
//!     let made = client.flush(key, &Notice { header: b"Subject: hi\n", ..Notice::new(b"ann@example.com", now, arrived, 1) })?;
//! }
//! # Ok(()) }
//! ```
//!
//! [`Reply`] says what each answer means, and what to do. A request that the daemon refuses is [`Error::Refused`].
//!
//! The fields are those of noticed-protocol(5), version 3: the daemon tests their values. Open a client for one message,
//! then drop it: it occupies a worker of the daemon.
//!
//! When may a request be repeated? The client waits for a daemon, connects again, and repeats what is safe: a request
//! that was not sent whole, and a flush, discard or forget without an answer (a repeated flush is answered Closed then).
//! An append without an answer may have been logged. If this client alone appends to the log, give append its place: how
//! many outcomes you logged there before. When the connection has ended, the client counts the log, and appends again if
//! the outcome is missing. Otherwise the error is Unanswered: discard and forget the log, and append all outcomes again.

use std::io::{self, ErrorKind, Read, Write};
use std::os::unix::ffi::OsStrExt;
use std::os::unix::net::UnixStream;
use std::path::PathBuf;
use std::sync::mpsc;
use std::time::{Duration, Instant};
use std::{fmt, thread};

/// The null return path, which gets no notice; an empty path is an error.
pub const NULL_PATH: &[u8] = b"<>";
/// Expected: any number of outcomes.
pub const ANY: u32 = u32::MAX;
/// Bytes of a frame.
pub const LONGEST_FRAME: usize = 65_536;
/// Bytes of a header or message.
pub const LONGEST_HEADER: usize = 32_768;
/// Bytes; a longer diagnostic or reason is cut.
pub const LONGEST_TEXT: usize = 800;
/// Bytes of the socket's path.
pub const LONGEST_PATH: usize = 107;

/// For failures, for delays, for other reports.
#[derive(Clone, Copy, Debug, PartialEq, Eq)]
pub enum Service {
    Bounce = 1,
    Defer,
    Trace,
}

#[derive(Clone, Copy, Debug, PartialEq, Eq)]
pub enum Action {
    Failed = 1,
    Delayed,
    Delivered,
    Relayed,
    Expanded,
}

/// What the header of a notice is; the third: if the next server offers 8BITMIME; the last: its header if it is too long.
#[derive(Clone, Copy, Debug, PartialEq, Eq)]
pub enum Returned {
    Header,
    Message,
    EightBitMessage,
    MessageOrHeader,
}

/// How the words of a notice are chosen; by the outcome they say why and what to do.
#[derive(Clone, Copy, Debug, PartialEq, Eq)]
pub enum Wording {
    ByService,
    ByOutcome,
}

/// What an answer says, and what to do.
#[derive(Clone, Copy, Debug, PartialEq, Eq)]
pub enum Reply {
    /// Behind `value` others. If that is below the place, the daemon lost outcomes: append them again.
    Logged = 1,
    /// The log takes no more. After a flush: the notice is made.
    Closed,
    /// No key is free: forget one, or try later.
    TableFull,
    /// Flush, forget, and append the rest for a notice of its own.
    LogFull,
    /// The log is empty. If it should not be, the daemon lost outcomes: forget, append, flush.
    Nothing,
    /// The log is dropped, since the return path is null.
    NoReturn,
    /// A notice of `value` outcomes is made.
    Sealed,
    /// The log of `value` outcomes is dropped.
    Discarded,
    /// Never sent.
    Gone,
    /// Nothing was changed; returned as [`Error::Refused`].
    Refused,
    /// The key is free.
    Forgotten,
    /// The log is open, or was forgotten before.
    NotClosed,
    /// Nothing was changed. The log has `value` outcomes: if too few, append what is missing, and flush.
    Differs,
}
use Reply::*;
const REPLIES: [Reply; 13] = [
    Logged, Closed, TableFull, LogFull, Nothing, NoReturn, Sealed, Discarded, Gone, Refused, Forgotten, NotClosed,
    Differs,
];

/// An answer; that of a notice has its serial, which is part of the Message-ID.
#[derive(Clone, Copy, Debug, PartialEq, Eq)]
pub struct Answer {
    pub reply: Reply,
    pub value: u32,
    pub serial: Option<u64>,
}

/// Why a request has no answer.
#[derive(Debug)]
pub enum Error {
    /// The request cannot be encoded.
    Invalid(&'static str),
    /// No socket has so long a path.
    PathTooLong(PathBuf),
    /// No daemon in time: keep the message, and try again with the next run of your queue.
    Unreachable(String),
    /// An append was sent and not answered: it may be logged.
    Unanswered(io::Error),
    /// No permission to connect.
    Denied(io::Error),
    /// The daemon refused the request, which changed nothing. After 9 try later; otherwise correct the request.
    Refused(u32),
}

impl std::error::Error for Error {
    fn source(&self) -> Option<&(dyn std::error::Error + 'static)> {
        match self {
            Error::Unanswered(why) | Error::Denied(why) => Some(why),
            _ => None,
        }
    }
}

impl fmt::Display for Error {
    fn fmt(&self, to: &mut fmt::Formatter) -> fmt::Result {
        match self {
            Error::Invalid(why) => write!(to, "the request cannot be encoded: {why}"),
            Error::PathTooLong(path) => {
                write!(to, "the socket's path is longer than {LONGEST_PATH} bytes: {}", path.display())
            }
            Error::Unreachable(why) => {
                write!(to, "no daemon carried the request out in time: {why}")
            }
            Error::Unanswered(why) => write!(to, "an append was sent and not answered, and may be logged: {why}"),
            Error::Denied(why) => write!(to, "no permission to connect: {why}"),
            Error::Refused(number) => write!(to, "refused {number}: {}", fault(*number)),
        }
    }
}

/// The words of the number of a refusal.
fn fault(number: u32) -> &'static str {
    match number {
        1 => "the final recipient is not an address",
        2 => "the original recipient is neither empty nor an address",
        3 => "the action is unknown, or the service's log takes none of it",
        4 => "the status is not a status code",
        5 => "the class of the status does not fit the action",
        6 => "the remote system's name is neither empty nor a name",
        7 => "the diagnostic is too long",
        8 => "the reason is too long",
        9 => "memory was refused",
        10 => "a time until which delivery is retried, for a recipient that is not delayed",
        15 => "the type of the final recipient is neither empty nor the name of a type",
        16 => "the type of the original recipient is malformed, or there is no original recipient",
        17 => "the type of the diagnostic is malformed, or there is no diagnostic",
        18 => "it is unknown whether the header field holds the header or the message",
        19 => "the wording of a notice is unknown",
        20 => "the extension fields are malformed",
        21 => "the version of a request is unknown",
        22 => "the kind of a request, or of an answer's reply, is unknown",
        23 => "a request ends before its fields do",
        24 => "bytes follow the last field of a request",
        25 => "the service is unknown",
        26 => "the queue id is malformed",
        27 => "a moment is after the year 9999",
        28 => "the returned header is too long",
        29 => "the return path is neither empty nor an address",
        30 => "the envelope id is neither empty nor valid",
        _ => "see noticed help faults",
    }
}

/// Names a log.
#[derive(Clone, Copy, Debug)]
pub struct Key<'a> {
    pub service: Service,
    pub queue_id: &'a [u8],
}

/// What happened to a recipient. A moment is seconds since 1970; extensions are lines that LF ends. A diagnostic or
/// reason of several lines is sent as one line.
#[derive(Clone, Copy, Debug)]
pub struct Outcome<'a> {
    pub recipient: &'a [u8],
    pub action: Action,
    pub status: &'a [u8],
    pub original_recipient: &'a [u8],
    pub remote_mta: &'a [u8],
    pub diagnostic: &'a [u8],
    pub reason: &'a [u8],
    pub last_attempt: Option<u64>,
    pub retry_until: Option<u64>,
    pub recipient_type: &'a [u8],
    pub original_type: &'a [u8],
    pub diagnostic_type: &'a [u8],
    pub extensions: &'a [u8],
}

impl<'a> Outcome<'a> {
    /// An outcome with no other field.
    pub fn new(recipient: &'a [u8], action: Action, status: &'a [u8]) -> Self {
        let (none, n): (Option<u64>, &[u8]) = (None, b"");
        Outcome {
            recipient,
            action,
            status,
            original_recipient: n,
            remote_mta: n,
            diagnostic: n,
            reason: n,
            last_attempt: none,
            retry_until: none,
            recipient_type: n,
            original_type: n,
            diagnostic_type: n,
            extensions: n,
        }
    }
}

/// What a flush says: `moment` is the notice's date, `expected` how many outcomes the log must have.
#[derive(Clone, Copy, Debug)]
pub struct Notice<'a> {
    pub return_path: &'a [u8],
    pub moment: u64,
    pub arrival: u64,
    pub expected: u32,
    pub envelope_id: &'a [u8],
    pub header: &'a [u8],
    pub returned: Returned,
    pub wording: Wording,
    pub extensions: &'a [u8],
}

impl<'a> Notice<'a> {
    /// A notice with no other field.
    pub fn new(return_path: &'a [u8], moment: u64, arrival: u64, expected: u32) -> Self {
        Notice {
            return_path,
            moment,
            arrival,
            expected,
            envelope_id: b"",
            header: b"",
            returned: Returned::Header,
            wording: Wording::ByOutcome,
            extensions: b"",
        }
    }
}

fn texts(to: &mut Vec<u8>, texts: &[&[u8]]) {
    for it in texts {
        to.extend((it.len() as u16).to_be_bytes()); // a longer one is longer than a frame: encode finds that
        to.extend(*it);
    }
}

/// The frame of a request of any kind: 1 append, 2 flush, 3 discard, 4 forget.
pub fn encode(kind: u8, number: u32, key: Key, fields: &[u8]) -> Result<Vec<u8>, Error> {
    let mut to = vec![0, 0, 0, 0, 3, kind];
    to.extend(number.to_be_bytes());
    to.push(key.service as u8);
    texts(&mut to, &[key.queue_id]);
    to.extend(fields);
    let size = to.len() - 4;
    if size > LONGEST_FRAME {
        return Err(Error::Invalid("it is longer than a frame"));
    }
    to[..4].copy_from_slice(&(size as u32).to_be_bytes());
    Ok(to)
}

/// A text of several lines as one. Each line of a reply repeats the reply code (RFC 5321 section 4.2.1), and often the
/// status: both are kept once. Line ends become a space; the daemon would make each of their bytes a question mark.
fn one_line(text: &[u8]) -> Vec<u8> {
    let is_break = |byte: &u8| matches!(byte, b'\r' | b'\n');
    if !text.iter().any(is_break) {
        return text.to_vec();
    }
    let mut lines = text.split(is_break).map(trimmed).filter(|line| !line.is_empty());
    let first = lines.next().unwrap_or(b"");
    let code = ended(first, if matches!(first, [b'2'..=b'5', b'0'..=b'9', b'0'..=b'9', ..]) { 3 } else { 0 });
    let rest = behind(first, code);
    let status = ended(rest, status_size(rest));
    let others = lines.map(|line| behind(behind(line, code), status));
    [code, rest].into_iter().chain(others).filter(|part| !part.is_empty()).collect::<Vec<_>>().join(&b' ')
}

/// A line without blanks around it.
fn trimmed(line: &[u8]) -> &[u8] {
    let is_text = |byte: &u8| !matches!(byte, b' ' | b'\t');
    let begin = line.iter().position(is_text).unwrap_or(line.len());
    &line[begin..line.iter().rposition(is_text).map_or(begin, |last| last + 1)]
}

/// The size of the status that a line begins with, as 5.1.1; 0 without one.
fn status_size(line: &[u8]) -> usize {
    let digits = |at: usize| line[at..].iter().take_while(|byte| byte.is_ascii_digit()).count();
    let is_dot = |at: usize| line.get(at) == Some(&b'.');
    if !matches!(line, [b'2' | b'4' | b'5', b'.', ..]) {
        return 0;
    }
    let subject = digits(2);
    if !(1..=3).contains(&subject) || !is_dot(2 + subject) {
        return 0;
    }
    let detail = digits(3 + subject);
    if (1..=3).contains(&detail) {
        3 + subject + detail
    } else {
        0
    }
}

/// The first bytes of a line if it ends after them, or a space or hyphen follows; otherwise none.
fn ended(line: &[u8], size: usize) -> &[u8] {
    if matches!(line.get(size), None | Some(b' ' | b'-')) {
        &line[..size]
    } else {
        b""
    }
}

/// A line without a code that it begins with.
fn behind<'a>(line: &'a [u8], code: &[u8]) -> &'a [u8] {
    match line.strip_prefix(code) {
        Some([]) => b"",
        Some([b' ' | b'-', rest @ ..]) if !code.is_empty() => trimmed(rest),
        _ => line,
    }
}

/// The frame of an append.
pub fn encode_append(number: u32, key: Key, it: &Outcome) -> Result<Vec<u8>, Error> {
    let said = |text: &[u8]| -> Vec<u8> { one_line(text).into_iter().take(LONGEST_TEXT).collect() };
    let mut to = vec![];
    texts(&mut to, &[it.original_recipient, it.recipient]);
    to.push(it.action as u8);
    texts(&mut to, &[it.status, it.remote_mta, &said(it.diagnostic), &said(it.reason)]);
    to.extend(it.last_attempt.unwrap_or(u64::MAX).to_be_bytes());
    to.extend(it.retry_until.unwrap_or(u64::MAX).to_be_bytes());
    texts(&mut to, &[it.recipient_type, it.original_type, it.diagnostic_type, it.extensions]);
    encode(1, number, key, &to)
}

/// The lines before the first empty one.
fn header_of(message: &[u8]) -> &[u8] {
    let lines = message.split_inclusive(|byte| *byte == b'\n');
    &message[..lines.take_while(|line| *line != b"\n" && *line != b"\r\n").map(<[u8]>::len).sum()]
}

/// The frame of a flush. An error if the return path is empty, or the header or message too long.
pub fn encode_flush(number: u32, key: Key, it: &Notice) -> Result<Vec<u8>, Error> {
    let is_cut =
        it.header.len() > LONGEST_HEADER && matches!(it.returned, Returned::Header | Returned::MessageOrHeader);
    let header = if is_cut { header_of(it.header) } else { it.header };
    let whole = if it.returned == Returned::MessageOrHeader { Returned::Message } else { it.returned };
    if header.len() > LONGEST_HEADER {
        return Err(Error::Invalid("the header or message is too long"));
    }
    if it.return_path.is_empty() {
        return Err(Error::Invalid("there is no return path; the null one is NULL_PATH"));
    }
    let mut to = [it.moment.to_be_bytes(), it.arrival.to_be_bytes()].concat();
    texts(&mut to, &[if it.return_path == NULL_PATH { b"" } else { it.return_path }, it.envelope_id, header]);
    to.extend(it.expected.to_be_bytes());
    to.extend([if is_cut { Returned::Header } else { whole } as u8, it.wording as u8]);
    texts(&mut to, &[it.extensions]);
    encode(2, number, key, &to)
}

/// Reads the frame of an answer: the number of the request, and the answer.
pub fn decode(from: &mut impl Read) -> io::Result<(u32, Answer)> {
    let (mut head, mut serial) = ([0; 14], [0; 8]);
    from.read_exact(&mut head)?;
    let number_at = |at: usize| u32::from_be_bytes([head[at], head[at + 1], head[at + 2], head[at + 3]]);
    let (number, value, size) = (number_at(6), number_at(10), number_at(0));
    match (size, head[4], REPLIES.get(usize::from(head[5]).wrapping_sub(1))) {
        (10, 1, Some(&reply)) => return Ok((number, Answer { reply, value, serial: None })),
        (18, 1, Some(Sealed)) => from.read_exact(&mut serial)?,
        _ => return Err(io::Error::new(ErrorKind::InvalidData, "not an answer")),
    }
    Ok((number, Answer { reply: Sealed, value, serial: Some(u64::from_be_bytes(serial)) }))
}

/// Limits to connect, to send a request, until a worker is free, until an answer, for all tries of a request, and for all
/// of them while no daemon was ever reached.
#[derive(Clone, Copy, Debug)]
pub struct Limits {
    pub connect: Duration,
    pub send: Duration,
    pub worker: Duration,
    pub answer: Duration,
    pub request: Duration,
    pub reach: Duration,
}

impl Default for Limits {
    fn default() -> Self {
        let [connect, send, worker, answer, request, reach] = [5, 30, 60, 30, 300, 10].map(Duration::from_secs);
        Limits { connect, send, worker, answer, request, reach }
    }
}

/// Carries requests out.
pub struct Client {
    pub limits: Limits,
    path: PathBuf,
    stream: Option<UnixStream>,
    number: u32,
    is_reached: bool, // whether a daemon ever was
}

impl Client {
    /// A client of the daemon at this socket.
    pub fn new(path: impl Into<PathBuf>) -> Self {
        Client { limits: Limits::default(), path: path.into(), stream: None, number: 0, is_reached: false }
    }

    /// Ends the connection; the next request opens another.
    pub fn close(&mut self) {
        self.stream = None;
    }

    /// Logs an outcome. Unanswered if it may be logged; with a place only if a daemon is silent or others append.
    pub fn append(&mut self, key: Key, outcome: &Outcome, place: Option<u32>) -> Result<Answer, Error> {
        loop {
            let why = match (self.ask(encode_append(0, key, outcome)?, false), place) {
                (Err(Error::Unanswered(why)), Some(_)) if !is_silence(&why) => why,
                (result, _) => return result,
            };
            let place = place.unwrap_or(0);
            // no log has so many outcomes: the answer is Differs, and nothing is changed
            match self.flush(key, &Notice::new(NULL_PATH, 0, 0, ANY - 1)) {
                Ok(found) if found.value == place + 1 => {
                    return Ok(Answer { reply: Logged, value: place, serial: None })
                }
                Ok(found) if found.value <= place => {}
                _ => return Err(Error::Unanswered(why)),
            }
        }
    }

    /// Closes a log and has its notice made.
    pub fn flush(&mut self, key: Key, notice: &Notice) -> Result<Answer, Error> {
        self.ask(encode_flush(0, key, notice)?, true)
    }

    /// Closes a log without a notice.
    pub fn discard(&mut self, key: Key) -> Result<Answer, Error> {
        self.ask(encode(3, 0, key, b"")?, true)
    }

    /// Releases the key of a closed log: do it when no late outcome of the message can come.
    pub fn forget(&mut self, key: Key) -> Result<Answer, Error> {
        self.ask(encode(4, 0, key, b"")?, true)
    }

    fn ask(&mut self, mut frame: Vec<u8>, again: bool) -> Result<Answer, Error> {
        if self.path.as_os_str().as_bytes().len() > LONGEST_PATH {
            return Err(Error::PathTooLong(self.path.clone()));
        }
        let (mut pause, began) = (Duration::from_millis(50), Instant::now());
        loop {
            let why = match self.try_once(&mut frame) {
                // another connection serves
                Ok(Answer { reply: Refused, value: value @ (44 | 46), .. }) => format!("refused {value}"),
                Ok(Answer { reply: Refused, value, .. }) => return Err(Error::Refused(value)),
                Ok(answer) => return Ok(answer),
                Err(Error::Unanswered(why)) if again => why.to_string(),
                Err(Error::Unreachable(why)) => why,
                Err(why) => {
                    self.close();
                    return Err(why);
                }
            };
            self.close();
            let Limits { request, reach, .. } = self.limits;
            if began.elapsed() + pause > if self.is_reached { request } else { reach.min(request) } {
                return Err(Error::Unreachable(format!("{}: {why}", self.path.display())));
            }
            thread::sleep(pause);
            pause = (2 * pause).min(Duration::from_secs(5));
        }
    }

    fn try_once(&mut self, frame: &mut [u8]) -> Result<Answer, Error> {
        if self.stream.is_none() {
            let (tell, told) = mpsc::channel();
            let path = self.path.clone();
            thread::spawn(move || tell.send(UnixStream::connect(path))); // std has no other way to end a connect
            let connected = told.recv_timeout(self.limits.connect);
            // no end in time: the queue of the socket is full, so a daemon listens
            self.is_reached |= !matches!(connected, Ok(Err(_)));
            let stream = connected.map_err(|why| Error::Unreachable(why.to_string()))?;
            (self.stream, self.number) = (Some(stream.map_err(not_sent)?), 0);
            // a frame that is refused: its answer says that a worker is there
            self.exchange(&[0, 0, 0, 1, 0], self.limits.worker).map_err(|why| Error::Unreachable(why.to_string()))?;
        }
        frame[6..10].copy_from_slice(&self.number.to_be_bytes());
        self.exchange(frame, self.limits.answer)
    }

    /// The answer to a frame; Unanswered if it was sent whole, and none came.
    fn exchange(&mut self, frame: &[u8], limit: Duration) -> Result<Answer, Error> {
        let stream = self.stream.as_mut().ok_or(Error::Invalid("no connection"))?;
        stream.set_write_timeout(Some(self.limits.send)).and_then(|()| stream.write_all(frame)).map_err(not_sent)?;
        stream.set_read_timeout(Some(limit)).map_err(not_sent)?;
        let (number, answer) = decode(stream).map_err(Error::Unanswered)?;
        if number != self.number {
            return Err(Error::Unanswered(io::Error::new(ErrorKind::InvalidData, "an answer to another request")));
        }
        self.number += 1;
        Ok(answer)
    }
}

fn not_sent(why: io::Error) -> Error {
    if why.kind() == ErrorKind::PermissionDenied {
        Error::Denied(why)
    } else {
        Error::Unreachable(why.to_string())
    }
}

fn is_silence(why: &io::Error) -> bool {
    matches!(why.kind(), ErrorKind::WouldBlock | ErrorKind::TimedOut)
}
