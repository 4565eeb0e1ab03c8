//! The connections of the load generator: what each sends, and what it takes for acknowledged.
//! Standard library only.
use std::collections::VecDeque;
use std::fmt;
use std::io::{ErrorKind, Write};
use std::net::TcpStream;

use crate::histogram::Histogram;
use crate::wire::{field, numbered, Blocks, END_BLOCK, START_BLOCK};

/// How far apart two connections begin in the lists of sizes and wards.
const APART: u64 = 37;

/// How a connection sends.
#[derive(Clone, Copy)]
pub enum Pace {
    /// At most this many messages are unacknowledged at a time.
    Window(usize),
    /// One message each time this number of nanoseconds has passed, whatever is acknowledged.
    Every(u64),
}

/// What all connections have in common. Times are in nanoseconds since the start.
pub struct Settings {
    pub pace: Pace,
    pub connections: u64,
    /// How many messages each connection sends at most.
    pub messages: u64,
    /// No message is due then, or later.
    pub until: u64,
    /// The sizes of messages in bytes, with their start block and end block.
    pub sizes: Vec<usize>,
    /// How many refused messages each connection sends again.
    pub again: u64,
    pub wards: Vec<String>,
    pub name: String,
}

/// What became of messages.
#[derive(Default)]
pub struct Found {
    pub sent: u64,
    pub acknowledged: u64,
    pub refused: u64,
    /// How many of those refused were sent again.
    pub again: u64,
    pub latency: Histogram,
    pub late: Histogram,
    /// When the last acknowledgment was read.
    pub last: u64,
}

impl Found {
    pub fn add(&mut self, other: &Found) {
        self.sent += other.sent;
        self.acknowledged += other.acknowledged;
        self.refused += other.refused;
        self.again += other.again;
        self.latency.add_all(&other.latency);
        self.late.add_all(&other.late);
        self.last = self.last.max(other.last);
    }
}

/// A JSON object.
impl fmt::Display for Found {
    fn fmt(&self, out: &mut fmt::Formatter) -> fmt::Result {
        let Found { sent, acknowledged, refused, again, latency, late, last } = self;
        write!(out, r#"{{"sent": {sent}, "acknowledged": {acknowledged}, "refused": {refused}, "#)?;
        let seconds = *last as f64 / 1e9;
        write!(out, r#""again": {again}, "seconds": {seconds:.6}, "#)?;
        write!(out, r#""latency": {latency}, "late": {late}}}"#)
    }
}

/// A connection.
pub struct Sender<'a> {
    settings: &'a Settings,
    pub stream: TcpStream,
    connection: u64,
    /// How many messages are made, and how many were refused and are sent again.
    made: u64,
    again: u64,
    /// The number of each message that is neither acknowledged nor refused, and when it was due.
    unanswered: VecDeque<(u64, u64)>,
    /// When the first message of an open load is due: those of all connections are apart.
    first: u64,
    blocks: Blocks,
    /// What is to be written, of which this many bytes are.
    out: Vec<u8>,
    written: usize,
}

impl<'a> Sender<'a> {
    /// A connection by its number, on a stream that does not block.
    pub fn new(settings: &'a Settings, connection: u64, stream: TcpStream) -> Sender<'a> {
        let first = match settings.pace {
            Pace::Window(_) => 0,
            Pace::Every(interval) => interval / settings.connections * connection,
        };
        Sender {
            settings,
            stream,
            connection,
            made: 0,
            again: 0,
            unanswered: VecDeque::new(),
            first,
            blocks: Blocks::default(),
            out: Vec::new(),
            written: 0,
        }
    }

    /// When the next message of an open load is due, if there is one.
    pub fn next_due(&self) -> Option<u64> {
        match self.settings.pace {
            Pace::Window(_) => None,
            Pace::Every(interval) => Some(self.first + self.made * interval)
                .filter(|due| self.made < self.settings.messages && *due < self.settings.until),
        }
    }

    /// Whether a message is neither acknowledged nor refused.
    pub fn is_waiting(&self) -> bool {
        !self.unanswered.is_empty()
    }

    /// Whether nothing is left to be sent, and everything is acknowledged or refused.
    pub fn is_done(&self, now: u64) -> bool {
        let is_made = match self.settings.pace {
            Pace::Window(_) => self.made >= self.settings.messages || now >= self.settings.until,
            Pace::Every(_) => self.next_due().is_none(),
        };
        is_made && !self.is_waiting()
    }

    /// Makes the messages that are due, or that the window has room for.
    pub fn make(&mut self, clock: &impl Fn() -> u64, found: &mut Found) {
        let now = clock();
        match self.settings.pace {
            Pace::Window(window) => {
                while self.unanswered.len() < window && !self.is_all_made(now) {
                    self.make_one(now, found);
                }
            }
            Pace::Every(_) => {
                while let Some(due) = self.next_due().filter(|due| *due <= now) {
                    found.late.add(now - due);
                    self.make_one(due, found);
                }
            }
        }
    }

    fn is_all_made(&self, now: u64) -> bool {
        self.made >= self.settings.messages || now >= self.settings.until
    }

    fn make_one(&mut self, due: u64, found: &mut Found) {
        self.append(self.made, due);
        self.made += 1;
        found.sent += 1;
    }

    /// Appends a message to what is to be written.
    fn append(&mut self, number: u64, due: u64) {
        let Settings { sizes, wards, name, .. } = self.settings;
        let index = (self.connection * APART + number) as usize;
        let ward = if wards.is_empty() { "I" } else { &wards[index % wards.len()] };
        let begun = self.out.len();
        self.out.push(START_BLOCK);
        self.out.extend_from_slice(b"MSH|^~\\&|REG|HOSP|ENG|HUB|20231114221300||ADT^A01^ADT_A01|");
        let ids = format!("{name}-{}-{number}", self.connection);
        self.out.extend_from_slice(ids.as_bytes());
        self.out
            .extend_from_slice(b"|P|2.5.1|||AL|NE\rPID|1||77^^^H||DOE^JANE||19700101|F\rPV1|1|");
        self.out.extend_from_slice(ward.as_bytes());
        self.out.extend_from_slice(b"\rNTE|1||");
        let size = if sizes.is_empty() { 700 } else { sizes[index % sizes.len()] };
        let padded = (begun + size).saturating_sub(3).max(self.out.len());
        self.out.resize(padded, b'x');
        self.out.extend_from_slice(&[b'\r', END_BLOCK, b'\r']);
        self.unanswered.push_back((number, due));
    }

    /// Writes what the connection takes now, and returns whether some of it is left.
    ///
    /// # Errors
    ///
    /// Those of the write, but for `WouldBlock` and `Interrupted`.
    pub fn flush(&mut self) -> Result<bool, String> {
        while self.written < self.out.len() {
            match (&self.stream).write(&self.out[self.written..]) {
                Ok(len) => self.written += len,
                Err(error) if error.kind() == ErrorKind::WouldBlock => return Ok(true),
                Err(error) if error.kind() == ErrorKind::Interrupted => {}
                Err(error) => return Err(self.fault(&error.to_string())),
            }
        }
        self.out.clear();
        self.written = 0;
        Ok(false)
    }

    /// Reads once, and counts the acknowledgments that are whole. What is refused is to be sent
    /// again, as long as the connection has not sent too much again.
    ///
    /// # Errors
    ///
    /// Those of the read, the end of the connection, and what is no acknowledgment of the message
    /// that is next.
    pub fn read(&mut self, clock: &impl Fn() -> u64, found: &mut Found) -> Result<(), String> {
        match self.blocks.read_from(&self.stream) {
            Ok(0) => return Err(self.fault("its peer has ended it")),
            Ok(_) => {}
            Err(error) if error.kind() == ErrorKind::WouldBlock => return Ok(()),
            Err(error) if error.kind() == ErrorKind::Interrupted => return Ok(()),
            Err(error) => return Err(self.fault(&error.to_string())),
        }
        let (now, mut refused) = (clock(), Vec::new());
        while let Some(text) = self.blocks.next() {
            let control_id = field(text, b"MSA", 2).and_then(numbered);
            let (number, due) = match (control_id, self.unanswered.front().copied()) {
                (Some((_, number)), Some(next)) if number == next.0 => next,
                _ => return Err(self.fault("something else was received")),
            };
            match field(text, b"MSA", 1) {
                Some(b"AA" | b"CA") => found.acknowledged += 1,
                _ => refused.push((number, due)),
            }
            self.unanswered.pop_front();
            found.last = now;
            found.latency.add(now.saturating_sub(due));
        }
        found.refused += refused.len() as u64;
        for (number, due) in refused {
            if self.again < self.settings.again {
                self.again += 1;
                found.again += 1;
                self.append(number, due);
            }
        }
        Ok(())
    }

    /// The line of a fault.
    fn fault(&self, why: &str) -> String {
        let Settings { name, .. } = self.settings;
        let next = self.unanswered.front().map_or(self.made, |(number, _)| *number);
        format!("{name}-{}, at message {next}: {why}", self.connection)
    }
}
