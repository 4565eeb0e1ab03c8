//! Destinations for measurements: each answers AA to each message that it receives, and knows how
//! many it has received, how many of them twice, and whether each sender's were in order. Standard
//! library only.
//!
//! Usage: sink PORT[:MICROSECONDS]..
//!
//! It listens on each PORT at 127.0.0.1, and prints `up`. An answer is sent MICROSECONDS after its
//! message was read (by default at once). Senders are known by their control ids, `LOAD-3-17` being
//! message 17 of sender `LOAD-3`. Commands are lines of standard input; it ends with that.
//!
//! - `wait N` prints `reached` once N messages are there, at all ports together, repeats aside;
//! - `counts` prints a JSON array with an object for each port: `received`, of which `again` were
//!   received before, `disorder`, how many were received after a later one of the same sender, and
//!   `strange`, how many had no such control id and are not among the others;
//! - `close INDEX` ends all connections of a port and listens there no more, so that connections
//!   are refused; `open INDEX` listens again. Both print `done`.
use std::collections::HashMap;
use std::env;
use std::io::{self, BufRead, Write};
use std::net::{Ipv4Addr, Shutdown, TcpListener, TcpStream};
use std::process::ExitCode;
use std::sync::atomic::{AtomicU64, Ordering};
use std::sync::{Arc, Mutex, MutexGuard, PoisonError};
use std::thread::{self, JoinHandle};
use std::time::Duration;

#[allow(dead_code)] // the words of this program are no options
mod wire;

use wire::{field, numbered, Blocks, END_BLOCK, START_BLOCK};

/// How often `wait` looks.
const LOOK: Duration = Duration::from_micros(200);

/// Which messages of a sender were received.
#[derive(Default)]
struct Sender {
    /// A bit for each number.
    seen: Vec<u64>,
    /// The greatest number so far.
    last: u64,
}

impl Sender {
    /// Notes a message: whether it is new, and whether a later one was received before.
    fn note(&mut self, number: u64) -> (bool, bool) {
        let (index, bit) = ((number / 64) as usize, 1 << (number % 64));
        if self.seen.len() <= index {
            self.seen.resize(index + 1, 0);
        }
        let is_new = self.seen[index] & bit == 0;
        let is_late = number < self.last;
        self.seen[index] |= bit;
        self.last = self.last.max(number);
        (is_new, is_late)
    }
}

/// What was received at a port.
#[derive(Default)]
struct Received {
    senders: HashMap<Vec<u8>, Sender>,
    received: u64,
    again: u64,
    disorder: u64,
    strange: u64,
}

impl Received {
    /// Notes a message by its control id, and returns whether it is new.
    fn note(&mut self, control_id: &[u8]) -> bool {
        let (name, number) = match numbered(control_id) {
            Some(numbered) => numbered,
            None => {
                self.strange += 1;
                return false;
            }
        };
        let (is_new, is_late) = match self.senders.get_mut(name) {
            Some(sender) => sender.note(number),
            None => self.senders.entry(name.to_vec()).or_default().note(number),
        };
        self.received += 1;
        self.again += u64::from(!is_new);
        self.disorder += u64::from(is_new && is_late);
        is_new
    }
}

/// The thread that listens at a port, while it is open, and the connections there by number.
#[derive(Default)]
struct Open {
    listens: Option<JoinHandle<()>>,
    taken: u64,
    streams: HashMap<u64, TcpStream>,
}

struct Port {
    number: u16,
    delay: Duration,
    received: Mutex<Received>,
    open: Mutex<Open>,
    /// The messages of all ports, repeats aside.
    total: Arc<AtomicU64>,
}

/// Locks, also where a thread has panicked meanwhile: each change is whole.
fn lock<T>(mutex: &Mutex<T>) -> MutexGuard<'_, T> {
    mutex.lock().unwrap_or_else(PoisonError::into_inner)
}

impl Port {
    /// Reads `PORT` or `PORT:MICROSECONDS`.
    fn new(word: &str, total: &Arc<AtomicU64>) -> Result<Port, String> {
        let (number, micros) = word.split_once(':').unwrap_or((word, "0"));
        let number = number.parse().map_err(|_| format!("{word} is no port"))?;
        let micros = micros.parse().map_err(|_| format!("{word} has no microseconds"))?;
        Ok(Port {
            number,
            delay: Duration::from_micros(micros),
            received: Mutex::default(),
            open: Mutex::default(),
            total: Arc::clone(total),
        })
    }

    /// Listens, and takes connections on a thread of their own.
    fn open(self: &Arc<Port>) -> io::Result<()> {
        let mut open = lock(&self.open);
        if open.listens.is_none() {
            let listener = TcpListener::bind((Ipv4Addr::LOCALHOST, self.number))?;
            let port = Arc::clone(self);
            open.listens = Some(thread::spawn(move || port.accept(listener)));
        }
        Ok(())
    }

    /// Ends all connections, and the thread that listens.
    fn close(&self) -> io::Result<()> {
        let mut open = lock(&self.open);
        let listens = match open.listens.take() {
            Some(listens) => listens,
            None => return Ok(()),
        };
        for stream in open.streams.values() {
            // One that its peer has reset is no longer connected.
            let _ = stream.shutdown(Shutdown::Both);
        }
        drop(open);
        // The thread looks whether it is to end when a connection is taken: this one, or one before
        // it, and then this one is refused.
        let _ = TcpStream::connect((Ipv4Addr::LOCALHOST, self.number));
        listens.join().map_err(|_| io::Error::new(io::ErrorKind::Other, "its thread has panicked"))
    }

    /// Takes connections until the port is closed.
    fn accept(self: &Arc<Port>, listener: TcpListener) {
        for stream in listener.incoming() {
            let mut open = lock(&self.open);
            if open.listens.is_none() {
                return;
            }
            let (stream, kept) = match stream.and_then(|one| Ok((one.try_clone()?, one))) {
                Ok(both) => both,
                Err(_) => continue, // the peer is gone, or no descriptor is left
            };
            open.taken += 1;
            let number = open.taken;
            open.streams.insert(number, kept);
            let port = Arc::clone(self);
            thread::spawn(move || {
                // How it ended doesn't matter: its sender was killed, or the port closed.
                let _ = port.serve(&stream);
                lock(&port.open).streams.remove(&number);
            });
        }
    }

    /// Answers what a connection brings, to its end.
    fn serve(&self, mut stream: &TcpStream) -> io::Result<()> {
        stream.set_nodelay(true)?;
        let (mut blocks, mut answers) = (Blocks::default(), Vec::new());
        while blocks.read_from(stream)? > 0 {
            while let Some(text) = blocks.next() {
                let control_id = field(text, b"MSH", 10).unwrap_or_default();
                if lock(&self.received).note(control_id) {
                    self.total.fetch_add(1, Ordering::Relaxed);
                }
                answer(&mut answers, control_id);
                if !self.delay.is_zero() {
                    thread::sleep(self.delay);
                }
            }
            stream.write_all(&answers)?;
            answers.clear();
        }
        Ok(())
    }

    fn counts(&self) -> String {
        let Received { received, again, disorder, strange, .. } = &*lock(&self.received);
        let first = format!(r#"{{"received": {received}, "again": {again}, "#);
        first + &format!(r#""disorder": {disorder}, "strange": {strange}}}"#)
    }
}

/// Appends an acknowledgment as a block.
fn answer(answers: &mut Vec<u8>, control_id: &[u8]) {
    answers.push(START_BLOCK);
    answers.extend_from_slice(b"MSH|^~\\&|PEER|X|ENG|HUB|20231114221300||ACK|1|P|2.5.1\rMSA|AA|");
    answers.extend_from_slice(control_id);
    answers.extend_from_slice(&[b'\r', END_BLOCK, b'\r']);
}

/// Does what a line of standard input says, and returns what is printed.
fn command(ports: &[Arc<Port>], total: &AtomicU64, line: &str) -> Result<String, String> {
    let (name, value) = line.split_once(' ').unwrap_or((line, "0"));
    let number: u64 = value.parse().map_err(|_| format!("{line}: no number"))?;
    let port = ports.get(number as usize);
    match (name, port) {
        ("wait", _) => {
            while total.load(Ordering::Relaxed) < number {
                thread::sleep(LOOK);
            }
            Ok("reached".to_string())
        }
        ("counts", _) => {
            let counts: Vec<String> = ports.iter().map(|port| port.counts()).collect();
            Ok(format!("[{}]", counts.join(", ")))
        }
        ("close", Some(port)) => port.close().map(|()| "done".to_string()),
        ("open", Some(port)) => port.open().map(|()| "done".to_string()),
        _ => return Err(format!("{line}: no such command or port")),
    }
    .map_err(|error| format!("{line}: {error}"))
}

fn run() -> Result<(), String> {
    let total = Arc::new(AtomicU64::new(0));
    let ports = env::args()
        .skip(1)
        .map(|word| Port::new(&word, &total).map(Arc::new))
        .collect::<Result<Vec<_>, _>>()?;
    for port in &ports {
        port.open().map_err(|error| format!("{}: {error}", port.number))?;
    }
    println!("up");
    for line in io::stdin().lock().lines() {
        let line = line.map_err(|error| error.to_string())?;
        println!("{}", command(&ports, &total, line.trim())?);
    }
    Ok(())
}

fn main() -> ExitCode {
    match run() {
        Ok(()) => ExitCode::SUCCESS,
        Err(fault) => {
            eprintln!("sink: {fault}");
            ExitCode::FAILURE
        }
    }
}
