//! What `hl7_engine run` does, as a plain threaded Rust program without proofs: it listens for each
//! channel of a plan, serves each connection on a thread of its own, keeps what comes in one book
//! under one `Mutex`, and delivers to each destination on a thread of its own, one message after
//! another, each until its acknowledgment has come. Messages, judging, book and acknowledgments are
//! those of `plain.rs`. Standard library only.
//!
//! Usage: threaded run PLAN --accept N [--events N]
//!        threaded receive PORT
//!
//! `run` takes N connections on each channel, and ends when all is delivered or failed. It reads a
//! plan in the form that peers/engine.py writes: one key a line, without filters and steps.
//! `receive` is a destination that answers AA to each message, until it is killed.
use std::collections::VecDeque;
use std::env;
use std::fs;
use std::io::{self, Read, Write};
use std::net::{TcpListener, TcpStream};
use std::process::ExitCode;
use std::sync::{Arc, Condvar, Mutex};
use std::thread;
use std::time::{Duration, Instant};

#[allow(dead_code)] // nobody reads the history here, as the engine's audit does
mod plain;

use plain::{
    option, serve, Answer, Book, Cause, Channel, Destination, Entry, Framer, Header, Judged,
    Message, Plan, State,
};

/// The longest wait for a destination, and for a sender that reads nothing.
const TIMEOUT: Duration = Duration::from_secs(30);
/// The most answers of a destination that are read for one message.
const ANSWERS_MAX: usize = 9;
const ANSWER_PIECE: usize = 4_096;

/// The texts of a TOML value: one text, a list of texts, or a number.
fn values(value: &str) -> Vec<String> {
    let inner = value.trim().trim_start_matches('[').trim_end_matches(']');
    inner
        .split(',')
        .map(|one| one.trim().trim_matches('"').to_string())
        .filter(|one| !one.is_empty())
        .collect()
}

fn new_channel() -> Channel {
    Channel {
        name: String::new(),
        listen: String::new(),
        types: Vec::new(),
        processing: Vec::new(),
        versions: Vec::new(),
        filter: None,
        routes: Vec::new(),
    }
}

fn new_destination() -> Destination {
    Destination { name: String::new(), address: String::new(), attempts: 3, interval: 10 }
}

/// Reads a line `key = value` of a channel or of one of its routes.
fn read_channel_key(plan: &mut Plan, key: &str, value: &str) -> Result<(), String> {
    let texts = values(value);
    let first = texts.first().cloned().unwrap_or_default();
    let place = plan.destinations.iter().position(|destination| destination.name == first);
    let channel = plan.channels.last_mut().ok_or("a key before its table")?;
    match key {
        "name" => channel.name = first,
        "listen" => channel.listen = first,
        "types" => channel.types = texts,
        "processing" => channel.processing = texts,
        "versions" => channel.versions = texts,
        "to" => channel.routes.push(place.ok_or("a route to no destination")?),
        _ => return Err(format!("a key that is not read: {}", key)),
    }
    Ok(())
}

fn read_destination_key(plan: &mut Plan, key: &str, value: &str) -> Result<(), String> {
    let first = values(value).first().cloned().unwrap_or_default();
    let number = first.parse();
    let destination = plan.destinations.last_mut().ok_or("a key before its table")?;
    match key {
        "name" => destination.name = first,
        "address" => destination.address = first,
        "attempts" => destination.attempts = number.map_err(|_| "attempts are no number")?,
        "interval" => {
            destination.interval = number.map_err(|_| "the interval is no number")? as u64
        }
        _ => return Err(format!("a key that is not read: {}", key)),
    }
    Ok(())
}

fn read_plan(text: &str) -> Result<Plan, String> {
    let mut plan = Plan { channels: Vec::new(), destinations: Vec::new() };
    let mut in_destination = false;
    for line in text.lines().map(str::trim).filter(|line| !line.is_empty()) {
        match line {
            "[[destination]]" => {
                in_destination = true;
                plan.destinations.push(new_destination());
            }
            "[[channel]]" => {
                in_destination = false;
                plan.channels.push(new_channel());
            }
            "[[channel.route]]" => {}
            _ => {
                let (key, value) = line
                    .split_once('=')
                    .ok_or_else(|| format!("a line that is not read: {}", line))?;
                let read = if in_destination { read_destination_key } else { read_channel_key };
                read(&mut plan, key.trim(), value)?;
            }
        }
    }
    Ok(plan)
}

/// What all threads share, under the lock.
struct Desk {
    book: Book,
    /// Whether no further message comes.
    closed: bool,
    /// When the front of each queue may be taken.
    due: Vec<Instant>,
}

struct Shared {
    plan: Plan,
    desk: Mutex<Desk>,
    /// One for each destination: its queue has become longer, or nothing comes any more.
    changed: Vec<Condvar>,
}

/// A message to be sent.
struct Job {
    message: usize,
    control_id: Vec<u8>,
    payload: Arc<Vec<u8>>,
}

/// What became of an attempt.
#[derive(PartialEq)]
enum Outcome {
    Delivered,
    Rejected,
    Again,
}

impl Shared {
    fn new(plan: Plan, events_max: usize) -> Shared {
        let destinations = plan.destinations.len();
        let desk = Desk {
            book: Book::new(&plan, events_max),
            closed: false,
            due: vec![Instant::now(); destinations],
        };
        let changed = (0..destinations).map(|_| Condvar::new()).collect();
        Shared { plan, desk: Mutex::new(desk), changed }
    }

    /// Books a message, and wakes the deliveries that have waited for one.
    fn arrive(&self, judged: &Judged) -> Result<Answer, Cause> {
        let mut desk = self.desk.lock().unwrap();
        let answer = desk.book.arrive(judged)?;
        let routes = if let Answer::Accepted(_) = answer {
            self.plan.channels[judged.channel].routes.as_slice()
        } else {
            &[]
        };
        let woken: Vec<usize> =
            routes.iter().copied().filter(|to| desk.book.queues[*to].len() == 1).collect();
        drop(desk);
        for destination in woken {
            self.changed[destination].notify_one();
        }
        Ok(answer)
    }

    fn close(&self) {
        self.desk.lock().unwrap().closed = true;
        for changed in &self.changed {
            changed.notify_all();
        }
    }

    /// The front of a queue, once it is due; none where nothing comes any more.
    fn take(&self, destination: usize) -> Option<Job> {
        let mut desk = self.desk.lock().unwrap();
        loop {
            let (now, due) = (Instant::now(), desk.due[destination]);
            match desk.book.queues[destination].front().copied() {
                None if desk.closed => return None,
                None => desk = self.changed[destination].wait(desk).unwrap(),
                Some(_) if now < due => {
                    desk = self.changed[destination].wait_timeout(desk, due - now).unwrap().0
                }
                Some(message) => return Some(desk.take(message, destination)),
            }
        }
    }

    fn settle(&self, job: &Job, destination: usize, outcome: Outcome) {
        let rules = &self.plan.destinations[destination];
        let mut desk = self.desk.lock().unwrap();
        let book = &mut desk.book;
        let slot = book.messages[job.message]
            .slots
            .iter_mut()
            .find(|slot| slot.destination == destination)
            .unwrap();
        let owed = 2 * (rules.attempts - slot.attempts) + 2;
        slot.state = match outcome {
            Outcome::Delivered => State::Delivered,
            Outcome::Again if slot.attempts < rules.attempts => State::Waiting,
            _ => State::Failed,
        };
        book.history.push(Entry::Settlement { message: job.message, destination });
        if slot.state == State::Waiting {
            book.owed -= 1;
            desk.due[destination] = Instant::now() + Duration::from_secs(rules.interval);
        } else {
            book.owed -= owed;
            book.queues[destination].pop_front();
        }
    }
}

impl Desk {
    fn take(&mut self, message: usize, destination: usize) -> Job {
        let kept = &mut self.book.messages[message];
        let slot = kept.slots.iter_mut().find(|slot| slot.destination == destination).unwrap();
        slot.state = State::InFlight;
        slot.attempts += 1;
        let job = Job {
            message,
            control_id: kept.control_id.clone(),
            payload: Arc::clone(&kept.payload),
        };
        self.book.history.push(Entry::Take { message, destination });
        self.book.owed -= 1;
        job
    }
}

/// A connection to a destination.
struct Link {
    stream: TcpStream,
    framer: Framer,
    /// Answers that were read and not looked at.
    answers: VecDeque<Vec<u8>>,
}

impl Link {
    fn open(address: &str) -> io::Result<Link> {
        let stream = TcpStream::connect(address)?;
        stream.set_nodelay(true)?;
        stream.set_read_timeout(Some(TIMEOUT))?;
        stream.set_write_timeout(Some(TIMEOUT))?;
        Ok(Link { stream, framer: Framer::new(), answers: VecDeque::new() })
    }

    /// Sends a message and waits for its acknowledgment.
    fn send(&mut self, job: &Job) -> io::Result<Outcome> {
        let mut block = Vec::with_capacity(job.payload.len() + 3);
        block.push(plain::START_BLOCK);
        block.extend_from_slice(&job.payload);
        block.extend_from_slice(&[plain::END_BLOCK, b'\r']);
        self.stream.write_all(&block)?;
        for _ in 0..ANSWERS_MAX {
            let answer = self.next_answer()?;
            if let Some(outcome) = outcome_of(&answer, &job.control_id) {
                return Ok(outcome);
            }
        }
        Ok(Outcome::Again)
    }

    fn next_answer(&mut self) -> io::Result<Vec<u8>> {
        let mut buffer = [0; ANSWER_PIECE];
        loop {
            if let Some(answer) = self.answers.pop_front() {
                return Ok(answer);
            }
            let len = self.stream.read(&mut buffer)?;
            if len == 0 {
                return Err(io::ErrorKind::UnexpectedEof.into());
            }
            self.answers.extend(self.framer.feed(&buffer[..len]));
        }
    }
}

/// What an answer says of the message with this control id, if it is an acknowledgment of it.
fn outcome_of(answer: &[u8], control_id: &[u8]) -> Option<Outcome> {
    let message = Message::parse(answer)?;
    if message.field("MSA", 2)? != control_id {
        return None;
    }
    match message.field("MSA", 1)? {
        b"AA" | b"CA" => Some(Outcome::Delivered),
        b"AR" | b"CR" => Some(Outcome::Rejected),
        _ => Some(Outcome::Again),
    }
}

/// Delivers to a destination until nothing comes any more.
fn deliver(shared: &Shared, destination: usize) {
    let address = &shared.plan.destinations[destination].address;
    let mut link = None;
    while let Some(job) = shared.take(destination) {
        if link.is_none() {
            link = Link::open(address).ok();
        }
        let sent = link.as_mut().map(|link| link.send(&job));
        let outcome = match sent {
            Some(Ok(outcome)) => outcome,
            _ => {
                link = None;
                Outcome::Again
            }
        };
        shared.settle(&job, destination, outcome);
    }
}

/// Takes the connections of a channel, and serves each on a thread of its own.
fn accept(shared: &Shared, listener: TcpListener, channel: usize, count: usize) -> io::Result<()> {
    thread::scope(|scope| {
        for number in 0..count {
            let (stream, _) = listener.accept()?;
            stream.set_nodelay(true)?;
            stream.set_write_timeout(Some(TIMEOUT))?;
            let connection = channel * count + number;
            scope.spawn(move || {
                let arrive = |judged: &Judged| shared.arrive(judged);
                if let Err(error) =
                    serve(&shared.plan, channel, connection, None, &stream, &stream, arrive)
                {
                    eprintln!("connection {} ended: {}", connection, error);
                }
            });
        }
        drop(listener);
        Ok(())
    })
}

/// Prints what came on each channel, and what became of it at each destination.
fn print_counts(shared: &Shared) {
    let book = &shared.desk.lock().unwrap().book;
    for (channel, counts) in shared.plan.channels.iter().zip(&book.counts) {
        println!(
            "channel {} received {} filtered {} accepted {} refused {} repeats {}",
            channel.name,
            counts.received,
            counts.filtered,
            counts.accepted,
            counts.refused,
            counts.repeats
        );
    }
    for (place, destination) in shared.plan.destinations.iter().enumerate() {
        let slots = book
            .messages
            .iter()
            .flat_map(|kept| &kept.slots)
            .filter(|slot| slot.destination == place);
        let mut counts = [0; 4];
        let mut attempts = 0;
        for slot in slots {
            counts[slot.state as usize] += 1;
            attempts += slot.attempts;
        }
        let [waiting, in_flight, delivered, failed] = counts;
        println!(
            "destination {} waiting {} inflight {} delivered {} failed {} attempts {}",
            destination.name, waiting, in_flight, delivered, failed, attempts
        );
    }
}

fn run(words: &[String]) -> Result<(), String> {
    let path = words.first().ok_or("no plan")?;
    let count = option(words, "--accept").ok_or("no --accept")? as usize;
    let text = fs::read_to_string(path).map_err(|error| format!("{}: {}", path, error))?;
    let shared =
        Shared::new(read_plan(&text)?, option(words, "--events").unwrap_or(1_000_000) as usize);
    let mut listeners = Vec::new();
    for channel in &shared.plan.channels {
        let listener = TcpListener::bind(&channel.listen)
            .map_err(|error| format!("{}: {}", channel.listen, error))?;
        eprintln!("listening on {} for channel {}", channel.listen, channel.name);
        listeners.push(listener);
    }
    let shared = &shared;
    thread::scope(|scope| {
        for destination in 0..shared.plan.destinations.len() {
            scope.spawn(move || deliver(shared, destination));
        }
        thread::scope(|scope| {
            for (channel, listener) in listeners.into_iter().enumerate() {
                scope.spawn(move || accept(shared, listener, channel, count));
            }
        });
        shared.close();
    });
    print_counts(shared);
    Ok(())
}

/// Answers AA to each message of a connection.
fn answer(mut stream: TcpStream) -> io::Result<()> {
    stream.set_nodelay(true)?;
    let (mut framer, mut buffer, mut replies) = (Framer::new(), vec![0; 65_536], Vec::new());
    loop {
        let len = stream.read(&mut buffer)?;
        if len == 0 {
            return Ok(());
        }
        for data in framer.feed(&buffer[..len]) {
            let control_id = Message::parse(&data)
                .map(|message| Header::read(&message).control_id)
                .unwrap_or_default();
            replies.extend_from_slice(
                b"\x0bMSH|^~\\&|PEER|X|ENG|HUB|20231114221300||ACK|1|P|2.5.1\rMSA|AA|",
            );
            replies.extend_from_slice(control_id);
            replies.extend_from_slice(b"\r\x1c\r");
        }
        stream.write_all(&replies)?;
        replies.clear();
    }
}

fn receive(words: &[String]) -> Result<(), String> {
    let port = words.first().ok_or("no port")?;
    let listener =
        TcpListener::bind(format!("127.0.0.1:{}", port)).map_err(|error| error.to_string())?;
    println!("up");
    loop {
        let (stream, _) = listener.accept().map_err(|error| error.to_string())?;
        thread::spawn(move || answer(stream));
    }
}

fn main() -> ExitCode {
    let words: Vec<String> = env::args().skip(1).collect();
    let done = match words.first().map(String::as_str) {
        Some("run") => run(&words[1..]),
        Some("receive") => receive(&words[1..]),
        _ => Err("run PLAN --accept N [--events N], or receive PORT".to_string()),
    };
    match done {
        Ok(()) => ExitCode::SUCCESS,
        Err(fault) => {
            eprintln!("threaded: {}", fault);
            ExitCode::FAILURE
        }
    }
}
