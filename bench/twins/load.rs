//! A load generator: connections that send numbered HL7 messages over MLLP, each with a window of
//! unacknowledged messages, or at a rate of its own whatever is acknowledged (an open load). It
//! compares each acknowledgment with the message that is next, and counts times in a histogram.
//! Standard library only, beside two calls of the C library, which that is linked to.
//!
//! Usage: load --ports PORT,.. [--connections N] [--window N | --rate N] [--messages N]
//!             [--seconds N] [--sizes BYTES,..] [--wards TEXT,..] [--name NAME] [--threads N]
//!             [--again N] [--patience SECONDS]
//!
//! `--messages` and `--rate` (a second) are those of one connection. With `--seconds` no message is
//! made after that time; else each connection ends after `--messages` (by default 1). The
//! connections go to the ports of the list in turn, and have `--threads` (2) together. Message N
//! of connection C, both counted from 0, has the control id NAME-C-N, and of the lists of sizes and
//! of wards (PV1-2) what has the index 37 C + N, over and over.
//!
//! It connects, prints `ready`, and begins with a line of standard input or its end. Once all is
//! acknowledged or refused it prints a JSON object: `sent`, each message once; `acknowledged`, by
//! AA or CA; `refused`, by another code; `again`, how many of those refused were sent again,
//! behind what was sent meanwhile, up to `--again` (0) of a connection; `seconds` until the last
//! acknowledgment; `latency`, from the moment at which a message was due; and `late`, how long
//! after that a message of an open load was made. These times are in microseconds, up to one in
//! 128 too long. The status is 0 if each message was acknowledged or refused; where none is for
//! `--patience` seconds (60) though one is waited for, it is 1.
use std::env;
use std::io::{self, ErrorKind, Write};
use std::net::{Ipv4Addr, TcpStream};
use std::os::raw::{c_int, c_short, c_ulong, c_void};
use std::os::unix::io::AsRawFd;
use std::process::ExitCode;
use std::thread;
use std::time::Instant;

mod histogram;
mod senders;
mod wire;

use senders::{Found, Pace, Sender, Settings};
use wire::Words;

const SECOND: u64 = 1_000_000_000;
const READABLE: c_short = 1;
const WRITABLE: c_short = 4;
/// The option of `prctl` by which a thread's timers get another slack, in nanoseconds.
const TIMER_SLACK: c_int = 29;

/// `struct pollfd`.
#[repr(C)]
struct Polled {
    descriptor: c_int,
    events: c_short,
    found: c_short,
}

/// `struct timespec`.
#[repr(C)]
struct Limit {
    seconds: i64,
    nanoseconds: i64,
}

extern "C" {
    fn ppoll(
        polled: *mut Polled,
        count: c_ulong,
        limit: *const Limit,
        signals: *const c_void,
    ) -> c_int;
    fn prctl(option: c_int, ...) -> c_int;
}

/// Waits until one of the descriptors is ready or these nanoseconds have passed.
fn wait(polled: &mut [Polled], nanoseconds: u64) -> io::Result<()> {
    let limit = Limit {
        seconds: (nanoseconds / SECOND) as i64,
        nanoseconds: (nanoseconds % SECOND) as i64,
    };
    // SAFETY: the array and the limit live for the call, and the count is that of the array.
    let ready =
        unsafe { ppoll(polled.as_mut_ptr(), polled.len() as c_ulong, &limit, std::ptr::null()) };
    match io::Error::last_os_error() {
        error if ready < 0 && error.kind() != ErrorKind::Interrupted => Err(error),
        _ => Ok(()),
    }
}

/// Sends on some of the connections until all is acknowledged.
fn work(senders: &mut [Sender], began: Instant, patience: u64) -> Result<Found, String> {
    // SAFETY: this option takes one number. Where it is refused, waits end 50 microseconds late.
    unsafe { prctl(TIMER_SLACK, 1 as c_ulong) };
    let clock = || began.elapsed().as_nanos() as u64;
    let mut polled: Vec<Polled> = senders
        .iter()
        .map(|sender| Polled { descriptor: sender.stream.as_raw_fd(), events: READABLE, found: 0 })
        .collect();
    let mut found = Found::default();
    loop {
        for (sender, polled) in senders.iter_mut().zip(&mut polled) {
            sender.make(&clock, &mut found);
            let is_blocked = sender.flush()?;
            polled.events = if is_blocked { READABLE | WRITABLE } else { READABLE };
        }
        if senders.iter().all(|sender| sender.is_done(clock())) {
            return Ok(found);
        }
        let now = clock();
        if now > found.last + patience && senders.iter().any(Sender::is_waiting) {
            return Err(format!("no acknowledgment for {} s", patience / SECOND));
        }
        let due = senders.iter().filter_map(Sender::next_due).min().unwrap_or(u64::MAX);
        wait(&mut polled, due.saturating_sub(now).min(SECOND))
            .map_err(|error| error.to_string())?;
        for (sender, _) in senders.iter_mut().zip(&polled).filter(|(_, one)| one.found != 0) {
            sender.read(&clock, &mut found)?;
        }
    }
}

/// The number of an option that has to be 1 at least.
fn number(words: &mut Words, name: &str, default: u64) -> Result<u64, String> {
    match words.take(name)?.unwrap_or(default) {
        0 => Err(format!("--{name} can't be 0")),
        number => Ok(number),
    }
}

fn settings(words: &mut Words) -> Result<Settings, String> {
    let window = words.take("window")?;
    let pace = match (window, words.take::<f64>("rate")?) {
        (Some(0), None) => return Err("--window can't be 0".to_string()),
        (window, None) => Pace::Window(window.unwrap_or(1)),
        (None, Some(rate)) if rate > 0.0 => Pace::Every((SECOND as f64 / rate) as u64),
        _ => return Err("either --window or --rate, and that above 0".to_string()),
    };
    let seconds: Option<f64> = words.take("seconds")?;
    let messages = words.take("messages")?;
    Ok(Settings {
        pace,
        connections: number(words, "connections", 1)?,
        messages: messages.unwrap_or(if seconds.is_some() { u64::MAX } else { 1 }),
        until: seconds.map_or(u64::MAX, |seconds| (seconds * SECOND as f64) as u64),
        sizes: words.take_all("sizes")?,
        again: words.take("again")?.unwrap_or(0),
        wards: words.take_all("wards")?,
        name: words.take("name")?.unwrap_or_else(|| "LOAD".to_string()),
    })
}

/// Opens all connections: those of each thread.
fn connect<'a>(
    settings: &'a Settings,
    ports: &[u16],
    threads: u64,
) -> Result<Vec<Vec<Sender<'a>>>, String> {
    let mut groups: Vec<Vec<Sender>> = (0..threads).map(|_| Vec::new()).collect();
    for connection in 0..settings.connections {
        let port = ports[connection as usize % ports.len()];
        let stream = TcpStream::connect((Ipv4Addr::LOCALHOST, port))
            .and_then(|stream| stream.set_nodelay(true).map(|()| stream))
            .and_then(|stream| stream.set_nonblocking(true).map(|()| stream))
            .map_err(|error| format!("connection {connection} to {port}: {error}"))?;
        groups[(connection % threads) as usize].push(Sender::new(settings, connection, stream));
    }
    Ok(groups)
}

/// Begins with a line of standard input, and sends everything, each group on a thread of its own.
fn send(groups: &mut [Vec<Sender>], patience: u64) -> Result<Found, String> {
    println!("ready");
    io::stdin().read_line(&mut String::new()).map_err(|error| error.to_string())?;
    let began = Instant::now();
    thread::scope(|scope| {
        let works: Vec<_> = groups
            .iter_mut()
            .map(|senders| scope.spawn(move || work(senders, began, patience)))
            .collect();
        let mut all = Found::default();
        for done in works {
            all.add(&done.join().map_err(|_| "a thread has panicked".to_string())??);
        }
        Ok(all)
    })
}

fn run() -> Result<(), String> {
    let mut words = Words::new(env::args().skip(1))?;
    let settings = settings(&mut words)?;
    let ports: Vec<u16> = words.take_all("ports")?;
    let threads = number(&mut words, "threads", 2)?.min(settings.connections);
    let patience = number(&mut words, "patience", 60)?;
    words.end()?;
    if ports.is_empty() {
        return Err("--ports is needed".to_string());
    }
    let mut groups = connect(&settings, &ports, threads)?;
    let found = send(&mut groups, patience.saturating_mul(SECOND))?;
    writeln!(io::stdout(), "{found}").map_err(|error| error.to_string())
}

fn main() -> ExitCode {
    match run() {
        Ok(()) => ExitCode::SUCCESS,
        Err(fault) => {
            eprintln!("load: {fault}");
            ExitCode::FAILURE
        }
    }
}
