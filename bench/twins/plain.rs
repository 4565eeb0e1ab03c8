//! What `hl7_engine answer` does, as a plain Rust program without proofs: blocks on standard
//! input (MLLP Release 1), each judged by a small plan, kept in a book in memory, and acknowledged
//! on standard output as MSH-15 and MSH-16 request. It is written as one writes when nobody
//! measures: `Vec`, `split`, a `HashMap`. Standard library only.
//!
//! Usage: plain [--now SECS] [--events N] [--filtered]
//!
//! The plan is that of bench/answer.py, with one destination and one attempt; with `--filtered`
//! its channel takes only messages whose PV1-2 has a value. `threaded.rs` uses the same messages
//! and the same book.
use std::collections::{HashMap, VecDeque};
use std::env;
use std::io::{self, Read, Write};
use std::process::ExitCode;
use std::sync::Arc;
use std::time::{SystemTime, UNIX_EPOCH};

pub const START_BLOCK: u8 = 0x0b;
pub const END_BLOCK: u8 = 0x1c;
/// The most bytes of a block's data.
pub const DATA_MAX: usize = 1_048_576;
pub const SEGMENTS_MAX: usize = 4_096;
pub const CONTROL_ID_MAX: usize = 199;
/// The bytes that one read requests, as many as the engine's.
pub const PIECE: usize = 16_384;

/// A listener, the messages that it takes, and where they go.
pub struct Channel {
    pub name: String,
    pub listen: String,
    pub types: Vec<String>,
    pub processing: Vec<String>,
    pub versions: Vec<String>,
    /// A segment and one of its fields, which has to have a value.
    pub filter: Option<(String, usize)>,
    /// Destinations, by their index in the plan.
    pub routes: Vec<usize>,
}

/// A peer that messages are sent to.
pub struct Destination {
    pub name: String,
    pub address: String,
    pub attempts: usize,
    /// Seconds between two attempts.
    pub interval: u64,
}

pub struct Plan {
    pub channels: Vec<Channel>,
    pub destinations: Vec<Destination>,
}

impl Plan {
    /// The plan of bench/answer.py.
    fn small(filtered: bool) -> Plan {
        let channel = Channel {
            name: "ADT".to_string(),
            listen: "127.0.0.1:6660".to_string(),
            types: vec!["ADT".to_string()],
            processing: vec!["P".to_string(), "T".to_string()],
            versions: vec!["2.5.1".to_string()],
            filter: if filtered { Some(("PV1".to_string(), 2)) } else { None },
            routes: vec![0],
        };
        let destination = Destination {
            name: "LAB".to_string(),
            address: "127.0.0.1:6661".to_string(),
            attempts: 1,
            interval: 10,
        };
        Plan { channels: vec![channel], destinations: vec![destination] }
    }
}

/// Where a framer is in its stream.
enum Stage {
    Outside,
    Inside,
    Ended,
}

/// Finds the blocks of a stream that comes in pieces.
pub struct Framer {
    stage: Stage,
    data: Vec<u8>,
}

impl Framer {
    pub fn new() -> Framer {
        Framer { stage: Stage::Outside, data: Vec::new() }
    }

    /// The data of the blocks that end in this piece. A broken block is dropped, and one that is
    /// too long.
    pub fn feed(&mut self, mut piece: &[u8]) -> Vec<Vec<u8>> {
        let mut blocks = Vec::new();
        while !piece.is_empty() {
            match self.stage {
                Stage::Outside => match piece.iter().position(|byte| *byte == START_BLOCK) {
                    Some(at) => {
                        self.stage = Stage::Inside;
                        piece = &piece[at + 1..];
                    }
                    None => break,
                },
                Stage::Inside => {
                    let end =
                        piece.iter().position(|byte| *byte == START_BLOCK || *byte == END_BLOCK);
                    self.keep(&piece[..end.unwrap_or(piece.len())]);
                    match end {
                        Some(at) if piece[at] == START_BLOCK => self.data.clear(),
                        Some(_) => self.stage = Stage::Ended,
                        None => break,
                    }
                    piece = &piece[end.unwrap_or(0) + 1..];
                }
                Stage::Ended => {
                    self.stage = Stage::Outside;
                    let data = std::mem::take(&mut self.data);
                    if piece[0] == b'\r' {
                        piece = &piece[1..];
                        if data.len() <= DATA_MAX {
                            blocks.push(data);
                        }
                    }
                }
            }
        }
        blocks
    }

    /// Keeps data up to the first byte past the limit.
    fn keep(&mut self, more: &[u8]) {
        let room = DATA_MAX + 1 - self.data.len();
        self.data.extend_from_slice(&more[..room.min(more.len())]);
    }
}

/// A message's segments, of which the first is its header, and the separators that it declares.
pub struct Message<'a> {
    separator: u8,
    component: u8,
    repetition: u8,
    segments: Vec<&'a [u8]>,
}

fn is_delimiter(byte: u8) -> bool {
    byte.is_ascii_graphic() && !byte.is_ascii_alphanumeric() && !matches!(byte, b'"' | b'+' | b'.')
}

/// Whether these can be declared as the field separator and the encoding characters.
pub fn are_delimiters(separator: u8, characters: &[u8]) -> bool {
    let is_another = |n: usize| {
        let character = characters[n];
        let is_used = character == separator || characters[..n].contains(&character);
        is_delimiter(character) && !is_used
    };
    is_delimiter(separator)
        && (4..=5).contains(&characters.len())
        && (0..characters.len()).all(is_another)
}

/// Whether a segment may follow the header.
fn is_body(segment: &[u8], separator: u8) -> bool {
    let may_name = |byte: &u8| byte.is_ascii_uppercase() || byte.is_ascii_digit();
    segment.len() >= 3
        && segment[0].is_ascii_uppercase()
        && segment[1..3].iter().all(may_name)
        && segment[3..].first().into_iter().all(|next| *next == separator)
        && !segment.starts_with(b"MSH")
}

/// Whether a raw piece is empty or the null value.
pub fn is_vacant(raw: &[u8]) -> bool {
    raw.is_empty() || raw == b"\"\""
}

impl<'a> Message<'a> {
    /// The message that a text says, if it says one.
    pub fn parse(text: &'a [u8]) -> Option<Message<'a>> {
        let segments: Vec<&[u8]> = text
            .split(|byte| *byte == b'\r')
            .enumerate()
            .map(
                |(n, piece)| if n > 0 { piece.strip_prefix(b"\n").unwrap_or(piece) } else { piece },
            )
            .filter(|piece| !piece.is_empty())
            .collect();
        let header = *segments.first()?;
        let separator = *header.get(3)?;
        let characters = header[4..].split(|byte| *byte == separator).next()?;
        let is_message = header.starts_with(b"MSH")
            && segments.len() <= SEGMENTS_MAX
            && are_delimiters(separator, characters)
            && segments[1..].iter().all(|segment| is_body(segment, separator));
        if !is_message {
            return None;
        }
        Some(Message { separator, component: characters[0], repetition: characters[1], segments })
    }

    /// A field of the first segment of that name, raw.
    pub fn field(&self, name: &str, number: usize) -> Option<&'a [u8]> {
        let segment = self.segments.iter().find(|segment| segment.starts_with(name.as_bytes()))?;
        segment.split(|byte| *byte == self.separator).nth(number)
    }

    /// The message as it is sent: each segment with a carriage return behind it.
    fn print(&self) -> Vec<u8> {
        let mut text =
            Vec::with_capacity(self.segments.iter().map(|segment| segment.len() + 1).sum());
        for segment in &self.segments {
            text.extend_from_slice(segment);
            text.push(b'\r');
        }
        text
    }
}

/// The fields of a header that are read, raw.
pub struct Header<'a> {
    separator: u8,
    component: u8,
    encoding_characters: &'a [u8],
    sending_application: &'a [u8],
    sending_facility: &'a [u8],
    receiving_application: &'a [u8],
    receiving_facility: &'a [u8],
    message_code: &'a [u8],
    trigger_event: &'a [u8],
    pub control_id: &'a [u8],
    processing_id: &'a [u8],
    processing_code: &'a [u8],
    version_id: &'a [u8],
    version_code: &'a [u8],
    accept_type: &'a [u8],
    application_type: &'a [u8],
}

impl<'a> Header<'a> {
    pub fn read(message: &Message<'a>) -> Header<'a> {
        let fields: Vec<&[u8]> =
            message.segments[0].split(|byte| *byte == message.separator).collect();
        let field = |number: usize| fields.get(number - 1).copied().unwrap_or_default();
        let component = |number: usize, place: usize| {
            let first =
                field(number).split(|byte| *byte == message.repetition).next().unwrap_or_default();
            first.split(|byte| *byte == message.component).nth(place - 1).unwrap_or_default()
        };
        Header {
            separator: message.separator,
            component: message.component,
            encoding_characters: field(2),
            sending_application: field(3),
            sending_facility: field(4),
            receiving_application: field(5),
            receiving_facility: field(6),
            message_code: component(9, 1),
            trigger_event: component(9, 2),
            control_id: field(10),
            processing_id: field(11),
            processing_code: component(11, 1),
            version_id: field(12),
            version_code: component(12, 1),
            accept_type: field(15),
            application_type: field(16),
        }
    }

    /// Whether original mode is requested, and not enhanced mode (HL7 v2.5.1, 2.9.2).
    fn is_original(&self) -> bool {
        is_vacant(self.accept_type) && is_vacant(self.application_type)
    }
}

/// Why a message is refused.
#[derive(Clone, Copy)]
pub enum Cause {
    UnsupportedType,
    UnsupportedProcessing,
    UnsupportedVersion,
    MissingControlId,
    BadControlId,
    IdReused,
    Full,
}

impl Cause {
    /// Its name, MSA-3.
    pub fn name(self) -> &'static str {
        match self {
            Cause::UnsupportedType => "UnsupportedType",
            Cause::UnsupportedProcessing => "UnsupportedProcessing",
            Cause::UnsupportedVersion => "UnsupportedVersion",
            Cause::MissingControlId => "MissingControlId",
            Cause::BadControlId => "BadControlId",
            Cause::IdReused => "IdReused",
            Cause::Full => "Full",
        }
    }

    /// Whether it is rejected (CR, AR), and not an error (CE, AE).
    pub fn is_reject(self) -> bool {
        matches!(
            self,
            Cause::UnsupportedType | Cause::UnsupportedProcessing | Cause::UnsupportedVersion
        )
    }
}

/// What the plan decides of a message.
pub enum Verdict {
    Refused(Cause),
    Filtered,
    /// It goes to these destinations, as this text.
    Accepted(Vec<usize>, Arc<Vec<u8>>),
}

/// A message that came, with what was decided of it.
pub struct Judged<'a> {
    pub channel: usize,
    pub raw: &'a Arc<Vec<u8>>,
    pub header: Header<'a>,
    pub verdict: Verdict,
}

fn is_one_of(list: &[String], code: &[u8]) -> bool {
    list.iter().any(|one| one.as_bytes() == code)
}

fn header_fault(channel: &Channel, header: &Header) -> Option<Cause> {
    if !is_one_of(&channel.types, header.message_code) {
        Some(Cause::UnsupportedType)
    } else if !is_one_of(&channel.processing, header.processing_code) {
        Some(Cause::UnsupportedProcessing)
    } else if !is_one_of(&channel.versions, header.version_code) {
        Some(Cause::UnsupportedVersion)
    } else if is_vacant(header.control_id) {
        Some(Cause::MissingControlId)
    } else if header.control_id.len() > CONTROL_ID_MAX {
        Some(Cause::BadControlId)
    } else {
        None
    }
}

/// Judges a block's data; none where it is no message, or an acknowledgment.
pub fn judge<'a>(plan: &Plan, channel: usize, raw: &'a Arc<Vec<u8>>) -> Option<Judged<'a>> {
    let message = Message::parse(raw)?;
    let header = Header::read(&message);
    if header.message_code == b"ACK" {
        return None;
    }
    let rules = &plan.channels[channel];
    let verdict = if let Some(cause) = header_fault(rules, &header) {
        Verdict::Refused(cause)
    } else if !passes(rules, &message) || rules.routes.is_empty() {
        Verdict::Filtered
    } else {
        let printed = message.print();
        let payload = if printed == **raw { Arc::clone(raw) } else { Arc::new(printed) };
        Verdict::Accepted(rules.routes.clone(), payload)
    };
    Some(Judged { channel, raw, header, verdict })
}

fn passes(channel: &Channel, message: &Message) -> bool {
    match &channel.filter {
        Some((name, number)) => !is_vacant(message.field(name, *number).unwrap_or_default()),
        None => true,
    }
}

/// The answer to a message.
#[derive(Clone, Copy)]
pub enum Answer {
    Accepted(usize),
    Filtered,
    Refused(Cause),
    /// It came before, as the entry with this index.
    Repeat(usize),
}

/// An event with its answer.
pub enum Entry {
    Arrival { raw: Arc<Vec<u8>>, answer: Answer },
    Take { message: usize, destination: usize },
    Settlement { message: usize, destination: usize },
}

#[derive(Clone, Copy, PartialEq)]
pub enum State {
    Waiting,
    InFlight,
    Delivered,
    Failed,
}

/// A message at one destination that it goes to.
pub struct Slot {
    pub destination: usize,
    pub state: State,
    pub attempts: usize,
}

/// What is kept of an accepted message.
pub struct Kept {
    pub control_id: Vec<u8>,
    pub payload: Arc<Vec<u8>>,
    pub slots: Vec<Slot>,
}

#[derive(PartialEq, Eq, Hash)]
struct Key {
    channel: usize,
    application: Vec<u8>,
    facility: Vec<u8>,
    control_id: Vec<u8>,
}

#[derive(Clone, Default)]
pub struct ChannelCounts {
    pub received: usize,
    pub filtered: usize,
    pub accepted: usize,
    pub refused: usize,
    pub repeats: usize,
}

/// All that came, the messages, the keys by which repeats are known, and a queue for each
/// destination.
pub struct Book {
    pub history: Vec<Entry>,
    pub messages: Vec<Kept>,
    pub queues: Vec<VecDeque<usize>>,
    pub counts: Vec<ChannelCounts>,
    /// The entries that may still follow from messages that are not delivered yet.
    pub owed: usize,
    attempts: Vec<usize>,
    events_max: usize,
    keys: HashMap<Key, usize>,
}

impl Book {
    pub fn new(plan: &Plan, events_max: usize) -> Book {
        Book {
            history: Vec::new(),
            messages: Vec::new(),
            queues: vec![VecDeque::new(); plan.destinations.len()],
            counts: vec![ChannelCounts::default(); plan.channels.len()],
            owed: 0,
            attempts: plan.destinations.iter().map(|destination| destination.attempts).collect(),
            events_max,
            keys: HashMap::new(),
        }
    }

    fn answer(&self, key: &Key, judged: &Judged) -> Answer {
        match self.keys.get(key) {
            Some(first) if self.brings(*first, judged.raw) => Answer::Repeat(*first),
            Some(_) => Answer::Refused(Cause::IdReused),
            None => match &judged.verdict {
                Verdict::Refused(cause) => Answer::Refused(*cause),
                Verdict::Filtered => Answer::Filtered,
                Verdict::Accepted(..) => Answer::Accepted(self.messages.len()),
            },
        }
    }

    /// Books a message and answers it; an error where there is no room.
    pub fn arrive(&mut self, judged: &Judged) -> Result<Answer, Cause> {
        let key = Key {
            channel: judged.channel,
            application: judged.header.sending_application.to_vec(),
            facility: judged.header.sending_facility.to_vec(),
            control_id: judged.header.control_id.to_vec(),
        };
        let answer = self.answer(&key, judged);
        let owed = match (answer, &judged.verdict) {
            (Answer::Accepted(_), Verdict::Accepted(to, _)) => {
                to.iter().map(|to| 2 * self.attempts[*to] + 1).sum()
            }
            _ => 0,
        };
        if self.history.len() + self.owed + 1 + owed > self.events_max {
            return Err(Cause::Full);
        }
        self.owed += owed;
        if let (Answer::Accepted(number), Verdict::Accepted(to, payload)) =
            (answer, &judged.verdict)
        {
            self.keep(number, to, payload, judged.header.control_id);
        }
        if let Answer::Accepted(_) | Answer::Filtered = answer {
            self.keys.insert(key, self.history.len());
        }
        self.history.push(Entry::Arrival { raw: Arc::clone(judged.raw), answer });
        self.count(judged.channel, answer);
        Ok(answer)
    }

    fn keep(&mut self, number: usize, to: &[usize], payload: &Arc<Vec<u8>>, control_id: &[u8]) {
        let slots = to
            .iter()
            .map(|to| Slot { destination: *to, state: State::Waiting, attempts: 0 })
            .collect();
        self.messages.push(Kept {
            control_id: control_id.to_vec(),
            payload: Arc::clone(payload),
            slots,
        });
        for destination in to {
            self.queues[*destination].push_back(number);
        }
    }

    /// Whether the entry is the arrival of these bytes.
    fn brings(&self, entry: usize, bytes: &Arc<Vec<u8>>) -> bool {
        matches!(&self.history[entry], Entry::Arrival { raw, .. } if raw == bytes)
    }

    fn count(&mut self, channel: usize, answer: Answer) {
        let counts = &mut self.counts[channel];
        counts.received += 1;
        match answer {
            Answer::Accepted(_) => counts.accepted += 1,
            Answer::Filtered => counts.filtered += 1,
            Answer::Refused(_) => counts.refused += 1,
            Answer::Repeat(_) => {
                counts.repeats += 1;
                counts.received -= 1;
            }
        }
    }
}

/// When an acknowledgment is wanted (table 0155), by a raw MSH-15 or MSH-16: on success, and on a
/// refusal.
fn wanted(raw: &[u8]) -> (bool, bool) {
    match raw {
        b"" | b"\"\"" | b"NE" => (false, false),
        b"ER" => (false, true),
        b"SU" => (true, false),
        _ => (true, true),
    }
}

/// The acknowledgments that a message is due (HL7 v2.5.1, 2.9.2 and 2.9.3): MSA-1.
fn codes(header: &Header, refusal: Option<Cause>) -> Vec<&'static str> {
    let (accept, application) = (wanted(header.accept_type), wanted(header.application_type));
    match refusal {
        None if header.is_original() => vec!["AA"],
        None => [("CA", accept.0), ("AA", application.0)]
            .iter()
            .filter(|code| code.1)
            .map(|code| code.0)
            .collect(),
        Some(cause) => {
            let (commit, answer) = if cause.is_reject() { ("CR", "AR") } else { ("CE", "AE") };
            if header.is_original() {
                vec![answer]
            } else if accept.1 {
                vec![commit]
            } else if application.1 {
                vec![answer]
            } else {
                vec![]
            }
        }
    }
}

/// A moment as MSH-7 has it, in seconds since 1970, in UTC.
pub fn stamp(moment: u64) -> String {
    let (days, seconds) = (moment / 86_400 + 719_468, moment % 86_400);
    let (era, day_of_era) = (days / 146_097, days % 146_097);
    let year_of_era =
        (day_of_era - day_of_era / 1_460 + day_of_era / 36_524 - day_of_era / 146_096) / 365;
    let day_of_year = day_of_era - (365 * year_of_era + year_of_era / 4 - year_of_era / 100);
    let month_from_march = (5 * day_of_year + 2) / 153;
    let day = day_of_year - (153 * month_from_march + 2) / 5 + 1;
    let month = if month_from_march < 10 { month_from_march + 3 } else { month_from_march - 9 };
    let year = 400 * era + year_of_era + u64::from(month <= 2);
    let (hour, minute, second) = (seconds / 3_600, seconds / 60 % 60, seconds % 60);
    format!("{:04}{:02}{:02}{:02}{:02}{:02}+0000", year, month, day, hour, minute, second)
}

/// Appends an acknowledgment as a block.
fn acknowledge(
    out: &mut Vec<u8>,
    header: &Header,
    code: &str,
    cause: Option<Cause>,
    moment: u64,
    control_id: &str,
) {
    let kind = if is_vacant(header.trigger_event) {
        b"ACK".to_vec()
    } else {
        [b"ACK", header.trigger_event, b"ACK"].join(&header.component)
    };
    let stamp = stamp(moment);
    let mut fields: Vec<&[u8]> = vec![
        header.encoding_characters,
        header.receiving_application,
        header.receiving_facility,
        header.sending_application,
        header.sending_facility,
        stamp.as_bytes(),
        b"",
        &kind,
        control_id.as_bytes(),
        header.processing_id,
        header.version_id,
    ];
    if !header.is_original() {
        fields.extend([b"".as_slice(), b"", b"NE", b"NE"]);
    }
    let mut answer: Vec<&[u8]> = vec![code.as_bytes(), header.control_id];
    answer.extend(cause.map(|cause| cause.name().as_bytes()));
    out.push(START_BLOCK);
    append_segment(out, b"MSH", header.separator, &fields);
    append_segment(out, b"MSA", header.separator, &answer);
    out.extend_from_slice(&[END_BLOCK, b'\r']);
}

fn append_segment(out: &mut Vec<u8>, name: &[u8], separator: u8, fields: &[&[u8]]) {
    out.extend_from_slice(name);
    for field in fields {
        out.push(separator);
        out.extend_from_slice(field);
    }
    out.push(b'\r');
}

/// Reads the next piece, none at the end; an interrupted read is made again.
pub fn read_piece(reader: &mut impl Read, buffer: &mut [u8]) -> io::Result<usize> {
    loop {
        match reader.read(buffer) {
            Err(error) if error.kind() == io::ErrorKind::Interrupted => {}
            read => return read,
        }
    }
}

/// Serves a connection to its end: what one read brought is answered by one write.
pub fn serve(
    plan: &Plan,
    channel: usize,
    connection: usize,
    now: Option<u64>,
    mut reader: impl Read,
    mut writer: impl Write,
    mut arrive: impl FnMut(&Judged) -> Result<Answer, Cause>,
) -> io::Result<()> {
    let mut framer = Framer::new();
    let mut buffer = vec![0; PIECE];
    let mut replies = Vec::new();
    let mut made = 0;
    loop {
        let len = read_piece(&mut reader, &mut buffer)?;
        if len == 0 {
            return Ok(());
        }
        for data in framer.feed(&buffer[..len]) {
            let raw = Arc::new(data);
            let judged = match judge(plan, channel, &raw) {
                Some(judged) => judged,
                None => continue,
            };
            let refusal = match arrive(&judged) {
                Ok(Answer::Refused(cause)) | Err(cause) => Some(cause),
                Ok(_) => None,
            };
            let moment = now.unwrap_or_else(seconds_now);
            for code in codes(&judged.header, refusal) {
                made += 1;
                let id = format!("{}.{}", connection, made);
                acknowledge(&mut replies, &judged.header, code, refusal, moment, &id);
            }
        }
        writer.write_all(&replies)?;
        writer.flush()?;
        replies.clear();
    }
}

pub fn seconds_now() -> u64 {
    SystemTime::now().duration_since(UNIX_EPOCH).map_or(0, |since| since.as_secs())
}

/// The number behind a word of the command line.
pub fn option(words: &[String], name: &str) -> Option<u64> {
    let at = words.iter().position(|word| word == name)?;
    words.get(at + 1)?.parse().ok()
}

fn main() -> ExitCode {
    let words: Vec<String> = env::args().skip(1).collect();
    let plan = Plan::small(words.iter().any(|word| word == "--filtered"));
    let mut book = Book::new(&plan, option(&words, "--events").unwrap_or(1_000_000) as usize);
    let now = option(&words, "--now");
    match serve(&plan, 0, 0, now, io::stdin().lock(), io::stdout().lock(), |judged| {
        book.arrive(judged)
    }) {
        Ok(()) => ExitCode::SUCCESS,
        Err(error) => {
            eprintln!("plain: {}", error);
            ExitCode::FAILURE
        }
    }
}
