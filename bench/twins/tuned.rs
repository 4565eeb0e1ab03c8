//! What `hl7_engine answer` does, written by hand for speed: what `plain.rs` does, without a
//! request for memory a message. All texts are in one arena, pieces of them are spans, blocks are
//! judged where they were read to, control bytes and separators are found 64 bytes at a time, keys
//! are found by a 64-bit fingerprint and compared in the arena, and acknowledgments are written
//! into one buffer. Standard library only.
//!
//! Usage: tuned [--now SECS] [--events N] [--filtered]
//!
//! The words and the plan are those of `plain.rs`, written into the code; what is not on the way
//! of a usual message is `plain.rs`'s too, as the stamp and the test of unusual delimiters.
#![allow(dead_code)] // what a delivery would need is kept, and nothing is delivered here
use std::collections::hash_map::RandomState;
use std::env;
use std::fs::File;
use std::hash::{BuildHasher, Hasher};
use std::io::{self, Read, Write};
use std::mem::ManuallyDrop;
use std::os::unix::io::FromRawFd;
use std::process::ExitCode;

mod plain;

use plain::{
    are_delimiters, is_vacant, option, read_piece, seconds_now, stamp, Cause, CONTROL_ID_MAX,
    DATA_MAX, END_BLOCK, PIECE, SEGMENTS_MAX, START_BLOCK,
};

/// The bytes that are looked at together. As many follow each text that is searched.
const LANES: usize = 64;
/// The entries that a message of one destination and one attempt may still add.
const OWED: usize = 3;
/// The fields of a header that are read, the name among them.
const FIELDS: usize = 16;

/// A bit for each byte that is below 0x20.
#[cfg(target_arch = "x86_64")]
fn controls(bytes: &[u8; LANES]) -> u64 {
    use std::arch::x86_64::*;
    let mut mask = 0;
    for lane in 0..LANES / 16 {
        // SAFETY: SSE2 is part of x86_64, and the 16 bytes are among the 64.
        let bits = unsafe {
            let part = _mm_loadu_si128(bytes.as_ptr().add(16 * lane).cast());
            _mm_movemask_epi8(_mm_cmpeq_epi8(_mm_min_epu8(part, _mm_set1_epi8(0x1f)), part))
        };
        mask |= u64::from(bits as u16) << (16 * lane);
    }
    mask
}

/// A bit for each byte that is this one.
#[cfg(target_arch = "x86_64")]
fn equals(bytes: &[u8; LANES], byte: u8) -> u64 {
    use std::arch::x86_64::*;
    let mut mask = 0;
    for lane in 0..LANES / 16 {
        // SAFETY: as above.
        let bits = unsafe {
            let part = _mm_loadu_si128(bytes.as_ptr().add(16 * lane).cast());
            _mm_movemask_epi8(_mm_cmpeq_epi8(part, _mm_set1_epi8(byte as i8)))
        };
        mask |= u64::from(bits as u16) << (16 * lane);
    }
    mask
}

#[cfg(not(target_arch = "x86_64"))]
fn controls(bytes: &[u8; LANES]) -> u64 {
    bytes.iter().enumerate().fold(0, |mask, (n, byte)| mask | u64::from(*byte < 0x20) << n)
}

#[cfg(not(target_arch = "x86_64"))]
fn equals(bytes: &[u8; LANES], byte: u8) -> u64 {
    bytes.iter().enumerate().fold(0, |mask, (n, other)| mask | u64::from(*other == byte) << n)
}

/// The 64 bytes at an offset.
fn lanes(bytes: &[u8], at: usize) -> &[u8; LANES] {
    bytes[at..at + LANES].try_into().unwrap()
}

/// A part of a text.
#[derive(Clone, Copy, Default)]
struct Span {
    start: u32,
    end: u32,
}

impl Span {
    fn of(self, text: &[u8]) -> &[u8] {
        &text[self.start as usize..self.end as usize]
    }

    /// Up to the first byte that is this one, and what follows it.
    fn cut(self, text: &[u8], byte: u8) -> (Span, Span) {
        for at in self.start..self.end {
            if text[at as usize] == byte {
                return (
                    Span { start: self.start, end: at },
                    Span { start: at + 1, end: self.end },
                );
            }
        }
        (self, Span { start: self.end, end: self.end })
    }
}

/// A block's data where it was read to: the bytes from its first on, with at least 64 behind it,
/// its length, and where its carriage returns are.
#[derive(Clone, Copy)]
struct Block<'a> {
    bytes: &'a [u8],
    len: usize,
    ends: &'a [u32],
}

impl<'a> Block<'a> {
    /// The segments, without the line feed that may precede them and without empty ones.
    fn segments(self) -> impl Iterator<Item = Span> + 'a {
        let mut start = 0;
        self.ends.iter().copied().chain(Some(self.len as u32)).filter_map(move |end| {
            let has_feed = start > 0 && start < end && self.bytes[start as usize] == b'\n';
            let span = Span { start: start + u32::from(has_feed), end };
            start = end + 1;
            if span.start < span.end {
                Some(span)
            } else {
                None
            }
        })
    }
}

/// The fields of a header that are read.
struct Head {
    separator: u8,
    component: u8,
    repetition: u8,
    fields: [Span; FIELDS],
    /// Whether the text is its message as that is sent.
    is_printed: bool,
}

/// Whether these can be declared: nearly every message declares the first.
fn may_be_declared(separator: u8, characters: &[u8]) -> bool {
    (separator == b'|' && characters == b"^~\\&") || are_delimiters(separator, characters)
}

fn is_name_byte(byte: u8) -> bool {
    byte.is_ascii_uppercase() || byte.is_ascii_digit()
}

fn is_body(segment: &[u8], separator: u8) -> bool {
    match segment {
        [a, b, c, rest @ ..] => {
            a.is_ascii_uppercase()
                && is_name_byte(*b)
                && is_name_byte(*c)
                && rest.first().map_or(true, |next| *next == separator)
                && [*a, *b, *c] != *b"MSH"
        }
        _ => false,
    }
}

/// The first fields of a header, each up to the next separator.
fn fields_of(bytes: &[u8], header: Span, separator: u8) -> [Span; FIELDS] {
    let mut fields = [Span { start: header.end, end: header.end }; FIELDS];
    let (mut number, mut start) = (0, header.start);
    let mut at = header.start;
    while at < header.end {
        let mut mask = equals(lanes(bytes, at as usize), separator);
        while mask != 0 {
            let end = at + mask.trailing_zeros();
            mask &= mask - 1;
            if end >= header.end {
                break;
            }
            fields[number] = Span { start, end };
            start = end + 1;
            number += 1;
            if number == FIELDS {
                return fields;
            }
        }
        at += LANES as u32;
    }
    fields[number] = Span { start, end: header.end };
    fields
}

/// The header of a block's message, if the block is one.
fn head_of(block: Block) -> Option<Head> {
    let mut segments = block.segments();
    let header = segments.next()?;
    let text = header.of(block.bytes);
    if text.len() < 8 || !text.starts_with(b"MSH") {
        return None;
    }
    let separator = text[3];
    let fields = fields_of(block.bytes, header, separator);
    let characters = fields[1].of(block.bytes);
    if !may_be_declared(separator, characters) {
        return None;
    }
    let (mut count, mut end, mut is_printed) = (1, header.end, header.start == 0);
    for segment in segments {
        count += 1;
        if !is_body(segment.of(block.bytes), separator) {
            return None;
        }
        is_printed = is_printed && segment.start == end + 1;
        end = segment.end;
    }
    is_printed = is_printed && end as usize + 1 == block.len;
    if count > SEGMENTS_MAX {
        return None;
    }
    Some(Head {
        separator,
        component: characters[0],
        repetition: characters[1],
        fields,
        is_printed,
    })
}

#[derive(Clone, Copy)]
enum Verdict {
    Refused(Cause),
    Filtered,
    Accepted,
}

/// A message in a block.
struct Judged<'a> {
    block: Block<'a>,
    head: Head,
    event: Span,
    verdict: Verdict,
}

impl<'a> Judged<'a> {
    fn field(&self, number: usize) -> &'a [u8] {
        self.head.fields[number - 1].of(self.block.bytes)
    }
}

/// Whether PV1-2 has a value.
fn has_class(block: Block, separator: u8) -> bool {
    let visit = match block.segments().find(|segment| segment.of(block.bytes).starts_with(b"PV1")) {
        Some(visit) => visit,
        None => return false,
    };
    let (_, rest) = visit.cut(block.bytes, separator);
    let (_, rest) = rest.cut(block.bytes, separator);
    !is_vacant(rest.cut(block.bytes, separator).0.of(block.bytes))
}

/// Judges a block; none where it is no message, or an acknowledgment.
fn judge(block: Block, filtered: bool) -> Option<Judged> {
    let head = head_of(block)?;
    let component =
        |span: Span| span.cut(block.bytes, head.repetition).0.cut(block.bytes, head.component);
    let (code, rest) = component(head.fields[8]);
    let event = rest.cut(block.bytes, head.component).0;
    let (processing, version) = (component(head.fields[10]).0, component(head.fields[11]).0);
    let code = code.of(block.bytes);
    if code == b"ACK" {
        return None;
    }
    let control_id = head.fields[9].of(block.bytes);
    let verdict = if code != b"ADT" {
        Verdict::Refused(Cause::UnsupportedType)
    } else if !matches!(processing.of(block.bytes), b"P" | b"T") {
        Verdict::Refused(Cause::UnsupportedProcessing)
    } else if version.of(block.bytes) != b"2.5.1" {
        Verdict::Refused(Cause::UnsupportedVersion)
    } else if is_vacant(control_id) {
        Verdict::Refused(Cause::MissingControlId)
    } else if control_id.len() > CONTROL_ID_MAX {
        Verdict::Refused(Cause::BadControlId)
    } else if filtered && !has_class(block, head.separator) {
        Verdict::Filtered
    } else {
        Verdict::Accepted
    };
    Some(Judged { block, head, event, verdict })
}

/// The answer to a message.
#[derive(Clone, Copy)]
enum Answer {
    Accepted(u32),
    Filtered,
    Refused(Cause),
    Repeat(u32),
}

/// An arrival with its answer: its text in the arena, and its key in the text.
struct Entry {
    start: usize,
    len: u32,
    application: Span,
    facility: Span,
    control_id: Span,
    answer: Answer,
}

/// An accepted message, which waits for its first attempt.
struct Row {
    start: usize,
    len: u32,
    entry: u32,
}

/// An index by fingerprints, with open addressing; an entry of `u32::MAX` is none.
struct Index {
    slots: Vec<(u64, u32)>,
    held: usize,
    seed: u64,
}

const NO_ENTRY: u32 = u32::MAX;

fn mixed(a: u64, b: u64) -> u64 {
    let product = u128::from(a) * u128::from(b);
    product as u64 ^ (product >> 64) as u64
}

impl Index {
    fn new() -> Index {
        Index {
            slots: vec![(0, NO_ENTRY); 1_024],
            held: 0,
            seed: RandomState::new().build_hasher().finish() | 1,
        }
    }

    /// The fingerprint of a part of a text, behind which at least 8 bytes follow.
    fn fingerprint(&self, from: u64, bytes: &[u8], part: Span) -> u64 {
        let (mut at, end) = (part.start as usize, part.end as usize);
        let mut hash = mixed(from ^ (end - at) as u64, 0x9e37_79b9_7f4a_7c15);
        while at < end {
            let word = u64::from_le_bytes(bytes[at..at + 8].try_into().unwrap());
            let left = end - at;
            let word = if left < 8 { word & ((1 << (8 * left)) - 1) } else { word };
            hash = mixed(hash ^ word, self.seed);
            at += 8;
        }
        hash
    }

    /// The entry of a fingerprint that satisfies the test, or where it would be.
    fn find(&self, hash: u64, test: impl Fn(u32) -> bool) -> Result<u32, usize> {
        let last = self.slots.len() - 1;
        let mut at = hash as usize & last;
        loop {
            let (other, entry) = self.slots[at];
            if entry == NO_ENTRY {
                return Err(at);
            }
            if other == hash && test(entry) {
                return Ok(entry);
            }
            at = (at + 1) & last;
        }
    }

    fn add(&mut self, at: usize, hash: u64, entry: u32) {
        self.slots[at] = (hash, entry);
        self.held += 1;
        if 2 * self.held > self.slots.len() {
            let grown = vec![(0, NO_ENTRY); 2 * self.slots.len()];
            for (hash, entry) in std::mem::replace(&mut self.slots, grown) {
                if entry != NO_ENTRY {
                    let at = self.find(hash, |_| false).unwrap_err();
                    self.slots[at] = (hash, entry);
                }
            }
        }
    }
}

/// All that came, the messages, the index of keys, and the queue of the one destination.
struct Book {
    arena: Vec<u8>,
    entries: Vec<Entry>,
    rows: Vec<Row>,
    queue: Vec<u32>,
    index: Index,
    events_max: usize,
    /// Received, filtered, accepted, refused and repeated.
    counts: [usize; 5],
}

impl Book {
    fn new(events_max: usize) -> Book {
        Book {
            arena: Vec::new(),
            entries: Vec::new(),
            rows: Vec::new(),
            queue: Vec::new(),
            index: Index::new(),
            events_max,
            counts: [0; 5],
        }
    }

    fn text(&self, entry: &Entry) -> &[u8] {
        &self.arena[entry.start..entry.start + entry.len as usize]
    }

    /// Whether the entry is the arrival of this block.
    fn brings(&self, entry: u32, block: Block) -> bool {
        *self.text(&self.entries[entry as usize]) == block.bytes[..block.len]
    }

    /// The fingerprint of a key, and the entry that has the key or where it would be in the index.
    fn first_of(&self, bytes: &[u8], key: [Span; 3]) -> (u64, Result<u32, usize>) {
        let mut hash = 0;
        for part in key {
            hash = self.index.fingerprint(hash, bytes, part);
        }
        let found = self.index.find(hash, |entry| {
            let entry = &self.entries[entry as usize];
            let text = self.text(entry);
            let parts = [entry.application, entry.facility, entry.control_id];
            parts.iter().zip(key).all(|(kept, part)| kept.of(text) == part.of(bytes))
        });
        (hash, found)
    }

    /// Books a message and answers it; an error where there is no room.
    fn arrive(&mut self, judged: &Judged) -> Result<Answer, Cause> {
        let bytes = judged.block.bytes;
        let [application, facility, control_id] =
            [2, 3, 9].map(|field: usize| judged.head.fields[field]);
        let (hash, found) = self.first_of(bytes, [application, facility, control_id]);
        let answer = match (found, judged.verdict) {
            (Ok(first), _) if self.brings(first, judged.block) => Answer::Repeat(first),
            (Ok(_), _) => Answer::Refused(Cause::IdReused),
            (Err(_), Verdict::Refused(cause)) => Answer::Refused(cause),
            (Err(_), Verdict::Filtered) => Answer::Filtered,
            (Err(_), Verdict::Accepted) => Answer::Accepted(self.rows.len() as u32),
        };
        let owed = if let Answer::Accepted(_) = answer { OWED } else { 0 };
        if self.entries.len() + OWED * self.rows.len() + 1 + owed > self.events_max {
            return Err(Cause::Full);
        }
        let (start, len, entry) =
            (self.arena.len(), judged.block.len as u32, self.entries.len() as u32);
        self.arena.extend_from_slice(&bytes[..judged.block.len]);
        if let Answer::Accepted(_) = answer {
            self.keep(judged, start, entry);
        }
        if let (Err(at), Answer::Accepted(_) | Answer::Filtered) = (found, answer) {
            self.index.add(at, hash, entry);
        }
        self.entries.push(Entry { start, len, application, facility, control_id, answer });
        self.count(answer);
        Ok(answer)
    }

    /// Queues a message whose text as received is in the arena, from `start` on.
    fn keep(&mut self, judged: &Judged, mut start: usize, entry: u32) {
        if !judged.head.is_printed {
            start = self.arena.len();
            for segment in judged.block.segments() {
                self.arena.extend_from_slice(segment.of(judged.block.bytes));
                self.arena.push(b'\r');
            }
        }
        self.queue.push(self.rows.len() as u32);
        self.rows.push(Row { start, len: (self.arena.len() - start) as u32, entry });
    }

    fn count(&mut self, answer: Answer) {
        let (received, kind) = match answer {
            Answer::Filtered => (1, 1),
            Answer::Accepted(_) => (1, 2),
            Answer::Refused(_) => (1, 3),
            Answer::Repeat(_) => (0, 4),
        };
        self.counts[0] += received;
        self.counts[kind] += 1;
    }
}

/// The codes that a message is due, MSA-1, in their order.
fn codes(
    accept: &[u8],
    application: &[u8],
    refusal: Option<Cause>,
) -> [Option<&'static [u8; 2]>; 2] {
    let wanted = |raw: &[u8]| match raw {
        b"" | b"\"\"" | b"NE" => (false, false),
        b"ER" => (false, true),
        b"SU" => (true, false),
        _ => (true, true),
    };
    let is_original = is_vacant(accept) && is_vacant(application);
    let (accept, application) = (wanted(accept), wanted(application));
    match refusal.map(Cause::is_reject) {
        None if is_original => [Some(b"AA"), None],
        None => [
            if accept.0 { Some(b"CA") } else { None },
            if application.0 { Some(b"AA") } else { None },
        ],
        Some(is_reject) if !is_original && accept.1 => {
            [Some(if is_reject { b"CR" } else { b"CE" }), None]
        }
        Some(is_reject) if is_original || application.1 => {
            [Some(if is_reject { b"AR" } else { b"AE" }), None]
        }
        Some(_) => [None, None],
    }
}

/// A number in decimal digits, the last ones of its array.
struct Decimal {
    digits: [u8; 20],
    first: usize,
}

impl Decimal {
    fn increase(&mut self) {
        let mut at = self.digits.len() - 1;
        while self.digits[at] == b'9' {
            self.digits[at] = b'0';
            at -= 1;
        }
        self.digits[at] += 1;
        self.first = self.first.min(at);
    }
}

/// The acknowledgments of a connection that are not written yet.
struct Replies {
    bytes: Vec<u8>,
    made: Decimal,
    moment: u64,
    stamp: [u8; 19],
}

impl Replies {
    fn new() -> Replies {
        let mut replies = Replies {
            bytes: Vec::new(),
            made: Decimal { digits: [b'0'; 20], first: 19 },
            moment: 1,
            stamp: *b"YYYYMMDDHHMMSS+0000",
        };
        replies.set_moment(0);
        replies
    }

    /// Makes the stamp anew where the second is another one.
    fn set_moment(&mut self, moment: u64) {
        if moment == self.moment {
            return;
        }
        self.moment = moment;
        self.stamp.copy_from_slice(stamp(moment).as_bytes());
    }

    /// Appends a fixed text in which each bar is the message's separator.
    fn put_fixed(&mut self, fixed: &[u8], separator: u8) {
        let from = self.bytes.len();
        self.bytes.extend_from_slice(fixed);
        if separator != b'|' {
            for byte in &mut self.bytes[from..] {
                if *byte == b'|' {
                    *byte = separator;
                }
            }
        }
    }

    /// Appends MSH-7 to MSH-10: the stamp, `ACK` with the trigger event, and the control id of
    /// connection 0.
    fn put_kind(&mut self, judged: &Judged) {
        let Head { separator, component, .. } = judged.head;
        self.bytes.extend_from_slice(&self.stamp);
        self.put_fixed(b"||ACK", separator);
        let event = judged.event.of(judged.block.bytes);
        if !is_vacant(event) {
            self.bytes.push(component);
            self.bytes.extend_from_slice(event);
            self.bytes.extend_from_slice(&[component, b'A', b'C', b'K']);
        }
        self.made.increase();
        self.bytes.extend_from_slice(&[separator, b'0', b'.']);
        self.bytes.extend_from_slice(&self.made.digits[self.made.first..]);
        self.bytes.push(separator);
    }

    /// Appends a field and the next one, each with a separator behind it.
    fn put_two(&mut self, judged: &Judged, first: usize) {
        let separator = judged.head.separator;
        let (one, two) = (judged.head.fields[first - 1], judged.head.fields[first]);
        if one.end + 1 == two.start {
            self.bytes
                .extend_from_slice(Span { start: one.start, end: two.end }.of(judged.block.bytes));
        } else {
            // The header ends before the second.
            self.bytes.extend_from_slice(judged.field(first));
            self.bytes.push(separator);
        }
        self.bytes.push(separator);
    }

    /// Appends an acknowledgment as a block.
    fn put(&mut self, judged: &Judged, code: &[u8; 2], cause: Option<Cause>, is_original: bool) {
        let separator = judged.head.separator;
        self.bytes.reserve(judged.block.len.min(judged.head.fields[15].end as usize) + 160);
        self.bytes.extend_from_slice(&[START_BLOCK, b'M', b'S', b'H', separator]);
        self.bytes.extend_from_slice(judged.field(2));
        self.bytes.push(separator);
        self.put_two(judged, 5);
        self.put_two(judged, 3);
        self.put_kind(judged);
        self.bytes.extend_from_slice(judged.field(11));
        self.bytes.push(separator);
        self.bytes.extend_from_slice(judged.field(12));
        self.put_fixed(if is_original { b"\rMSA|" } else { b"|||NE|NE\rMSA|" }, separator);
        self.bytes.extend_from_slice(&[code[0], code[1], separator]);
        self.bytes.extend_from_slice(judged.field(10));
        if let Some(cause) = cause {
            self.bytes.push(separator);
            self.bytes.extend_from_slice(cause.name().as_bytes());
        }
        self.bytes.extend_from_slice(&[b'\r', END_BLOCK, b'\r']);
    }

    /// Appends the acknowledgments that a message is due.
    fn put_due(&mut self, judged: &Judged, outcome: Result<Answer, Cause>) {
        let refusal = match outcome {
            Ok(Answer::Refused(cause)) | Err(cause) => Some(cause),
            Ok(_) => None,
        };
        let (accept, application) = (judged.field(15), judged.field(16));
        let is_original = is_vacant(accept) && is_vacant(application);
        for code in codes(accept, application, refusal).iter().flatten() {
            self.put(judged, code, refusal, is_original);
        }
    }
}

/// Where the reading of a stream is.
#[derive(Clone, Copy)]
enum Stage {
    Outside,
    /// In a block's data.
    Inside,
    /// Behind the end block character at this offset.
    Ended(usize),
}

/// What was read and is not answered yet: an open block, and what follows it.
struct Input {
    bytes: Vec<u8>,
    filled: usize,
    stage: Stage,
    /// Where the open block's data begins, and how many bytes of it were dropped since they were
    /// too many.
    start: usize,
    dropped: usize,
    /// Where the carriage returns of the open block are, counted from its beginning.
    ends: Vec<u32>,
}

impl Input {
    fn new() -> Input {
        Input {
            bytes: vec![0; 4 * PIECE + LANES],
            filled: 0,
            stage: Stage::Outside,
            start: 0,
            dropped: 0,
            ends: Vec::new(),
        }
    }

    /// Moves an open block to the front, and drops it where it is too long, so that a piece has
    /// room.
    fn make_room(&mut self) {
        let from = if let Stage::Outside = self.stage { self.filled } else { self.start };
        if self.filled - from > DATA_MAX + 1 {
            // The last two bytes stay, since one of them may be the end block character.
            let to_drop = self.filled - from - 2;
            self.bytes.copy_within(self.filled - 2..self.filled, 0);
            self.dropped += to_drop;
            self.ends.clear();
            self.move_back(from + to_drop);
        } else if from > 0 {
            self.bytes.copy_within(from..self.filled, 0);
            self.move_back(from);
        }
        if self.bytes.len() < self.filled + PIECE + LANES {
            self.bytes.resize(2 * self.bytes.len(), 0);
        }
    }

    fn move_back(&mut self, by: usize) {
        self.filled -= by;
        self.start = 0;
        if let Stage::Ended(end) = self.stage {
            self.stage = Stage::Ended(end - by);
        }
    }

    /// Reads on by a piece of this length behind what is filled, and hands on each block that ends.
    fn read_on(&mut self, len: usize, mut answer: impl FnMut(Block)) {
        let mut at = self.filled;
        self.filled += len;
        while at < self.filled {
            let mut mask = controls(lanes(&self.bytes, at));
            if self.filled - at < LANES {
                mask &= (1 << (self.filled - at)) - 1;
            }
            while mask != 0 {
                let place = at + mask.trailing_zeros() as usize;
                mask &= mask - 1;
                self.meet(place, &mut answer);
            }
            at += LANES;
        }
    }

    /// Goes on by a control byte.
    fn meet(&mut self, place: usize, answer: &mut impl FnMut(Block)) {
        let byte = self.bytes[place];
        if let Stage::Ended(end) = self.stage {
            self.stage = Stage::Outside;
            let len = end - self.start;
            if place == end + 1 && byte == b'\r' && self.dropped == 0 && len <= DATA_MAX {
                answer(Block { bytes: &self.bytes[self.start..], len, ends: &self.ends });
            }
        }
        match (self.stage, byte) {
            (_, START_BLOCK) => {
                self.stage = Stage::Inside;
                self.start = place + 1;
                self.dropped = 0;
                self.ends.clear();
            }
            (Stage::Inside, END_BLOCK) => self.stage = Stage::Ended(place),
            (Stage::Inside, b'\r') => self.ends.push((place - self.start) as u32),
            _ => {}
        }
    }
}

fn serve(
    book: &mut Book,
    now: Option<u64>,
    filtered: bool,
    reader: &mut impl Read,
    writer: &mut impl Write,
) -> io::Result<()> {
    let (mut input, mut replies) = (Input::new(), Replies::new());
    loop {
        input.make_room();
        let len = read_piece(reader, &mut input.bytes[input.filled..][..PIECE])?;
        if len == 0 {
            return Ok(());
        }
        replies.set_moment(now.unwrap_or_else(seconds_now));
        input.read_on(len, |block| {
            if let Some(judged) = judge(block, filtered) {
                let outcome = book.arrive(&judged);
                replies.put_due(&judged, outcome);
            }
        });
        writer.write_all(&replies.bytes)?;
        replies.bytes.clear();
    }
}

fn main() -> ExitCode {
    let words: Vec<String> = env::args().skip(1).collect();
    let mut book = Book::new(option(&words, "--events").unwrap_or(1_000_000) as usize);
    let filtered = words.iter().any(|word| word == "--filtered");
    // SAFETY: descriptors 0 and 1 are open, and are not closed by these.
    let [mut reader, mut writer] =
        [0, 1].map(|fd| ManuallyDrop::new(unsafe { File::from_raw_fd(fd) }));
    match serve(&mut book, option(&words, "--now"), filtered, &mut *reader, &mut *writer) {
        Ok(()) => ExitCode::SUCCESS,
        Err(error) => {
            eprintln!("tuned: {}", error);
            ExitCode::FAILURE
        }
    }
}
