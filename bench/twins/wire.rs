//! What `load.rs` and `sink.rs` share: MLLP blocks (MLLP Release 1), fields of a message, numbered
//! control ids, and the words of a command line. Standard library only.
use std::collections::HashMap;
use std::io::{self, Read};
use std::str::FromStr;

pub const START_BLOCK: u8 = 0x0b;
pub const END_BLOCK: u8 = 0x1c;
/// The most bytes that one read returns.
const PIECE: usize = 16_384;

/// What was received over a connection and is not looked at yet.
#[derive(Default)]
pub struct Blocks {
    bytes: Vec<u8>,
    /// The part of `bytes` that was received and not returned.
    start: usize,
    end: usize,
    /// No block ends before this index.
    searched: usize,
}

impl Blocks {
    /// Reads once and returns the number of bytes: 0 at the end of the connection.
    ///
    /// # Errors
    ///
    /// Those of the read, `WouldBlock` among them.
    pub fn read_from(&mut self, mut reader: impl Read) -> io::Result<usize> {
        self.bytes.copy_within(self.start..self.end, 0);
        self.searched -= self.start;
        self.end -= self.start;
        self.start = 0;
        if self.bytes.len() < self.end + PIECE {
            self.bytes.resize(self.end + PIECE, 0);
        }
        let len = reader.read(&mut self.bytes[self.end..])?;
        self.end += len;
        Ok(len)
    }

    /// The text of the next whole block: what is between the start block and the end block with its
    /// carriage return.
    pub fn next(&mut self) -> Option<&[u8]> {
        loop {
            let rest = &self.bytes[self.searched..self.end];
            let at = rest.iter().position(|byte| *byte == END_BLOCK).unwrap_or(rest.len());
            let is_whole = rest.get(at + 1).map(|byte| *byte == b'\r');
            self.searched += at;
            match is_whole {
                None => return None,
                Some(false) => self.searched += 1,
                Some(true) => {
                    let text = &self.bytes[self.start..self.searched];
                    self.searched += 2;
                    self.start = self.searched;
                    return Some(text.strip_prefix(&[START_BLOCK]).unwrap_or(text));
                }
            }
        }
    }
}

/// A field of the first segment of this name. MSH-1 is the field separator itself.
pub fn field<'a>(text: &'a [u8], segment: &[u8], number: usize) -> Option<&'a [u8]> {
    let line = text.split(|byte| *byte == b'\r').find(|line| line.starts_with(segment))?;
    line.split(|byte| *byte == b'|').nth(number - usize::from(segment == b"MSH"))
}

/// A control id of the form `LOAD-3-17`, taken apart: the connection's own part, `LOAD-3`, and the
/// number of the message.
pub fn numbered(control_id: &[u8]) -> Option<(&[u8], u64)> {
    let at = control_id.iter().rposition(|byte| *byte == b'-')?;
    let number = std::str::from_utf8(&control_id[at + 1..]).ok()?.parse().ok()?;
    Some((&control_id[..at], number))
}

/// The options of a command line: `--name value`, each at most once.
pub struct Words(HashMap<String, String>);

impl Words {
    /// # Errors
    ///
    /// A word that is no option, an option without a value, and one that is given twice.
    pub fn new(mut words: impl Iterator<Item = String>) -> Result<Words, String> {
        let mut options = HashMap::new();
        while let Some(word) = words.next() {
            let name = word.strip_prefix("--").ok_or_else(|| format!("{word} is no option"))?;
            let value = words.next().ok_or_else(|| format!("--{name} has no value"))?;
            if options.insert(name.to_string(), value).is_some() {
                return Err(format!("--{name} is given twice"));
            }
        }
        Ok(Words(options))
    }

    /// The value of an option, which is not asked for again.
    ///
    /// # Errors
    ///
    /// A value that is none of its type.
    pub fn take<T: FromStr>(&mut self, name: &str) -> Result<Option<T>, String> {
        self.0
            .remove(name)
            .map(|value| value.parse().map_err(|_| format!("--{name} can't be {value}")))
            .transpose()
    }

    /// The values of an option, with commas between them; none where it is not given.
    ///
    /// # Errors
    ///
    /// A value that is none of its type.
    pub fn take_all<T: FromStr>(&mut self, name: &str) -> Result<Vec<T>, String> {
        let all = self.0.remove(name).unwrap_or_default();
        all.split(',')
            .filter(|value| !value.is_empty())
            .map(|value| value.parse().map_err(|_| format!("--{name} can't have {value}")))
            .collect()
    }

    /// # Errors
    ///
    /// An option that nothing has asked for.
    pub fn end(self) -> Result<(), String> {
        match self.0.keys().next() {
            Some(name) => Err(format!("there is no option --{name}")),
            None => Ok(()),
        }
    }
}
