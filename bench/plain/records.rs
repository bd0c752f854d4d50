//! Records and rules of access, and the file that says them.

use crate::values::{Base, Meta, Value};
use crate::wire::{PAYLOAD_LIMIT, Refusal};
use std::collections::HashMap;
use std::rc::Rc;

const NAME_LIMIT: usize = 60;
const ELEMENT_LIMIT: u32 = 262_144;

pub const MAY_READ: u32 = 1;
pub const MAY_WRITE: u32 = 2;

pub const STANDING: &[u8] = b"record TEMP LONG 1 quick 21
record SETP LONG 1 quick 0
record GAIN DOUBLE 1 quick 3FF0000000000000
record NOTE STRING 1 quick 4F4B
record WAVE LONG 20000 quick 7
record SLOW LONG 1 slow 0
";

/// A record. An update that waits shares the value that it shows, so that a write leaves that value as it was.
pub struct Record {
    pub base: Base,
    pub greatest_count: u32,
    pub is_slow: bool,
    pub value: Rc<Value>,
    /// The places of the subscriptions on it, in the order in which they began.
    pub watchers: Vec<usize>,
}

impl Record {
    /// Sets its value, in the memory of the one before unless an update shares that.
    pub fn set(&mut self, meta: Meta, count: u32, elements: &[u8]) {
        match Rc::get_mut(&mut self.value) {
            Some(value) => {
                (value.meta, value.count) = (meta, count);
                value.bytes.clear();
                value.bytes.extend_from_slice(elements);
            }
            None => self.value = Rc::new(Value { meta, count, bytes: elements.to_vec() }),
        }
    }
}

/// A rule of access: whom and which record it meets, where none stands for all.
struct Rule {
    user: Option<Vec<u8>>,
    host: Option<Vec<u8>>,
    record: Option<Vec<u8>>,
    rights: u32,
}

#[derive(Default)]
pub struct Records {
    pub all: Vec<Record>,
    places: HashMap<Vec<u8>, usize>,
    rules: Vec<Rule>,
}

impl Records {
    pub fn find(&self, name: &[u8]) -> Option<usize> {
        self.places.get(name).copied()
    }

    pub fn rights(&self, user: &[u8], host: &[u8], name: &[u8]) -> u32 {
        let meets = |wanted: &Option<Vec<u8>>, word: &[u8]| {
            wanted.as_ref().is_none_or(|wanted| wanted == word)
        };
        let rule = self.rules.iter().find(|rule| {
            meets(&rule.user, user) && meets(&rule.host, host) && meets(&rule.record, name)
        });
        rule.map_or(MAY_READ | MAY_WRITE, |rule| rule.rights)
    }

    /// Reads lines of records and of rules.
    pub fn read(text: &[u8]) -> Result<Records, Refusal> {
        let mut records = Records::default();
        let lines = text.strip_suffix(b"\n").unwrap_or(text);
        if text.is_empty() {
            return Ok(records);
        }
        for line in lines.split(|&byte| byte == b'\n') {
            records.read_line(line).ok_or(Refusal::BadText)?;
        }
        Ok(records)
    }

    fn read_line(&mut self, line: &[u8]) -> Option<()> {
        let words: Vec<&[u8]> = line.split(|&byte| byte == b' ').collect();
        if words.iter().any(|word| word.is_empty()) {
            return None;
        }
        match words[..] {
            [b"record", name, base, count, speed, ref values @ ..] => {
                let record = read_record(base, count, speed, values)?;
                self.define(name, record)
            }
            [b"rule", user, host, record, rights] => {
                self.rules.push(read_rule(user, host, record, rights)?);
                Some(())
            }
            _ => None,
        }
    }

    fn define(&mut self, name: &[u8], record: Record) -> Option<()> {
        if name.len() > NAME_LIMIT || name.contains(&0) || self.places.contains_key(name) {
            return None;
        }
        self.places.insert(name.to_vec(), self.all.len());
        self.all.push(record);
        Some(())
    }
}

fn read_record(base: &[u8], count: &[u8], speed: &[u8], values: &[&[u8]]) -> Option<Record> {
    let base = read_base(base)?;
    let greatest_count = read_whole::<u32>(count).filter(|_| count[0] != b'-')?;
    let is_slow = match speed {
        b"quick" => false,
        b"slow" => true,
        _ => return None,
    };
    let mut bytes = Vec::new();
    for word in values {
        read_element(base, word, &mut bytes)?;
    }
    let is_fit = greatest_count <= ELEMENT_LIMIT && values.len() <= greatest_count as usize;
    if values.is_empty() || !is_fit {
        return None;
    }
    let count = values.len() as u32;
    let value = Rc::new(Value { meta: Meta::default(), count, bytes });
    Some(Record { base, greatest_count, is_slow, value, watchers: Vec::new() })
}

fn read_base(word: &[u8]) -> Option<Base> {
    let base = match word {
        b"STRING" => Base::String,
        b"INT" => Base::Int,
        b"FLOAT" => Base::Float,
        b"ENUM" => Base::Enum,
        b"CHAR" => Base::Char,
        b"LONG" => Base::Long,
        b"DOUBLE" => Base::Double,
        _ => return None,
    };
    Some(base)
}

fn read_element(base: Base, word: &[u8], out: &mut Vec<u8>) -> Option<()> {
    match base {
        Base::String => {
            let text = read_hex(word).filter(|text| text.len() <= 40)?;
            let end = out.len() + 40;
            out.extend(text);
            out.resize(end, 0);
        }
        Base::Float | Base::Double => {
            out.extend(read_hex(word).filter(|bits| bits.len() == base.size())?);
        }
        Base::Int => out.extend(read_whole::<i16>(word)?.to_be_bytes()),
        Base::Enum => out.extend(read_whole::<u16>(word)?.to_be_bytes()),
        Base::Char => out.extend(read_whole::<u8>(word)?.to_be_bytes()),
        Base::Long => out.extend(read_whole::<i32>(word)?.to_be_bytes()),
    }
    Some(())
}

/// The number that a word of digits is, perhaps after a minus.
fn read_whole<T: TryFrom<i64>>(word: &[u8]) -> Option<T> {
    if word[0] == b'+' {
        return None;
    }
    let number: i64 = str::from_utf8(word).ok()?.parse().ok()?;
    T::try_from(number).ok()
}

fn read_hex(word: &[u8]) -> Option<Vec<u8>> {
    let digit = |byte: u8| char::from(byte).to_digit(16);
    let (pairs, rest) = word.as_chunks::<2>();
    if !rest.is_empty() {
        return None;
    }
    pairs.iter().map(|[high, low]| Some((16 * digit(*high)? + digit(*low)?) as u8)).collect()
}

fn read_rule(user: &[u8], host: &[u8], record: &[u8], rights: &[u8]) -> Option<Rule> {
    let rights = match rights {
        b"rw" => MAY_READ | MAY_WRITE,
        b"r" => MAY_READ,
        b"w" => MAY_WRITE,
        b"-" => 0,
        _ => return None,
    };
    // No message carries a longer name.
    if user.len() >= PAYLOAD_LIMIT || host.len() >= PAYLOAD_LIMIT {
        return None;
    }
    let pattern = |word: &[u8]| (word != b"*").then(|| word.to_vec());
    Some(Rule { user: pattern(user), host: pattern(host), record: pattern(record), rights })
}
