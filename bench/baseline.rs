// A plain Rust program that is stripped down to what `bench/answer` asks of it, for comparison alone: nothing of it is proved, and
// nothing of the repository is built from it. It reads 64 KiB at a time, gathers its answers in a buffer of 64 KiB, and hands
// them to the system before it reads again.
//
// It has no other conduct than that of these circuits. Left out are: all types but LONG, and conversions; alarms and time stamps;
// names, rules and rights of access; ERROR, the order of faults, and SIDs that come back; masks, event queues and their
// replacing, EVENT_CANCEL, and EVENTS_OFF and EVENTS_ON; records that take time; SEARCH and ECHO; files of records; and the count
// of reads and writes. `bench/plain` is a plain Rust program of the same conduct as `ca answer`.
use std::collections::HashMap;
use std::io::{self, Read, Write};
use std::process::exit;

const ROOM: usize = 65_536;
const PAYLOAD_LIMIT: usize = 1_048_576;

struct Record {
    name: &'static [u8],
    count: u32,
    longs: Vec<i32>,
    // What is subscribed to: the subscription's id and how many elements it asked for, 0 for all.
    watched: Vec<(u32, u32)>,
}

fn record(name: &'static [u8], count: u32, value: i32) -> Record {
    Record { name, count, longs: vec![value], watched: Vec::new() }
}

fn records() -> Vec<Record> {
    vec![record(b"TEMP", 1, 21), record(b"SETP", 1, 0), record(b"WAVE", 20_000, 7), record(b"SLOW", 1, 0)]
}

struct Message<'a> {
    command: u16,
    data_type: u16,
    count: u32,
    p1: u32,
    p2: u32,
    payload: &'a [u8],
}

enum Found<'a> {
    Whole(Message<'a>, usize),
    More,
    Refused(&'static str),
}

fn number16(bytes: &[u8], at: usize) -> u16 {
    u16::from_be_bytes([bytes[at], bytes[at + 1]])
}

fn number32(bytes: &[u8], at: usize) -> u32 {
    u32::from_be_bytes([bytes[at], bytes[at + 1], bytes[at + 2], bytes[at + 3]])
}

fn read_one(bytes: &[u8]) -> Found<'_> {
    if bytes.len() < 16 {
        return Found::More;
    }
    let (start, size, count) = if number16(bytes, 2) == 0xFFFF {
        if bytes.len() < 24 {
            return Found::More;
        }
        (24, number32(bytes, 16) as usize, number32(bytes, 20))
    } else {
        (16, number16(bytes, 2) as usize, number16(bytes, 6) as u32)
    };
    if size % 8 != 0 {
        return Found::Refused("2 Misaligned");
    }
    if size > PAYLOAD_LIMIT {
        return Found::Refused("3 TooLarge");
    }
    if bytes.len() < start + size {
        return Found::More;
    }
    let message = Message {
        command: number16(bytes, 0),
        data_type: number16(bytes, 4),
        count,
        p1: number32(bytes, 8),
        p2: number32(bytes, 12),
        payload: &bytes[start..start + size],
    };
    Found::Whole(message, start + size)
}

fn spell(out: &mut Vec<u8>, command: u16, size: usize, data_type: u16, count: u32, p1: u32, p2: u32) {
    let is_short = size < 65_535 && count < 65_535;
    out.extend(command.to_be_bytes());
    out.extend((if is_short { size as u16 } else { 0xFFFF }).to_be_bytes());
    out.extend(data_type.to_be_bytes());
    out.extend((if is_short { count as u16 } else { 0 }).to_be_bytes());
    out.extend(p1.to_be_bytes());
    out.extend(p2.to_be_bytes());
    if !is_short {
        out.extend((size as u32).to_be_bytes());
        out.extend(count.to_be_bytes());
    }
}

struct Circuit {
    records: Vec<Record>,
    greeted: bool,
    created: u32,
    open: HashMap<u32, (u32, usize)>,
    cids: HashMap<u32, u32>,
}

impl Circuit {
    fn answer(&mut self, m: &Message, out: &mut Vec<u8>) {
        match m.command {
            0 if !self.greeted => {
                self.greeted = true;
                spell(out, 0, 0, 0, 13, 0, 0);
            }
            1 => self.subscribe(m, out),
            4 => {
                self.write(m, out);
            }
            12 => {
                if let Some((cid, _)) = self.open.remove(&m.p1) {
                    self.cids.remove(&cid);
                }
                spell(out, 12, 0, 0, 0, m.p1, m.p2);
            }
            15 => self.read(m, out),
            18 => self.create(m, out),
            19 => {
                let status = self.write(m, out);
                spell(out, 19, 0, m.data_type, m.count, status, m.p2);
            }
            _ => {}
        }
    }

    fn create(&mut self, m: &Message, out: &mut Vec<u8>) {
        let end = m.payload.iter().position(|&b| b == 0).unwrap_or(m.payload.len());
        let place = self.records.iter().position(|r| r.name == &m.payload[..end]);
        match place {
            Some(place) if !self.cids.contains_key(&m.p1) && self.created < 65_536 => {
                let sid = 65_536 + self.created;
                self.created += 1;
                self.open.insert(sid, (m.p1, place));
                self.cids.insert(m.p1, sid);
                spell(out, 22, 0, 0, 0, m.p1, 3);
                spell(out, 18, 0, 5, self.records[place].count, m.p1, sid);
            }
            _ => spell(out, 26, 0, 0, 0, m.p1, 0),
        }
    }

    fn read(&self, m: &Message, out: &mut Vec<u8>) {
        let Some(&(_, place)) = self.open.get(&m.p1) else {
            return spell(out, 15, 0, m.data_type, m.count, 410, m.p2);
        };
        let record = &self.records[place];
        let wanted = if m.count == 0 { record.longs.len() as u32 } else { m.count };
        if m.data_type != 5 {
            return spell(out, 15, 0, m.data_type, m.count, 114, m.p2);
        }
        if wanted > record.count || 4 * wanted as usize > PAYLOAD_LIMIT {
            return spell(out, 15, 0, m.data_type, m.count, 176, m.p2);
        }
        spell_longs(out, 15, wanted, m.p2, &record.longs);
    }

    // Writes a value and sends it to all who watch the record; gives the status for the one who wrote.
    fn write(&mut self, m: &Message, out: &mut Vec<u8>) -> u32 {
        let Some(&(_, place)) = self.open.get(&m.p1) else {
            return 410;
        };
        let record = &mut self.records[place];
        if m.data_type != 5 || m.payload.len() < 4 * m.count as usize {
            return 114;
        }
        if m.count > record.count {
            return 176;
        }
        record.longs.clear();
        record.longs.extend((0..m.count as usize).map(|i| number32(m.payload, 4 * i) as i32));
        for &(id, count) in &record.watched {
            let wanted = if count == 0 { record.longs.len() as u32 } else { count };
            spell_longs(out, 1, wanted, id, &record.longs);
        }
        1
    }

    fn subscribe(&mut self, m: &Message, out: &mut Vec<u8>) {
        let Some(&(_, place)) = self.open.get(&m.p1) else {
            return;
        };
        let record = &mut self.records[place];
        if m.data_type != 5 || m.count > record.count || m.payload.len() < 16 {
            return;
        }
        record.watched.push((m.p2, m.count));
        let wanted = if m.count == 0 { record.longs.len() as u32 } else { m.count };
        spell_longs(out, 1, wanted, m.p2, &record.longs);
    }
}

// A reply or an update with a value: these elements, then zeros.
fn spell_longs(out: &mut Vec<u8>, command: u16, wanted: u32, id: u32, longs: &[i32]) {
    let size = (4 * wanted as usize).div_ceil(8) * 8;
    spell(out, command, size, 5, wanted, 1, id);
    let whole = out.len() + size;
    for x in longs.iter().take(wanted as usize) {
        out.extend(x.to_be_bytes());
    }
    out.resize(whole, 0);
}

fn main() -> io::Result<()> {
    if std::env::args().skip(1).ne(["answer".to_string()]) {
        eprintln!("not understood");
        exit(2);
    }
    let (mut stdin, mut stdout) = (io::stdin().lock(), io::stdout().lock());
    // `held[..]` is what came and was not handled yet: less than a message, once `out` went to the system.
    let (mut held, mut out) = (Vec::new(), Vec::with_capacity(ROOM));
    let mut circuit =
        Circuit { records: records(), greeted: false, created: 0, open: HashMap::new(), cids: HashMap::new() };
    let mut chunk = vec![0; ROOM];
    loop {
        let n = stdin.read(&mut chunk)?;
        if n == 0 {
            return Ok(());
        }
        held.extend_from_slice(&chunk[..n]);
        let mut done = 0;
        let refused = loop {
            match read_one(&held[done..]) {
                Found::Whole(m, size) => {
                    circuit.answer(&m, &mut out);
                    done += size;
                }
                Found::More => break None,
                Found::Refused(why) => break Some(why),
            }
            if out.len() >= ROOM {
                stdout.write_all(&out)?;
                out.clear();
            }
        };
        held.drain(..done);
        stdout.write_all(&out)?;
        stdout.flush()?;
        out.clear();
        if let Some(why) = refused {
            eprintln!("refused: {why}");
            exit(1);
        }
    }
}
