//! A server in plain Rust for what bench/fan_out asks: it prints 'serving PORT' and has one record of LONGs, a value for each circuit that reads TEMP, and subscribers.
//! Each circuit has a thread that reads and one that writes what it is handed through a channel. An update is made once for all who subscribe.

use std::io::{BufReader, Read, Result, Write};
use std::net::{TcpListener, TcpStream};
use std::sync::mpsc::{Receiver, Sender, channel};
use std::sync::{Arc, Mutex};
use std::thread;

const VERSION: u16 = 0;
const EVENT_ADD: u16 = 1;
const WRITE: u16 = 4;
const READ_NOTIFY: u16 = 15;
const CREATE_CHAN: u16 = 18;
const ACCESS_RIGHTS: u16 = 22;

type Bytes = Arc<[u8]>;

struct Message {
    command: u16,
    data_type: u16,
    count: u32,
    p1: u32,
    p2: u32,
    payload: Vec<u8>,
}

#[derive(Default)]
struct Record {
    value: Vec<u8>,
    subscribers: Vec<Subscriber>,
}

struct Subscriber {
    data_type: u16,
    count: u32,
    id: u32,
    sender: Sender<Bytes>,
}

fn word(bytes: &[u8], at: usize) -> u32 {
    u32::from_be_bytes(bytes[at..at + 4].try_into().unwrap())
}

fn read_message(from: &mut impl Read) -> Result<Message> {
    let mut head = [0; 24];
    from.read_exact(&mut head[..16])?;
    let (mut size, mut count) = (word(&head, 0) & 0xFFFF, word(&head, 4) & 0xFFFF);
    if size == 0xFFFF && count == 0 {
        from.read_exact(&mut head[16..])?;
        (size, count) = (word(&head, 16), word(&head, 20));
    }
    let mut payload = vec![0; size as usize];
    from.read_exact(&mut payload)?;
    Ok(Message {
        command: (word(&head, 0) >> 16) as u16,
        data_type: (word(&head, 4) >> 16) as u16,
        count,
        p1: word(&head, 8),
        p2: word(&head, 12),
        payload,
    })
}

fn message(command: u16, data_type: u16, count: u32, p1: u32, p2: u32, payload: &[u8]) -> Bytes {
    let size = payload.len().next_multiple_of(8);
    let is_extended = size > 65_528 || count > 0xFFFF;
    let mut bytes = Vec::with_capacity(24 + size);
    let (short_size, short_count) = if is_extended { (0xFFFF, 0) } else { (size as u16, count as u16) };
    for it in [command, short_size, data_type, short_count] {
        bytes.extend_from_slice(&it.to_be_bytes());
    }
    bytes.extend_from_slice(&p1.to_be_bytes());
    bytes.extend_from_slice(&p2.to_be_bytes());
    if is_extended {
        bytes.extend_from_slice(&(size as u32).to_be_bytes());
        bytes.extend_from_slice(&count.to_be_bytes());
    }
    bytes.extend_from_slice(payload);
    bytes.resize(bytes.len() + size - payload.len(), 0);
    bytes.into()
}

/// The first elements of a value, with zeros after those that there are.
fn elements(value: &[u8], count: u32) -> Vec<u8> {
    let mut first = value[..value.len().min(4 * count as usize)].to_vec();
    first.resize(4 * count as usize, 0);
    first
}

fn handle(it: Message, record: &Mutex<Record>, sender: &Sender<Bytes>) {
    let replies = match it.command {
        VERSION => vec![message(VERSION, 0, 13, 0, 0, &[])],
        CREATE_CHAN => vec![
            message(ACCESS_RIGHTS, 0, 0, it.p1, 3, &[]),
            message(CREATE_CHAN, 5, 1, it.p1, 0x10000, &[]),
        ],
        READ_NOTIFY => vec![message(READ_NOTIFY, it.data_type, it.count, 1, it.p2, &elements(&21u32.to_be_bytes(), it.count))],
        EVENT_ADD => {
            let mut record = record.lock().unwrap();
            let first = message(EVENT_ADD, it.data_type, it.count, 1, it.p2, &elements(&record.value, it.count));
            record.subscribers.push(Subscriber { data_type: it.data_type, count: it.count, id: it.p2, sender: sender.clone() });
            vec![first]
        }
        WRITE => {
            let mut record = record.lock().unwrap();
            record.value = it.payload;
            post(&mut record);
            vec![]
        }
        _ => vec![],
    };
    for reply in replies {
        let _gone = sender.send(reply);
    }
}

/// Hands an update to each subscriber: those who ask for the same have the same bytes.
fn post(record: &mut Record) {
    let Record { value, subscribers } = record;
    let mut made: Option<((u16, u32, u32), Bytes)> = None;
    subscribers.retain(|it| {
        let asked = (it.data_type, it.count, it.id);
        let bytes = match &made {
            Some((of, bytes)) if *of == asked => bytes.clone(),
            _ => message(EVENT_ADD, it.data_type, it.count, 1, it.id, &elements(value, it.count)),
        };
        made = Some((asked, bytes.clone()));
        it.sender.send(bytes).is_ok()
    });
}

fn write_on(mut circuit: TcpStream, receiver: Receiver<Bytes>) {
    for bytes in receiver {
        if circuit.write_all(&bytes).is_err() {
            return;
        }
    }
}

fn serve(circuit: TcpStream, record: Arc<Mutex<Record>>) -> Result<()> {
    circuit.set_nodelay(true)?;
    let (sender, receiver) = channel();
    let output = circuit.try_clone()?;
    thread::spawn(move || write_on(output, receiver));
    let mut input = BufReader::with_capacity(65_536, circuit);
    loop {
        handle(read_message(&mut input)?, &record, &sender);
    }
}

fn main() -> Result<()> {
    let listener = TcpListener::bind("127.0.0.1:0")?;
    println!("serving {}", listener.local_addr()?.port());
    let record = Arc::new(Mutex::new(Record::default()));
    for circuit in listener.incoming() {
        let record = record.clone();
        let circuit = circuit?;
        thread::spawn(move || serve(circuit, record));
    }
    Ok(())
}
