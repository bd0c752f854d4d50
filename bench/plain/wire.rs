//! Messages on a circuit: their headers, read and written.

/// No payload is larger.
pub const PAYLOAD_LIMIT: usize = 16_777_216;

/// Sizes and counts from this one on take the extended header.
const EXTENDED: u32 = 0xFFFF;

pub mod command {
    pub const VERSION: u16 = 0;
    pub const EVENT_ADD: u16 = 1;
    pub const EVENT_CANCEL: u16 = 2;
    pub const WRITE: u16 = 4;
    pub const SEARCH: u16 = 6;
    pub const EVENTS_OFF: u16 = 8;
    pub const EVENTS_ON: u16 = 9;
    pub const ERROR: u16 = 11;
    pub const CLEAR_CHANNEL: u16 = 12;
    pub const NOT_FOUND: u16 = 14;
    pub const READ_NOTIFY: u16 = 15;
    pub const CREATE_CHAN: u16 = 18;
    pub const WRITE_NOTIFY: u16 = 19;
    pub const CLIENT_NAME: u16 = 20;
    pub const HOST_NAME: u16 = 21;
    pub const ACCESS_RIGHTS: u16 = 22;
    pub const ECHO: u16 = 23;
    pub const CREATE_CH_FAIL: u16 = 26;
}

/// Why a circuit, or the program, ends.
#[derive(Clone, Copy, Debug)]
pub enum Refusal {
    Misaligned = 2,
    TooLarge = 3,
    BadText = 8,
    Device = 23,
}

/// What stands before a payload of `size` bytes.
#[derive(Clone, Copy, Default)]
pub struct Header {
    pub command: u16,
    pub data_type: u16,
    pub size: u32,
    pub count: u32,
    pub p1: u32,
    pub p2: u32,
}

/// A message in the bytes that came.
pub struct Message<'a> {
    pub header: Header,
    pub payload: &'a [u8],
}

/// What stands at the front of bytes: a message and its length, less than one, or a header that is refused.
pub enum One<'a> {
    Whole(Message<'a>, usize),
    More,
    Refused(Refusal),
}

pub fn read_one(bytes: &[u8]) -> One<'_> {
    let Some((header, start)) = read_header(bytes) else {
        return One::More;
    };
    let size = header.size as usize;
    if size % 8 != 0 {
        return One::Refused(Refusal::Misaligned);
    }
    if size > PAYLOAD_LIMIT {
        return One::Refused(Refusal::TooLarge);
    }
    match bytes.get(start..start + size) {
        Some(payload) => One::Whole(Message { header, payload }, start + size),
        None => One::More,
    }
}

fn read_header(bytes: &[u8]) -> Option<(Header, usize)> {
    let front = u128::from_be_bytes(*bytes.first_chunk()?);
    let mut header = Header {
        command: (front >> 112) as u16,
        size: u32::from((front >> 96) as u16),
        data_type: (front >> 80) as u16,
        count: u32::from((front >> 64) as u16),
        p1: (front >> 32) as u32,
        p2: front as u32,
    };
    if header.size != EXTENDED {
        return Some((header, 16));
    }
    let rest = u64::from_be_bytes(*bytes[16..].first_chunk()?);
    header.size = (rest >> 32) as u32;
    header.count = rest as u32;
    Some((header, 24))
}

impl Header {
    /// Writes it in 16 bytes if size and count are both below 65,535, and else in 24.
    #[inline(always)]
    pub fn put(&self, out: &mut Vec<u8>) {
        if self.size < EXTENDED && self.count < EXTENDED {
            out.extend_from_slice(&self.front(self.size, self.count));
        } else {
            self.put_extended(out);
        }
    }

    #[inline(never)]
    fn put_extended(&self, out: &mut Vec<u8>) {
        out.extend_from_slice(&self.front(EXTENDED, 0));
        out.extend_from_slice(&self.size.to_be_bytes());
        out.extend_from_slice(&self.count.to_be_bytes());
    }

    fn front(&self, size: u32, count: u32) -> [u8; 16] {
        let high = u64::from(self.command) << 48
            | u64::from(size) << 32
            | u64::from(self.data_type) << 16
            | u64::from(count);
        let low = u64::from(self.p1) << 32 | u64::from(self.p2);
        (u128::from(high) << 64 | u128::from(low)).to_be_bytes()
    }
}

impl Message<'_> {
    /// The text in a CLIENT_NAME, HOST_NAME, SEARCH or CREATE_CHAN.
    pub fn text(&self) -> &[u8] {
        until_zero(self.payload)
    }

    /// The mask of an EVENT_ADD, if its payload has one.
    pub fn mask(&self) -> Option<u16> {
        let payload = self.payload.first_chunk::<16>()?;
        Some(u16::from_be_bytes([payload[12], payload[13]]))
    }
}

/// The bytes before the first zero.
pub fn until_zero(bytes: &[u8]) -> &[u8] {
    let end = bytes.iter().position(|&byte| byte == 0).unwrap_or(bytes.len());
    &bytes[..end]
}
