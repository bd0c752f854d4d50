//! A circuit and the server behind it: what each message is answered by.

use crate::channels::{Channel, Channels};
use crate::records::{MAY_READ, MAY_WRITE, Record, Records};
use crate::updates::Subscriptions;
use crate::values::{Base, DataType, Meta, Unfit, put_elements, put_shown};
use crate::wire::{Header, Message, command};

/// No more bytes wait when another update is put after them.
pub const OUTPUT_LIMIT: usize = 262_144;

const SERVER_PORT: u16 = 5064;
const MINOR_VERSION: u16 = 13;
/// The mask of a write: value and log.
const WRITE_MASK: u16 = 3;
/// The bits of a mask: value, log, alarm and property.
const MASKS: u16 = 15;
/// The type of a SEARCH that wants an answer if the name is unknown.
const REPLY_WANTED: u16 = 10;
/// In an ERROR, for the CID of an unknown SID.
const NO_CID: u32 = u32::MAX;

mod status {
    pub const NORMAL: u32 = 1;
    pub const BADTYPE: u32 = 114;
    pub const GETFAIL: u32 = 152;
    pub const PUTFAIL: u32 = 160;
    pub const ADDFAIL: u32 = 168;
    pub const BADCOUNT: u32 = 176;
    pub const NORDACCESS: u32 = 368;
    pub const NOWTACCESS: u32 = 376;
    pub const NOCONVERT: u32 = 400;
    pub const BADCHID: u32 = 410;
}

pub struct Circuit {
    records: Records,
    /// The time stamp of writes. Nothing sets it in a program that reads no clock.
    stamp: Meta,
    channels: Channels,
    subscriptions: Subscriptions,
    is_greeted: bool,
    user: Vec<u8>,
    host: Vec<u8>,
    /// The reply to the put that made a record busy. It is finished after its message, so that no put waits for another.
    due: Option<Header>,
    /// Room for elements in another type.
    converted: Vec<u8>,
}

impl Circuit {
    pub fn new(records: Records) -> Circuit {
        Circuit {
            records,
            stamp: Meta::default(),
            channels: Channels::default(),
            subscriptions: Subscriptions::new(),
            is_greeted: false,
            user: Vec::new(),
            host: Vec::new(),
            due: None,
            converted: Vec::new(),
        }
    }

    /// Handles a message: its replies come first, then that of a record that is finished, then updates.
    pub fn handle(&mut self, message: &Message, out: &mut Vec<u8>) {
        let limit = out.len() + OUTPUT_LIMIT;
        self.answer(message, out);
        if let Some(reply) = self.due.take() {
            reply.put(out);
        }
        self.subscriptions.pump(&self.records.all, limit, out);
    }

    // What is rare is not inlined, so that a read or a write does not pay for its locals.
    fn answer(&mut self, message: &Message, out: &mut Vec<u8>) {
        match message.header.command {
            command::VERSION => self.version(out),
            command::EVENT_ADD => self.event_add(message, out),
            command::EVENT_CANCEL => self.event_cancel(message, out),
            command::WRITE => self.write(message, out),
            command::SEARCH => self.search(message, out),
            command::EVENTS_OFF => self.subscriptions.switch(false),
            command::EVENTS_ON => self.subscriptions.switch(true),
            command::CLEAR_CHANNEL => self.clear_channel(message, out),
            command::READ_NOTIFY => self.read_notify(message, out),
            command::CREATE_CHAN => self.create_chan(message, out),
            command::WRITE_NOTIFY => self.write_notify(message, out),
            command::CLIENT_NAME => self.client_name(message),
            command::HOST_NAME => self.host_name(message),
            command::ECHO => Header { command: command::ECHO, ..Header::default() }.put(out),
            _ => {}
        }
    }

    #[inline(never)]
    fn version(&mut self, out: &mut Vec<u8>) {
        if !self.is_greeted {
            self.is_greeted = true;
            let count = MINOR_VERSION.into();
            Header { command: command::VERSION, count, ..Header::default() }.put(out);
        }
    }

    /// Names count until a channel was created.
    #[inline(never)]
    fn client_name(&mut self, message: &Message) {
        if !self.channels.was_opened() {
            self.user = message.text().to_vec();
        }
    }

    #[inline(never)]
    fn host_name(&mut self, message: &Message) {
        if !self.channels.was_opened() {
            self.host = message.text().to_vec();
        }
    }

    #[inline(never)]
    fn search(&self, message: &Message, out: &mut Vec<u8>) {
        let asked = &message.header;
        if self.records.find(message.text()).is_some() {
            let (command, data_type) = (command::SEARCH, SERVER_PORT);
            let (p1, p2) = (u32::MAX, asked.p2);
            Header { command, data_type, size: 8, count: 0, p1, p2 }.put(out);
            out.extend_from_slice(&(u64::from(MINOR_VERSION) << 48).to_be_bytes());
        } else if asked.data_type == REPLY_WANTED {
            let (command, data_type) = (command::NOT_FOUND, asked.data_type);
            let (count, cid) = (MINOR_VERSION.into(), asked.p2);
            Header { command, data_type, size: 0, count, p1: cid, p2: cid }.put(out);
        }
    }

    #[inline(never)]
    fn create_chan(&mut self, message: &Message, out: &mut Vec<u8>) {
        let (name, cid) = (message.text(), message.header.p1);
        let found = self.records.find(name);
        let Some(place) = found.filter(|_| !self.channels.has_cid(cid) && !self.channels.is_full())
        else {
            let command = command::CREATE_CH_FAIL;
            return Header { command, p1: cid, ..Header::default() }.put(out);
        };
        let rights = self.records.rights(&self.user, &self.host, name);
        let sid = self.channels.open(Channel { cid, record: place, rights });
        let record = &self.records.all[place];
        let command = command::ACCESS_RIGHTS;
        Header { command, p1: cid, p2: rights, ..Header::default() }.put(out);
        let (command, data_type) = (command::CREATE_CHAN, record.base as u16);
        let count = record.greatest_count;
        Header { command, data_type, size: 0, count, p1: cid, p2: sid }.put(out);
    }

    #[inline(never)]
    fn clear_channel(&mut self, message: &Message, out: &mut Vec<u8>) {
        let (command, Header { p1: sid, p2, .. }) = (command::CLEAR_CHANNEL, message.header);
        Header { command, p1: sid, p2, ..Header::default() }.put(out);
        if let Some(channel) = self.channels.close(sid) {
            self.subscriptions.clear(sid, channel.record, &mut self.records.all);
        }
    }

    fn read_notify(&self, message: &Message, out: &mut Vec<u8>) {
        if let Err(status) = self.show(&message.header, out) {
            reply(&message.header, status).put(out);
        }
    }

    /// Puts the answer of a read at the end, or says its first fault.
    fn show(&self, asked: &Header, out: &mut Vec<u8>) -> Result<(), u32> {
        let channel = self.channels.by_sid(asked.p1).ok_or(status::BADCHID)?;
        let record = &self.records.all[channel.record];
        let to = DataType::of(asked.data_type).ok_or(status::BADTYPE)?;
        if channel.rights & MAY_READ == 0 {
            return Err(status::NORDACCESS);
        }
        // No image of the greatest count is over the payload limit.
        let count = if asked.count == 0 { record.value.count } else { asked.count };
        if count > record.greatest_count {
            return Err(status::BADCOUNT);
        }
        let head = Header { count, p1: status::NORMAL, ..*asked };
        put_shown(head, &record.value, record.base, to, out)
            .map_err(|unfit| status_of(unfit, status::GETFAIL))
    }

    fn write(&mut self, message: &Message, out: &mut Vec<u8>) {
        match self.channels.by_sid(message.header.p1) {
            None => put_error(NO_CID, status::BADCHID, message, out),
            Some(channel) => {
                if let Err(status) = self.apply(channel, message) {
                    put_error(channel.cid, status, message, out);
                }
            }
        }
    }

    fn write_notify(&mut self, message: &Message, out: &mut Vec<u8>) {
        let Some(channel) = self.channels.by_sid(message.header.p1) else {
            return reply(&message.header, status::BADCHID).put(out);
        };
        match self.apply(channel, message) {
            Ok(()) if self.records.all[channel.record].is_slow => {
                self.due = Some(reply(&message.header, status::NORMAL));
            }
            Ok(()) => reply(&message.header, status::NORMAL).put(out),
            Err(status) => reply(&message.header, status).put(out),
        }
    }

    /// Applies a write, which reaches all subscriptions on its record, or says its first fault.
    fn apply(&mut self, channel: Channel, message: &Message) -> Result<(), u32> {
        let record = &mut self.records.all[channel.record];
        let base = Base::of(message.header.data_type).ok_or(status::BADTYPE)?;
        if channel.rights & MAY_WRITE == 0 {
            return Err(status::NOWTACCESS);
        }
        let count = message.header.count;
        if count == 0 || count > record.greatest_count {
            return Err(status::BADCOUNT);
        }
        let mut text = [0; 40];
        let mut elements = elements_of(message.payload, base, count, &mut text)?;
        if base != record.base {
            self.converted.clear();
            put_elements(elements, base, record.base, &mut self.converted)
                .map_err(|unfit| status_of(unfit, status::PUTFAIL))?;
            elements = &self.converted;
        }
        record.set(self.stamp, count, elements);
        self.subscriptions.post(record, WRITE_MASK);
        Ok(())
    }

    #[inline(never)]
    fn event_add(&mut self, message: &Message, out: &mut Vec<u8>) {
        let Some(channel) = self.channels.by_sid(message.header.p1) else {
            return put_error(NO_CID, status::BADCHID, message, out);
        };
        let record = &mut self.records.all[channel.record];
        match wanted(message, channel, record, &self.subscriptions) {
            Ok((to, mask)) => {
                self.subscriptions.begin(&message.header, to, mask, channel.record, record);
            }
            Err(status) => put_error(channel.cid, status, message, out),
        }
    }

    #[inline(never)]
    fn event_cancel(&mut self, message: &Message, out: &mut Vec<u8>) {
        let asked = message.header;
        Header { command: command::EVENT_ADD, size: 0, ..asked }.put(out);
        self.subscriptions.cancel((asked.p1, asked.p2), &mut self.records.all);
    }
}

/// The type and the mask that an EVENT_ADD asks for, or its first fault.
fn wanted(
    message: &Message,
    channel: Channel,
    record: &Record,
    subscriptions: &Subscriptions,
) -> Result<(DataType, u16), u32> {
    let asked = &message.header;
    let to = DataType::of(asked.data_type).ok_or(status::BADTYPE)?;
    if channel.rights & MAY_READ == 0 {
        return Err(status::NORDACCESS);
    }
    let mask = message.mask().filter(|mask| mask & MASKS != 0).ok_or(status::ADDFAIL)?;
    if subscriptions.has((asked.p1, asked.p2)) {
        return Err(status::ADDFAIL);
    }
    if asked.count > record.greatest_count {
        return Err(status::BADCOUNT);
    }
    if !record.base.converts_to(to.base) {
        return Err(status::NOCONVERT);
    }
    if subscriptions.is_full() {
        return Err(status::ADDFAIL);
    }
    Ok((to, mask))
}

/// The bytes of n elements in a payload. A single STRING may come short, and is filled with zeros.
fn elements_of<'a>(
    payload: &'a [u8],
    base: Base,
    count: u32,
    text: &'a mut [u8; 40],
) -> Result<&'a [u8], u32> {
    if base == Base::String && count == 1 {
        let size = payload.len().min(40);
        text[..size].copy_from_slice(&payload[..size]);
        return Ok(text);
    }
    payload.get(..count as usize * base.size()).ok_or(status::BADCOUNT)
}

fn status_of(unfit: Unfit, of_element: u32) -> u32 {
    match unfit {
        Unfit::NoConvert => status::NOCONVERT,
        Unfit::BadElement => of_element,
    }
}

/// The reply to a read or a put with notification that has a status alone.
fn reply(asked: &Header, status: u32) -> Header {
    Header { size: 0, p1: status, ..*asked }
}

/// An ERROR: the request's header, and an empty text.
#[inline(never)]
fn put_error(cid: u32, status: u32, message: &Message, out: &mut Vec<u8>) {
    let mut quoted = Vec::with_capacity(32);
    message.header.put(&mut quoted);
    quoted.extend_from_slice(&[0; 8]);
    let (command, size) = (command::ERROR, quoted.len() as u32);
    Header { command, data_type: 0, size, count: 0, p1: cid, p2: status }.put(out);
    out.extend_from_slice(&quoted);
}
