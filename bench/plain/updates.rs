//! The subscriptions of a circuit, and the queues in which their updates wait.

use crate::records::Record;
use crate::values::{DataType, Value, put_shown};
use crate::wire::{Header, command};
use std::collections::{HashMap, VecDeque};
use std::rc::Rc;

const QUEUES: usize = 8;
const QUEUE_SUBSCRIPTIONS: usize = 36;
const QUEUE_PLACES: usize = 144;
/// With so few places left a post replaces.
const LOW_PLACES: usize = 36;

const NORMAL: u32 = 1;
const GETFAIL: u32 = 152;

/// The SID and the id that an EVENT_ADD or an EVENT_CANCEL names.
pub type Key = (u32, u32);

struct Subscription {
    key: Key,
    data_type: u16,
    to: DataType,
    count: u32,
    mask: u16,
    record: usize,
    queue: usize,
    /// How many updates of it wait, and the number of the last one in its queue.
    waiting: usize,
    last: usize,
}

struct Update {
    subscription: usize,
    value: Rc<Value>,
}

/// At most 144 updates, in order. They are numbered from the first that the queue ever had.
#[derive(Default)]
struct Queue {
    updates: VecDeque<Update>,
    taken: usize,
    subscriptions: usize,
    /// How many wait besides one of each subscription that has one.
    extra: usize,
}

pub struct Subscriptions {
    all: Vec<Option<Subscription>>,
    free: Vec<usize>,
    places: HashMap<Key, usize>,
    queues: [Queue; QUEUES],
    waiting: usize,
    events_on: bool,
}

impl Queue {
    fn push(&mut self, update: Update, of: &mut Subscription, events_on: bool) -> bool {
        let is_replacing = !events_on || QUEUE_PLACES - self.updates.len() <= LOW_PLACES;
        if is_replacing && of.waiting > 0 {
            self.updates[of.last - self.taken] = update;
            return false;
        }
        self.extra += usize::from(of.waiting > 0);
        of.waiting += 1;
        of.last = self.taken + self.updates.len();
        self.updates.push_back(update);
        true
    }

    /// The front, unless events are off and no subscription has two.
    fn pop(&mut self, events_on: bool) -> Option<Update> {
        if !events_on && self.extra == 0 {
            return None;
        }
        let update = self.updates.pop_front()?;
        self.taken += 1;
        Some(update)
    }
}

impl Subscriptions {
    pub fn new() -> Subscriptions {
        Subscriptions {
            all: Vec::new(),
            free: Vec::new(),
            places: HashMap::new(),
            queues: Default::default(),
            waiting: 0,
            events_on: true,
        }
    }

    pub fn has(&self, key: Key) -> bool {
        self.places.contains_key(&key)
    }

    pub fn is_full(&self) -> bool {
        self.places.len() == QUEUES * QUEUE_SUBSCRIPTIONS
    }

    pub fn switch(&mut self, on: bool) {
        self.events_on = on;
    }

    /// Begins one that is new, in the first queue with room. Its first update is the present value.
    pub fn begin(
        &mut self,
        request: &Header,
        to: DataType,
        mask: u16,
        record: usize,
        on: &mut Record,
    ) {
        let has_room = |queue: &Queue| queue.subscriptions < QUEUE_SUBSCRIPTIONS;
        let queue = self.queues.iter().position(has_room).expect("they are not full");
        self.queues[queue].subscriptions += 1;
        let key = (request.p1, request.p2);
        let (data_type, count) = (request.data_type, request.count);
        let new =
            Subscription { key, data_type, to, count, mask, record, queue, waiting: 0, last: 0 };
        let place = match self.free.pop() {
            Some(place) => {
                self.all[place] = Some(new);
                place
            }
            None => {
                self.all.push(Some(new));
                self.all.len() - 1
            }
        };
        self.places.insert(key, place);
        on.watchers.push(place);
        self.push(place, &on.value);
    }

    /// A post to a record: each subscription on it that the mask concerns gets an update.
    pub fn post(&mut self, record: &Record, mask: u16) {
        for &place in &record.watchers {
            if self.at(place).mask & mask != 0 {
                self.push(place, &record.value);
            }
        }
    }

    fn push(&mut self, place: usize, value: &Rc<Value>) {
        let of = self.all[place].as_mut().expect("it stands");
        let update = Update { subscription: place, value: Rc::clone(value) };
        let is_new = self.queues[of.queue].push(update, of, self.events_on);
        self.waiting += usize::from(is_new);
    }

    fn at(&self, place: usize) -> &Subscription {
        self.all[place].as_ref().expect("it stands")
    }

    /// Ends the one of this key, if there is one: its updates leave their queue.
    pub fn cancel(&mut self, key: Key, records: &mut [Record]) {
        let Some(place) = self.places.remove(&key) else {
            return;
        };
        let gone = self.all[place].take().expect("it stands");
        self.free.push(place);
        records[gone.record].watchers.retain(|&other| other != place);
        let queue = &mut self.queues[gone.queue];
        queue.subscriptions -= 1;
        queue.updates.retain(|update| update.subscription != place);
        queue.extra -= gone.waiting.saturating_sub(1);
        self.waiting -= gone.waiting;
        for (number, update) in queue.updates.iter().enumerate() {
            let of = self.all[update.subscription].as_mut().expect("it stands");
            of.last = queue.taken + number;
        }
    }

    /// Ends those of a channel to this record.
    pub fn clear(&mut self, sid: u32, record: usize, records: &mut [Record]) {
        for place in records[record].watchers.clone() {
            let key = self.at(place).key;
            if key.0 == sid {
                self.cancel(key, records);
            }
        }
    }

    /// Puts updates into the output until none may go, or the output has so many bytes.
    pub fn pump(&mut self, records: &[Record], limit: usize, out: &mut Vec<u8>) {
        for queue in &mut self.queues {
            loop {
                if self.waiting == 0 || out.len() >= limit {
                    return;
                }
                let Some(update) = queue.pop(self.events_on) else {
                    break;
                };
                self.waiting -= 1;
                let of = self.all[update.subscription].as_mut().expect("it stands");
                of.waiting -= 1;
                queue.extra -= usize::from(of.waiting > 0);
                show(of, &records[of.record], &update.value, out);
            }
        }
    }
}

/// Puts an update into the output: GETFAIL and zeros if its elements have no place in the type that is asked for.
fn show(of: &Subscription, on: &Record, value: &Value, out: &mut Vec<u8>) {
    let head = Header {
        command: command::EVENT_ADD,
        data_type: of.data_type,
        size: 0,
        count: if of.count == 0 { value.count } else { of.count },
        p1: NORMAL,
        p2: of.key.1,
    };
    if put_shown(head, value, on.base, of.to, out).is_err() {
        let size = of.to.payload_size(head.count);
        Header { size: size as u32, p1: GETFAIL, ..head }.put(out);
        out.resize(out.len() + size, 0);
    }
}
