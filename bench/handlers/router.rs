//! A router's handlers in plain Rust, with names and rows in hash maps, boxed closures, and replies
//! that own a value or a packet.

use std::collections::HashMap;

const ROOM: usize = 1_600;

#[derive(Clone, Copy)]
enum Class {
    Idle,
    Counter,
    Discard,
    Queue,
}

#[allow(dead_code)]
enum State {
    Idle,
    Counter { count: u64, byte_count: u64 },
    Discard,
    Queue { length: usize, drops: u64 },
}

struct Element {
    class: Class,
    state: State,
}

#[allow(dead_code)]
pub struct Packet {
    len: usize,
    bytes: [u8; ROOM],
}

#[allow(dead_code)]
pub enum Fault {
    BadAddress,
}

#[allow(dead_code)]
pub enum Refusal {
    NoElement,
    NoHandler,
    WrongWay,
    Handler(Fault),
}

#[allow(dead_code)]
pub enum Reply {
    Value(Vec<u8>),
    Done,
    Refused(Refusal),
    Entered(u64),
    Worked(u64),
    Sent(Option<Packet>),
    NoDevice,
}

#[allow(dead_code)]
pub enum Call {
    Read { name: Vec<u8>, text: Vec<u8> },
    Write { name: Vec<u8>, text: Vec<u8> },
    Arrive { device: Vec<u8>, packet: Packet },
    Round,
}

type ReadCall = Box<dyn Fn(&Element, &[u8]) -> Result<Vec<u8>, Fault> + Send>;

type Rows = HashMap<&'static [u8], ReadCall>;

/// The rows of each class.
#[derive(Default)]
struct Table {
    reads: [Rows; 4],
    writes: [Rows; 4],
}

pub struct Router {
    names: HashMap<Vec<u8>, usize>,
    elements: Vec<Element>,
    table: Table,
}

fn decimal(value: u64) -> Vec<u8> {
    value.to_string().into_bytes()
}

fn number(of: impl Fn(&State) -> Option<u64> + Send + 'static) -> ReadCall {
    Box::new(move |element, _text| Ok(decimal(of(&element.state).unwrap_or(0))))
}

fn table() -> Table {
    let mut table = Table::default();
    let count = |state: &State| match state {
        State::Counter { count, .. } => Some(*count),
        _ => None,
    };
    let byte_count = |state: &State| match state {
        State::Counter { byte_count, .. } => Some(*byte_count),
        _ => None,
    };
    let length = |state: &State| match state {
        State::Queue { length, .. } => Some(*length as u64),
        _ => None,
    };
    let drops = |state: &State| match state {
        State::Queue { drops, .. } => Some(*drops),
        _ => None,
    };
    let counters = Class::Counter as usize;
    let queues = Class::Queue as usize;
    table.reads[counters].insert(b"count", number(count));
    table.reads[counters].insert(b"byte_count", number(byte_count));
    table.reads[queues].insert(b"length", number(length));
    table.reads[queues].insert(b"drops", number(drops));
    table.writes[counters].insert(b"reset_counts", number(count));
    table
}

impl Router {
    pub fn open(elements: usize) -> Router {
        let mut router = Router {
            names: HashMap::new(),
            elements: Vec::new(),
            table: table(),
        };
        router.add("Idle@1".into(), Class::Idle, State::Idle);
        let counter = State::Counter {
            count: 0,
            byte_count: 0,
        };
        router.add("c".into(), Class::Counter, counter);
        router.add("Discard@3".into(), Class::Discard, State::Discard);
        for at in 4..=elements.saturating_sub(3) / 2 * 2 + 3 {
            if at % 2 == 0 {
                router.add(format!("Idle@{at}"), Class::Idle, State::Idle);
            } else {
                router.add(format!("Discard@{at}"), Class::Discard, State::Discard);
            }
        }
        router
    }

    fn add(&mut self, name: String, class: Class, state: State) {
        self.names.insert(name.into_bytes(), self.elements.len());
        self.elements.push(Element { class, state });
    }

    fn read(&self, name: &[u8], text: &[u8]) -> Reply {
        let Some(dot) = name.iter().rposition(|byte| *byte == b'.') else {
            return Reply::Refused(Refusal::NoHandler);
        };
        let Some(at) = self.names.get(&name[..dot]) else {
            return Reply::Refused(Refusal::NoElement);
        };
        let element = &self.elements[*at];
        let handler = &name[dot + 1..];
        match self.table.reads[element.class as usize].get(handler) {
            Some(row) => match row(element, text) {
                Ok(value) => Reply::Value(value),
                Err(fault) => Reply::Refused(Refusal::Handler(fault)),
            },
            None if self.table.writes[element.class as usize].contains_key(handler) => {
                Reply::Refused(Refusal::WrongWay)
            }
            None => Reply::Refused(Refusal::NoHandler),
        }
    }

    pub fn step(&mut self, call: &Call) -> Reply {
        match call {
            Call::Read { name, text } => self.read(name, text),
            Call::Write { .. } | Call::Arrive { .. } => Reply::NoDevice,
            Call::Round => Reply::Worked(0),
        }
    }
}
