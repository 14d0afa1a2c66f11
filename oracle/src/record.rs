//! The record after a frame, as far as the release's memory and the workers' next steps show it, in the order of the trace's fields.
use crate::baton::Access;

/// As many fields as a line of the trace has, and where its parts begin.
pub const FIELDS: usize = 204;
pub const THREADS_AT: usize = 10;
pub const QUEUES_AT: [usize; 2] = [58, 67];
pub const STAMPS_AT: usize = 76;
pub const MESSAGES_AT: usize = 140;

/// A record's fields; none where nothing shows it.
pub type Seen = Vec<Option<u64>>;

pub struct ArraySeen {
    pub shape: [usize; 3],
    pub head: usize,
    pub tail: usize,
    pub slots: Vec<(usize, u32)>,
}

/// Whose entry it is, by the release's number of the thread, and its packet's address.
pub struct Entry {
    pub owner: usize,
    pub packet: usize,
}

pub struct PacketSeen {
    pub message: u32,
    pub ready: bool,
    pub message_at: usize,
    pub ready_at: usize,
}

/// A word of an array.
#[derive(PartialEq)]
pub enum Name {
    Head,
    Tail,
    Stamp,
}

/// The trace's code of a place that no rule gives.
const UNKNOWN: u64 = 0xff;

/// Where a call on an array stands, by its code, the place before and its next access.
pub fn array_place(code: u32, before: u64, access: Access, named: impl Fn(usize) -> Name) -> u64 {
    let step = match (code, access) {
        (1, Access::Load(a)) => match named(a) {
            Name::Tail => 0xa,
            Name::Stamp => 0xb,
            Name::Head => 0xd,
        },
        (2, Access::Load(a)) => match named(a) {
            Name::Head => 0xa,
            Name::Stamp => 0xb,
            Name::Tail => 0xd,
        },
        (1, Access::WeakExchange(a, _)) if named(a) == Name::Tail => 0xc,
        (2, Access::WeakExchange(a, _)) if named(a) == Name::Head => 0xc,
        (1 | 2, Access::Message(_)) => 0xe,
        (1 | 2, Access::Store(a, _)) if named(a) == Name::Stamp => 0xf,
        (5, Access::Load(a)) if named(a) == Name::Head => 0xb,
        (5, Access::Load(a)) if named(a) == Name::Tail => if before == 0x5b { 0xc } else { 0xa },
        (6, Access::Load(a)) if named(a) == Name::Head => 0xa,
        (6, Access::Load(a)) if named(a) == Name::Tail => 0xb,
        (7, Access::Load(a)) if named(a) == Name::Tail => 0xa,
        (7, Access::Load(a)) if named(a) == Name::Head => 0xb,
        (8, Access::Load(a)) if named(a) == Name::Tail => 0xa,
        (9, Access::Mark) => 0xa,
        _ => return UNKNOWN,
    };
    (code << 4 | step) as u64
}

/// Where a call on a rendezvous stands.
pub fn zero_place(code: u32, before: u64, access: Access) -> u64 {
    let side = if code % 2 == 1 { 0x30 } else { 0x40 };
    match (code, access) {
        (1..=4, Access::Lock) if before == 0 => (code << 4) as u64,
        (1..=4, Access::Message(_)) => side | 1,
        (1..=4, Access::Store(..)) => side | 2,
        (3 | 4, Access::Poll(_)) => side | 3,
        (3 | 4, Access::Load(_)) => side | 4,
        (3 | 4, Access::Lock) => side | 5,
        (5..=7, Access::Nothing) | (8 | 9, Access::Lock) => (code << 4) as u64,
        _ => UNKNOWN,
    }
}

/// At a place of a rendezvous where the own word and packet are used.
pub fn waits(place: u64) -> bool {
    matches!(place, 0x33..=0x35 | 0x43..=0x45)
}

/// The trace's number of the release's select word.
pub fn word_number(word: usize) -> u64 {
    match word {
        0 => 0,
        1 => 2,
        2 => 3,
        _ => 1,
    }
}

/// The name of a field, for a reader.
pub fn field_name(i: usize) -> String {
    const HEAD: [&str; 10] = ["flavour", "capacity", "mark", "lap", "threads", "clock", "steps", "head", "tail", "flag"];
    const OF_A_THREAD: [&str; 6] = ["place", "first saved", "second saved", "word", "packet's message", "packet's mark"];
    match i {
        _ if i < THREADS_AT => HEAD[i].into(),
        _ if i < QUEUES_AT[0] => format!("thread {}'s {}", (i - THREADS_AT) / 6, OF_A_THREAD[(i - THREADS_AT) % 6]),
        _ if i < QUEUES_AT[1] => format!("senders' queue {}", i - QUEUES_AT[0]),
        _ if i < STAMPS_AT => format!("receivers' queue {}", i - QUEUES_AT[1]),
        _ if i < MESSAGES_AT => format!("stamp {}", i - STAMPS_AT),
        _ => format!("message {}", i - MESSAGES_AT),
    }
}
