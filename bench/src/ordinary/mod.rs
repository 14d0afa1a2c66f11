//! An ordinary replayer of schedule texts, with no proof: one record that is changed in place.
mod array;
mod zero;

use array::Array;
use zero::Zero;

const TEXT_LIMIT: usize = 60_000;
const STEP_LIMIT: u32 = 1_000_000;
const CLOCK_LIMIT: u32 = 0xffff_fffe;
const NO_DEADLINE: u32 = 0xffff_ffff;
const THREADS: usize = 8;

/// Why a frame is refused, by the table's numbers.
#[derive(Clone, Copy)]
enum Refusal {
    Capacity = 2,
    ThreadCount = 3,
    NoSuchThread = 4,
    NotIdle = 5,
    NotRunning = 6,
    UnknownCall = 7,
    StepLimit = 8,
    ClockLimit = 9,
    NoAnswer = 10,
    Malformed = 11,
    NoChannel = 12,
    TooLong = 13,
    NoExchange = 14,
}

/// What a call ended with.
#[derive(Clone, Copy)]
enum Answer {
    Sent,
    Received(u32),
    Full(u32),
    Empty,
    Disconnected(u32),
    Timeout(u32),
    Number(u32),
    Yes,
    No,
}

impl Answer {
    /// Yes or no.
    fn says(yes: bool) -> Answer {
        if yes { Answer::Yes } else { Answer::No }
    }

    /// The number of its kind, and the value that it carries.
    fn numbers(self) -> (u8, u32) {
        match self {
            Answer::Sent => (1, 0),
            Answer::Received(message) => (2, message),
            Answer::Full(message) => (3, message),
            Answer::Empty => (4, 0),
            Answer::Disconnected(message) => (5, message),
            Answer::Timeout(message) => (6, message),
            Answer::Number(n) => (7, n),
            Answer::Yes => (8, 0),
            Answer::No => (9, 0),
        }
    }
}

/// Where a thread stands.
#[derive(Clone, Copy)]
enum Place {
    Idle,
    Array(array::Call),
    Zero(zero::Call),
    Done(Answer),
}

/// A line's frame.
enum Frame {
    Header { capacity: u8, threads: u8 },
    Begin { thread: u8, code: u8, message: u32, deadline: u32 },
    Step { thread: u8 },
    Advance { ticks: u32 },
    Take { thread: u8 },
    Fail { thread: u8 },
}

/// The number of a lowercase hexadecimal digit.
fn digit(b: u8) -> Option<u8> {
    match b {
        b'0'..=b'9' => Some(b - b'0'),
        b'a'..=b'f' => Some(b - b'a' + 10),
        _ => None,
    }
}

/// The number of two digits.
fn byte(high: u8, low: u8) -> Option<u8> {
    Some(digit(high)? << 4 | digit(low)?)
}

/// The number of up to eight digits.
fn word(digits: &[u8]) -> Option<u32> {
    digits.iter().try_fold(0, |n, b| Some(n << 4 | digit(*b)? as u32))
}

/// The frame that a line spells, if it is of the forms.
fn parse(line: &[u8]) -> Option<Frame> {
    match *line {
        [b'0', b'2', a, b] => Some(Frame::Step { thread: byte(a, b)? }),
        [b'0', b'4', a, b] => Some(Frame::Take { thread: byte(a, b)? }),
        [b'0', b'5', a, b] => Some(Frame::Fail { thread: byte(a, b)? }),
        [b'0', b'1', a, b, c, d, ref rest @ ..] if rest.len() == 16 => {
            let (message, deadline) = (word(&rest[..8])?, word(&rest[8..])?);
            Some(Frame::Begin { thread: byte(a, b)?, code: byte(c, d)?, message, deadline })
        }
        [b'0', b'3', ref ticks @ ..] if ticks.len() == 8 => Some(Frame::Advance { ticks: word(ticks)? }),
        [b'0', b'0', a, b, c, d] => Some(Frame::Header { capacity: byte(a, b)?, threads: byte(c, d)? }),
        _ => None,
    }
}

/// A channel, its threads and its clock.
struct Record {
    capacity: usize,
    threads: usize,
    clock: u32,
    steps: u32,
    places: [Place; THREADS],
    array: Array,
    zero: Zero,
}

impl Record {
    /// A fresh record; capacity 0 makes a rendezvous.
    fn new(capacity: u8, threads: u8) -> Result<Record, Refusal> {
        let (capacity, threads) = (capacity as usize, threads as usize);
        if capacity > array::SLOTS {
            return Err(Refusal::Capacity);
        }
        let fewest = if capacity == 0 { 2 } else { 1 };
        if threads < fewest || threads > THREADS {
            return Err(Refusal::ThreadCount);
        }
        let places = [Place::Idle; THREADS];
        Ok(Record { capacity, threads, clock: 0, steps: 0, places, array: Array::new(capacity), zero: Zero::new() })
    }

    /// Where a thread stands, if there is such a thread.
    fn place(&mut self, thread: u8) -> Result<&mut Place, Refusal> {
        self.places[..self.threads].get_mut(thread as usize).ok_or(Refusal::NoSuchThread)
    }

    /// A thread begins a call.
    fn begin(&mut self, thread: u8, code: u8, message: u32, deadline: u32) -> Result<(), Refusal> {
        let on_array = self.capacity > 0;
        let place = self.place(thread)?;
        if !matches!(place, Place::Idle) {
            return Err(Refusal::NotIdle);
        }
        let first = match on_array {
            true => array::Call::first(code, message, deadline).map(Place::Array),
            false => zero::Call::first(code, message, deadline).map(Place::Zero),
        };
        *place = first.ok_or(Refusal::UnknownCall)?;
        Ok(())
    }

    /// One step of a thread's call.
    fn step(&mut self, thread: u8) -> Result<(), Refusal> {
        let t = thread as usize;
        if t >= self.threads {
            return Err(Refusal::NoSuchThread);
        }
        let place = &mut self.places[t];
        let ended = match place {
            Place::Idle | Place::Done(_) => return Err(Refusal::NotRunning),
            _ if self.steps >= STEP_LIMIT => return Err(Refusal::StepLimit),
            Place::Array(call) => self.array.step(call),
            Place::Zero(call) => self.zero.step(t, self.clock, call),
        };
        if let Some(answer) = ended {
            *place = Place::Done(answer);
        }
        self.steps += 1;
        Ok(())
    }

    /// A step whose weak exchange fails.
    fn fail(&mut self, thread: u8) -> Result<(), Refusal> {
        let spent = self.steps >= STEP_LIMIT;
        match self.place(thread)? {
            Place::Idle | Place::Done(_) => return Err(Refusal::NotRunning),
            _ if spent => return Err(Refusal::StepLimit),
            Place::Array(call) => call.fail().ok_or(Refusal::NoExchange)?,
            Place::Zero(_) => return Err(Refusal::NoExchange),
        }
        self.steps += 1;
        Ok(())
    }

    /// The clock advances.
    fn advance(&mut self, ticks: u32) -> Result<(), Refusal> {
        let clock = self.clock.checked_add(ticks).filter(|clock| *clock <= CLOCK_LIMIT);
        self.clock = clock.ok_or(Refusal::ClockLimit)?;
        Ok(())
    }

    /// A thread's answer is taken, which frees it.
    fn take(&mut self, thread: u8) -> Result<Answer, Refusal> {
        let place = self.place(thread)?;
        let Place::Done(answer) = *place else {
            return Err(Refusal::NoAnswer);
        };
        *place = Place::Idle;
        Ok(answer)
    }
}

/// A frame's reply: an accepted take has an answer.
type Reply = Result<Option<Answer>, Refusal>;

/// The reply to a line, with the channel that the text has made so far.
fn reply(record: &mut Option<Record>, line: &[u8]) -> Reply {
    let frame = parse(line).ok_or(Refusal::Malformed)?;
    let Some(record) = record else {
        let Frame::Header { capacity, threads } = frame else {
            return Err(Refusal::NoChannel);
        };
        *record = Some(Record::new(capacity, threads)?);
        return Ok(None);
    };
    match frame {
        Frame::Header { .. } => Err(Refusal::Malformed),
        Frame::Begin { thread, code, message, deadline } => record.begin(thread, code, message, deadline).map(|()| None),
        Frame::Step { thread } => record.step(thread).map(|()| None),
        Frame::Advance { ticks } => record.advance(ticks).map(|()| None),
        Frame::Take { thread } => record.take(thread).map(Some),
        Frame::Fail { thread } => record.fail(thread).map(|()| None),
    }
}

/// Writes the digits of a number's last bits, as many as there is room for.
fn put_hex(out: &mut [u8], mut n: u32) {
    for digit in out.iter_mut().rev() {
        let low = (n & 15) as u8;
        *digit = if low < 10 { b'0' + low } else { b'a' + low - 10 };
        n >>= 4;
    }
}

/// Writes a reply's line to the beginning of the buffer, and says how long it is.
fn put_reply(out: &mut [u8], reply: Reply) -> usize {
    match reply {
        Ok(None) => {
            out[..3].copy_from_slice(b"00\n");
            3
        }
        Ok(Some(answer)) => {
            let (kind, value) = answer.numbers();
            put_hex(&mut out[..4], kind as u32);
            put_hex(&mut out[4..12], value);
            out[12] = b'\n';
            13
        }
        Err(refusal) => {
            put_hex(&mut out[..2], refusal as u32);
            out[2] = b'\n';
            3
        }
    }
}

/// Writes the whole output of a text, and says how long it is. The buffer has 3 bytes for each of the text's and 3 more.
pub fn replay(text: &[u8], out: &mut [u8]) -> usize {
    if text.len() > TEXT_LIMIT {
        return put_reply(out, Err(Refusal::TooLong));
    }
    let mut record = None;
    let mut end = 0;
    let mut rest = text;
    while !rest.is_empty() {
        let length = rest.iter().position(|b| *b == b'\n').unwrap_or(rest.len());
        end += put_reply(&mut out[end..], reply(&mut record, &rest[..length]));
        rest = rest.get(length + 1..).unwrap_or(&[]);
    }
    end
}

#[cfg(test)]
mod tests {
    /// Every text of the crate `recorded`, each behind its length, gets what the release said to it.
    #[test]
    fn recorded() {
        let folder = std::path::Path::new(env!("CARGO_MANIFEST_DIR")).join("../crates/recorded");
        let mut texts = &std::fs::read(folder.join("stdin")).unwrap()[..];
        let mut outputs: Vec<u8> = Vec::new();
        while let Some((length, rest)) = texts.split_at_checked(8) {
            let length = usize::from_str_radix(std::str::from_utf8(length).unwrap(), 16).unwrap();
            let mut out = vec![0; 3 * length + 3];
            let end = super::replay(&rest[..length], &mut out);
            outputs.extend(&out[..end]);
            texts = &rest[length..];
        }
        assert!(texts.is_empty());
        assert!(outputs == std::fs::read(folder.join("stdout")).unwrap());
    }
}
