//! The thread table, the refusals and the schedule text around the release's channels.
use crate::baton::{Access, Worker, gate};
use crate::record::{self, Entry, FIELDS, MESSAGES_AT, PacketSeen, QUEUES_AT, STAMPS_AT, Seen, THREADS_AT};
use crate::release::error::{RecvTimeoutError, SendTimeoutError, TryRecvError, TrySendError};
use crate::release::{array, zero};
use crate::time::Instant;
use std::sync::Arc;

const NO_DEADLINE: u32 = 0xffff_ffff;

/// A channel lent to a worker: the release's senders and receivers say the same of theirs.
struct Lent<T>(Arc<T>);

unsafe impl<T> Send for Lent<T> {}

impl<T> Lent<T> {
    fn channel(&self) -> &T {
        &self.0
    }
}

/// The release's channel.
enum Channel {
    Array(Arc<array::Channel<u32>>),
    Zero(Arc<zero::Channel<u32>>),
}

/// A running call: where it stands, the word that it polls and its packet, once it has them.
#[derive(Clone, Copy)]
struct Call {
    code: u32,
    place: u64,
    word: usize,
    packet: usize,
}

#[derive(Clone, Copy)]
enum Thread {
    Idle,
    Running(Call),
    Done(u8, u32),
}

/// A channel with its thread table.
struct Record {
    channel: Channel,
    threads: Vec<Thread>,
    clock: u32,
    steps: u32,
}

/// Eight worker threads, lent to one record after the other.
pub struct Bench {
    workers: Vec<Worker>,
}

fn yes(b: bool) -> (u8, u32) {
    (if b { 8 } else { 9 }, 0)
}

fn sent(result: Result<(), TrySendError<u32>>) -> (u8, u32) {
    match result {
        Ok(()) => (1, 0),
        Err(TrySendError::Full(m)) => (3, m),
        Err(TrySendError::Disconnected(m)) => (5, m),
    }
}

fn received(result: Result<u32, TryRecvError>) -> (u8, u32) {
    match result {
        Ok(m) => (2, m),
        Err(TryRecvError::Empty) => (4, 0),
        Err(TryRecvError::Disconnected) => (5, 0),
    }
}

fn waited_send(result: Result<(), SendTimeoutError<u32>>) -> (u8, u32) {
    match result {
        Ok(()) => (1, 0),
        Err(SendTimeoutError::Timeout(m)) => (6, m),
        Err(SendTimeoutError::Disconnected(m)) => (5, m),
    }
}

fn waited_receive(result: Result<u32, RecvTimeoutError>) -> (u8, u32) {
    match result {
        Ok(m) => (2, m),
        Err(RecvTimeoutError::Timeout) => (6, 0),
        Err(RecvTimeoutError::Disconnected) => (5, 0),
    }
}

/// What a call does on an array.
fn on_array(c: &array::Channel<u32>, code: u32, message: u32) -> (u8, u32) {
    match code {
        1 => sent(c.try_send(message)),
        2 => received(c.try_recv()),
        5 => (7, c.len() as u32),
        6 => yes(c.is_empty()),
        7 => yes(c.is_full()),
        8 => yes(c.is_disconnected()),
        _ => yes(c.disconnect_senders()),
    }
}

/// What a call does on a rendezvous. `len`, `is_empty` and `is_full` touch nothing there, and take their one step here.
fn on_zero(c: &zero::Channel<u32>, code: u32, message: u32, deadline: u32) -> (u8, u32) {
    let until = (deadline != NO_DEADLINE).then_some(Instant(deadline));
    if (5..=7).contains(&code) {
        gate(Access::Nothing);
    }
    match code {
        1 => sent(c.try_send(message)),
        2 => received(c.try_recv()),
        3 => waited_send(c.send(message, until)),
        4 => waited_receive(c.recv(until)),
        5 => (7, c.len() as u32),
        6 => yes(c.is_empty()),
        7 => yes(c.is_full()),
        8 => yes(c.is_disconnected()),
        _ => yes(c.disconnect()),
    }
}

impl Record {
    fn make(capacity: u32, count: u32) -> Result<Record, u8> {
        if capacity > 64 {
            return Err(2);
        }
        let fewest = if capacity == 0 { 2 } else { 1 };
        if count < fewest || count > 8 {
            return Err(3);
        }
        let channel = match capacity {
            0 => Channel::Zero(Arc::new(zero::Channel::new())),
            n => Channel::Array(Arc::new(array::Channel::with_capacity(n as usize))),
        };
        Instant::set(0);
        Ok(Record { channel, threads: vec![Thread::Idle; count as usize], clock: 0, steps: 0 })
    }

    fn begin(&mut self, workers: &[Worker], t: usize, code: u32, message: u32, deadline: u32) -> u8 {
        if t >= self.threads.len() {
            return 4;
        }
        let Thread::Idle = self.threads[t] else { return 5 };
        let waits = code == 3 || code == 4;
        if code == 0 || code > 9 || (waits && matches!(self.channel, Channel::Array(_))) || (!waits && deadline != NO_DEADLINE) {
            return 7;
        }
        match &self.channel {
            Channel::Array(c) => {
                let c = Lent(c.clone());
                workers[t].begin(Box::new(move || on_array(c.channel(), code, message)));
            }
            Channel::Zero(c) => {
                let c = Lent(c.clone());
                workers[t].begin(Box::new(move || on_zero(c.channel(), code, message, deadline)));
            }
        }
        self.threads[t] = Thread::Running(Call { code, place: 0, word: 0, packet: 0 });
        self.place(workers, t);
        0
    }

    /// Where the call stands after its begin or a step.
    fn place(&mut self, workers: &[Worker], t: usize) {
        let Thread::Running(mut call) = self.threads[t] else { return };
        let access = workers[t].next().unwrap();
        match &self.channel {
            Channel::Array(c) => call.place = record::array_place(call.code, call.place, access, |a| c.named(a)),
            Channel::Zero(c) => {
                call.place = record::zero_place(call.code, call.place, access);
                if let Access::Poll(word) = access {
                    call.word = word;
                }
                let (_, queues) = c.peek();
                if let Some(own) = queues.iter().flatten().find(|entry| entry.owner == workers[t].id) {
                    call.packet = own.packet;
                }
            }
        }
        self.threads[t] = Thread::Running(call);
    }

    /// Why a thread may not make a step; 0 if it may.
    fn held_back(&self, t: usize) -> u8 {
        match self.threads.get(t) {
            None => 4,
            Some(Thread::Running(_)) if self.steps >= 1_000_000 => 8,
            Some(Thread::Running(_)) => 0,
            Some(_) => 6,
        }
    }

    fn step(&mut self, workers: &[Worker], t: usize) -> u8 {
        let why = self.held_back(t);
        if why != 0 {
            return why;
        }
        self.steps += 1;
        if let Some((kind, value)) = workers[t].step() {
            self.threads[t] = Thread::Done(kind, value);
        }
        self.place(workers, t);
        0
    }

    /// A step whose weak exchange fails, if the release's next access is one.
    fn fail(&mut self, workers: &[Worker], t: usize) -> u8 {
        let why = self.held_back(t);
        if why != 0 {
            return why;
        }
        let Some(Access::WeakExchange(..)) = workers[t].next() else { return 14 };
        self.steps += 1;
        workers[t].fail();
        self.place(workers, t);
        0
    }

    fn advance(&mut self, ticks: u32) -> u8 {
        match self.clock.checked_add(ticks) {
            Some(now) if now < NO_DEADLINE => {
                self.clock = now;
                Instant::set(now);
                0
            }
            _ => 9,
        }
    }

    fn take(&mut self, t: usize) -> Result<(u8, u32), u8> {
        match self.threads.get(t) {
            None => Err(4),
            Some(Thread::Done(kind, value)) => {
                let answer = (*kind, *value);
                self.threads[t] = Thread::Idle;
                Ok(answer)
            }
            Some(_) => Err(10),
        }
    }

    /// The record's fields, as far as they show.
    fn see(&self, workers: &[Worker]) -> Seen {
        let mut seen: Seen = vec![Some(0); FIELDS];
        let shown = |n: usize| Some(n as u64);
        seen[4] = shown(self.threads.len());
        seen[5] = shown(self.clock as usize);
        seen[6] = shown(self.steps as usize);
        match &self.channel {
            Channel::Array(c) => {
                let array = c.peek();
                seen[0] = Some(1);
                seen[1..4].copy_from_slice(&array.shape.map(shown));
                seen[7] = shown(array.head);
                seen[8] = shown(array.tail);
                for (i, (stamp, message)) in array.slots.into_iter().enumerate() {
                    seen[STAMPS_AT + i] = shown(stamp);
                    seen[MESSAGES_AT + i] = Some(message as u64);
                }
            }
            Channel::Zero(c) => {
                let (flag, queues) = c.peek();
                seen[9] = Some(flag as u64);
                for (queue, at) in queues.iter().zip(QUEUES_AT) {
                    seen[at] = shown(queue.len());
                    for (i, entry) in queue.iter().enumerate() {
                        seen[at + 1 + i] = shown(thread_of(workers, entry));
                    }
                }
            }
        }
        for t in 0..self.threads.len() {
            seen[THREADS_AT + 6 * t..][..6].copy_from_slice(&self.see_thread(workers, t));
        }
        seen
    }

    /// A thread's place with what it has saved, its word and its packet.
    fn see_thread(&self, workers: &[Worker], t: usize) -> [Option<u64>; 6] {
        let call = match self.threads[t] {
            Thread::Idle => return [Some(0); 6],
            Thread::Done(kind, value) => return [Some(0xd0 + kind as u64), Some(value as u64), Some(0), Some(0), Some(0), Some(0)],
            Thread::Running(call) => call,
        };
        let second = self.saved(call, workers[t].next().unwrap());
        if !record::waits(call.place) {
            return [Some(call.place), None, second, Some(0), Some(0), Some(0)];
        }
        let word = unsafe { (*(call.word as *const crate::polled::atomic::AtomicUsize)).peek() };
        let packet = self.packet(call);
        [Some(call.place), None, second, Some(record::word_number(word)), Some(packet.message as u64), Some(packet.ready as u64)]
    }

    fn packet(&self, call: Call) -> PacketSeen {
        unsafe { zero::packet_at(call.packet) }
    }

    /// What a call has saved, where its next step shows it: the position that it expects or has claimed, or its partner.
    fn saved(&self, call: Call, next: Access) -> Option<u64> {
        let lap = match &self.channel {
            Channel::Array(c) => c.peek().shape[2],
            Channel::Zero(_) => 0,
        };
        let whose = |address: usize, of: fn(&PacketSeen) -> usize| {
            let owner = |thread: &Thread| matches!(thread, Thread::Running(c) if record::waits(c.place) && of(&self.packet(*c)) == address);
            self.threads.iter().position(owner).map(|t| t as u64)
        };
        match (call.place, next) {
            (0x1c | 0x2c, Access::WeakExchange(_, expected)) => Some(expected as u64),
            (0x1f, Access::Store(_, stamp)) => Some(stamp as u64 - 1),
            (0x2f, Access::Store(_, stamp)) => Some((stamp - lap) as u64),
            (0x31 | 0x41, Access::Message(at)) => whose(at, |packet| packet.message_at),
            (0x32 | 0x42, Access::Store(at, _)) => whose(at, |packet| packet.ready_at),
            _ => None,
        }
    }

    /// Unfinished calls unwind. The channel is leaked: its queues may still name their packets.
    fn end(self, workers: &[Worker]) {
        for (t, thread) in self.threads.iter().enumerate() {
            if let Thread::Running(_) = thread {
                workers[t].quit();
            }
        }
        std::mem::forget(self.channel);
    }
}

/// The thread that an entry belongs to.
fn thread_of(workers: &[Worker], entry: &Entry) -> usize {
    workers.iter().position(|worker| worker.id == entry.owner).unwrap()
}

fn hex(digits: &[u8]) -> Option<u32> {
    digits.iter().try_fold(0u32, |v, b| match b {
        b'0'..=b'9' => Some(v << 4 | (b - b'0') as u32),
        b'a'..=b'f' => Some(v << 4 | (b - b'a' + 10) as u32),
        _ => None,
    })
}

impl Bench {
    pub fn new() -> Bench {
        Bench { workers: (0..8).map(|_| Worker::new()).collect() }
    }

    /// What a schedule text gives: each line's output, and the record after it.
    pub fn replay(&self, text: &[u8]) -> Vec<(Vec<u8>, Seen)> {
        if text.len() > 60_000 {
            return vec![(b"0d".to_vec(), Vec::new())];
        }
        let mut record = None;
        let mut out = Vec::new();
        let mut rest = text;
        while !rest.is_empty() {
            let n = rest.iter().position(|b| *b == b'\n').unwrap_or(rest.len());
            let line = self.answer(&mut record, &rest[..n]);
            let seen = record.as_ref().map_or(vec![Some(0); FIELDS], |r: &Record| r.see(&self.workers));
            out.push((line, seen));
            rest = &rest[(n + 1).min(rest.len())..];
        }
        if let Some(record) = record {
            record.end(&self.workers);
        }
        out
    }

    fn answer(&self, record: &mut Option<Record>, line: &[u8]) -> Vec<u8> {
        let code = match self.serve(record, line) {
            Ok((kind, value)) => return format!("00{kind:02x}{value:08x}").into_bytes(),
            Err(code) => code,
        };
        format!("{code:02x}").into_bytes()
    }

    /// An accepted take's answer, or the code of the line.
    fn serve(&self, record: &mut Option<Record>, line: &[u8]) -> Result<(u8, u32), u8> {
        let widths: &[usize] = match line.get(..2) {
            Some(b"00") => &[2, 2],
            Some(b"01") => &[2, 2, 8, 8],
            Some(b"02" | b"04" | b"05") => &[2],
            Some(b"03") => &[8],
            _ => return Err(11),
        };
        if line.len() != 2 + widths.iter().sum::<usize>() {
            return Err(11);
        }
        let mut at = 2;
        let mut f = Vec::new();
        for w in widths {
            f.push(hex(&line[at..at + w]).ok_or(11u8)?);
            at += w;
        }
        if line[1] == b'0' {
            if record.is_some() {
                return Err(11);
            }
            *record = Some(Record::make(f[0], f[1])?);
            return Err(0);
        }
        let Some(r) = record else { return Err(12) };
        match line[1] {
            b'1' => Err(r.begin(&self.workers, f[0] as usize, f[1], f[2], f[3])),
            b'2' => Err(r.step(&self.workers, f[0] as usize)),
            b'3' => Err(r.advance(f[0])),
            b'5' => Err(r.fail(&self.workers, f[0] as usize)),
            _ => r.take(f[0] as usize),
        }
    }
}
