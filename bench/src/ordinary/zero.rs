//! The rendezvous channel, one locked section or access a step.
use super::{Answer, NO_DEADLINE, THREADS};

/// A select word.
#[derive(Clone, Copy, PartialEq)]
enum Word {
    Waiting,
    Picked,
    Aborted,
    Disconnected,
}

/// What others reach of a waiting thread: its word and its packet.
#[derive(Clone, Copy)]
struct Waiter {
    word: Word,
    ready: bool,
    message: u32,
}

/// One side's waiting threads, the oldest first.
struct Queue {
    threads: [u8; THREADS],
    len: usize,
}

/// The side of a call.
#[derive(Clone, Copy)]
pub enum Side {
    Sender,
    Receiver,
}

/// The channel's shared memory, with the senders' queue before the receivers'.
pub struct Zero {
    waiters: [Waiter; THREADS],
    queues: [Queue; 2],
    disconnected: bool,
}

/// A running call, at its next access. In the first section, a `try_` call has no deadline at all.
#[derive(Clone, Copy)]
pub enum Call {
    First { side: Side, message: u32, deadline: Option<u32> },
    Put { partner: u8, message: u32 },
    PutReady { partner: u8 },
    Take { partner: u8 },
    TakeReady { partner: u8, message: u32 },
    Wait { side: Side, deadline: u32 },
    ReadyWait { side: Side },
    Leave { side: Side },
    Len,
    IsEmptyOrFull,
    IsDisconnected,
    Disconnect,
}

impl Call {
    /// The call of a code, at its first place.
    pub fn first(code: u8, message: u32, deadline: u32) -> Option<Call> {
        match code {
            3 => Some(Call::First { side: Side::Sender, message, deadline: Some(deadline) }),
            4 => Some(Call::First { side: Side::Receiver, message: 0, deadline: Some(deadline) }),
            _ if deadline != NO_DEADLINE => None,
            1 => Some(Call::First { side: Side::Sender, message, deadline: None }),
            2 => Some(Call::First { side: Side::Receiver, message: 0, deadline: None }),
            5 => Some(Call::Len),
            6 | 7 => Some(Call::IsEmptyOrFull),
            8 => Some(Call::IsDisconnected),
            9 => Some(Call::Disconnect),
            _ => None,
        }
    }
}

impl Queue {
    fn new() -> Queue {
        Queue { threads: [0; THREADS], len: 0 }
    }

    fn entries(&self) -> &[u8] {
        &self.threads[..self.len]
    }

    fn push(&mut self, thread: usize) {
        self.threads[self.len] = thread as u8;
        self.len += 1;
    }

    fn remove(&mut self, at: usize) {
        self.threads.copy_within(at + 1..self.len, at);
        self.len -= 1;
    }
}

impl Zero {
    pub fn new() -> Zero {
        let waiter = Waiter { word: Word::Waiting, ready: false, message: 0 };
        Zero { waiters: [waiter; THREADS], queues: [Queue::new(), Queue::new()], disconnected: false }
    }

    /// One step of a thread's call; its answer, if that ends it.
    pub fn step(&mut self, thread: usize, clock: u32, call: &mut Call) -> Option<Answer> {
        *call = match *call {
            Call::First { side, message, deadline } => match self.first(thread, side, message, deadline) {
                Ok(next) => next,
                Err(answer) => return Some(answer),
            },
            Call::Put { partner, message } => {
                self.waiter(partner).message = message;
                Call::PutReady { partner }
            }
            Call::PutReady { partner } => {
                self.waiter(partner).ready = true;
                return Some(Answer::Sent);
            }
            Call::Take { partner } => Call::TakeReady { partner, message: std::mem::take(&mut self.waiter(partner).message) },
            Call::TakeReady { partner, message } => {
                self.waiter(partner).ready = true;
                return Some(Answer::Received(message));
            }
            Call::Wait { side, deadline } => self.wait(thread, clock, side, deadline)?,
            Call::ReadyWait { side } if self.waiters[thread].ready => return Some(self.met(thread, side)),
            Call::ReadyWait { .. } => return None,
            Call::Leave { side } => return Some(self.leave(thread, side)),
            Call::Len => return Some(Answer::Number(0)),
            Call::IsEmptyOrFull => return Some(Answer::Yes),
            Call::IsDisconnected => return Some(Answer::says(self.disconnected)),
            Call::Disconnect => return Some(Answer::says(self.disconnect())),
        };
        None
    }

    fn waiter(&mut self, thread: u8) -> &mut Waiter {
        &mut self.waiters[thread as usize]
    }

    /// Picks the oldest of a side that still waits, the caller itself left out.
    fn pick(&mut self, side: Side, caller: usize) -> Option<u8> {
        let queue = &mut self.queues[side as usize];
        let waits = |t: &u8| *t as usize != caller && self.waiters[*t as usize].word == Word::Waiting;
        let at = queue.entries().iter().position(waits)?;
        let partner = queue.threads[at];
        queue.remove(at);
        self.waiter(partner).word = Word::Picked;
        Some(partner)
    }

    /// The first section: a partner, or else the end of the own queue.
    fn first(&mut self, thread: usize, side: Side, message: u32, deadline: Option<u32>) -> Result<Call, Answer> {
        let picked = match side {
            Side::Sender => self.pick(Side::Receiver, thread).map(|partner| Call::Put { partner, message }),
            Side::Receiver => self.pick(Side::Sender, thread).map(|partner| Call::Take { partner }),
        };
        if let Some(call) = picked {
            return Ok(call);
        }
        if self.disconnected {
            return Err(Answer::Disconnected(message));
        }
        let Some(deadline) = deadline else {
            return Err(match side {
                Side::Sender => Answer::Full(message),
                Side::Receiver => Answer::Empty,
            });
        };
        self.waiters[thread] = Waiter { word: Word::Waiting, ready: false, message };
        self.queues[side as usize].push(thread);
        Ok(Call::Wait { side, deadline })
    }

    /// A poll of the own word, and where that leads.
    fn wait(&mut self, thread: usize, clock: u32, side: Side, deadline: u32) -> Option<Call> {
        let waiter = &mut self.waiters[thread];
        match waiter.word {
            Word::Picked => Some(Call::ReadyWait { side }),
            Word::Disconnected => Some(Call::Leave { side }),
            Word::Waiting if clock >= deadline => {
                waiter.word = Word::Aborted;
                Some(Call::Leave { side })
            }
            Word::Waiting | Word::Aborted => None,
        }
    }

    /// The answer of a waiter whose partner is ready.
    fn met(&self, thread: usize, side: Side) -> Answer {
        match side {
            Side::Sender => Answer::Sent,
            Side::Receiver => Answer::Received(self.waiters[thread].message),
        }
    }

    /// The own entry goes; a sender gets its message back.
    fn leave(&mut self, thread: usize, side: Side) -> Answer {
        let queue = &mut self.queues[side as usize];
        if let Some(at) = queue.entries().iter().position(|t| *t as usize == thread) {
            queue.remove(at);
        }
        let Waiter { word, message, .. } = self.waiters[thread];
        match word {
            Word::Aborted => Answer::Timeout(message),
            _ => Answer::Disconnected(message),
        }
    }

    /// Flags the channel and tells all who wait; false if it was flagged.
    fn disconnect(&mut self) -> bool {
        for t in self.queues.iter().flat_map(Queue::entries) {
            let waiter = &mut self.waiters[*t as usize];
            if waiter.word == Word::Waiting {
                waiter.word = Word::Disconnected;
            }
        }
        !std::mem::replace(&mut self.disconnected, true)
    }
}
