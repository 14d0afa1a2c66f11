//! The array channel, one shared access a step.
use super::{Answer, NO_DEADLINE};
use std::cmp::Ordering;

/// The largest capacity.
pub const SLOTS: usize = 64;

/// A place for one message.
#[derive(Clone, Copy)]
struct Slot {
    stamp: usize,
    message: u32,
}

/// The channel's shared memory.
pub struct Array {
    capacity: usize,
    mark: usize,
    lap: usize,
    head: usize,
    tail: usize,
    slots: [Slot; SLOTS],
}

/// Where a send stands: its next access, and the tail that it has loaded.
#[derive(Clone, Copy)]
pub enum Sending {
    LoadTail,
    LoadStamp(usize),
    ClaimTail(usize),
    LoadHead(usize),
    StoreMessage(usize),
    StoreStamp(usize),
}

/// Where a receive stands: its next access, and the head that it has loaded.
#[derive(Clone, Copy)]
pub enum Receiving {
    LoadHead,
    LoadStamp(usize),
    ClaimHead(usize),
    LoadTail(usize),
    TakeMessage(usize),
    StoreStamp(usize, u32),
}

/// Where a call that only asks, or the disconnect, stands.
#[derive(Clone, Copy)]
pub enum Asking {
    LenTail,
    LenHead { tail: usize },
    LenTailAgain { tail: usize, head: usize },
    EmptyHead,
    EmptyTail { head: usize },
    FullTail,
    FullHead { tail: usize },
    IsDisconnected,
    Disconnect,
}

/// A running call.
#[derive(Clone, Copy)]
pub enum Call {
    Send { message: u32, place: Sending },
    Receive(Receiving),
    Ask(Asking),
}

impl Call {
    /// The call of a code, at its first place.
    pub fn first(code: u8, message: u32, deadline: u32) -> Option<Call> {
        if deadline != NO_DEADLINE {
            return None;
        }
        match code {
            1 => Some(Call::Send { message, place: Sending::LoadTail }),
            2 => Some(Call::Receive(Receiving::LoadHead)),
            5 => Some(Call::Ask(Asking::LenTail)),
            6 => Some(Call::Ask(Asking::EmptyHead)),
            7 => Some(Call::Ask(Asking::FullTail)),
            8 => Some(Call::Ask(Asking::IsDisconnected)),
            9 => Some(Call::Ask(Asking::Disconnect)),
            _ => None,
        }
    }

    /// Fails the exchange at which the call stands, if it stands at one.
    pub fn fail(&mut self) -> Option<()> {
        match self {
            Call::Send { place: place @ Sending::ClaimTail(_), .. } => *place = Sending::LoadTail,
            Call::Receive(place @ Receiving::ClaimHead(_)) => *place = Receiving::LoadHead,
            _ => return None,
        }
        Some(())
    }
}

impl Array {
    /// A fresh array: slot i has stamp i.
    pub fn new(capacity: usize) -> Array {
        let mark = (capacity + 1).next_power_of_two();
        let mut slots = [Slot { stamp: 0, message: 0 }; SLOTS];
        for (i, slot) in slots[..capacity].iter_mut().enumerate() {
            slot.stamp = i;
        }
        Array { capacity, mark, lap: mark * 2, head: 0, tail: 0, slots }
    }

    /// One step of a call; its answer, if that ends it.
    pub fn step(&mut self, call: &mut Call) -> Option<Answer> {
        match call {
            Call::Send { message, place } => self.send(*message, place),
            Call::Receive(place) => self.receive(place),
            Call::Ask(place) => self.ask(place),
        }
    }

    /// The slot that a word names.
    fn index(&self, word: usize) -> usize {
        word & (self.mark - 1)
    }

    fn slot(&mut self, word: usize) -> &mut Slot {
        let index = self.index(word);
        &mut self.slots[index]
    }

    fn stamp(&self, word: usize) -> usize {
        self.slots[self.index(word)].stamp
    }

    /// The next slot's word, or that of the next lap's first.
    fn successor(&self, word: usize) -> usize {
        if self.index(word) + 1 < self.capacity { word + 1 } else { (word & !(self.lap - 1)) + self.lap }
    }

    /// One step of `try_send`.
    fn send(&mut self, message: u32, place: &mut Sending) -> Option<Answer> {
        *place = match *place {
            Sending::LoadTail if self.tail & self.mark != 0 => return Some(Answer::Disconnected(message)),
            Sending::LoadTail => Sending::LoadStamp(self.tail),
            Sending::LoadStamp(tail) => match self.stamp(tail) {
                stamp if stamp == tail => Sending::ClaimTail(tail),
                stamp if stamp + self.lap == tail + 1 => Sending::LoadHead(tail),
                _ => Sending::LoadTail,
            },
            Sending::ClaimTail(tail) if self.tail == tail => {
                self.tail = self.successor(tail);
                Sending::StoreMessage(tail)
            }
            Sending::ClaimTail(_) => Sending::LoadTail,
            Sending::LoadHead(tail) if self.head + self.lap == tail => return Some(Answer::Full(message)),
            Sending::LoadHead(_) => Sending::LoadTail,
            Sending::StoreMessage(tail) => {
                self.slot(tail).message = message;
                Sending::StoreStamp(tail)
            }
            Sending::StoreStamp(tail) => {
                self.slot(tail).stamp = tail + 1;
                return Some(Answer::Sent);
            }
        };
        None
    }

    /// One step of `try_recv`.
    fn receive(&mut self, place: &mut Receiving) -> Option<Answer> {
        *place = match *place {
            Receiving::LoadHead => Receiving::LoadStamp(self.head),
            Receiving::LoadStamp(head) => match self.stamp(head) {
                stamp if stamp == head + 1 => Receiving::ClaimHead(head),
                stamp if stamp == head => Receiving::LoadTail(head),
                _ => Receiving::LoadHead,
            },
            Receiving::ClaimHead(head) if self.head == head => {
                self.head = self.successor(head);
                Receiving::TakeMessage(head)
            }
            Receiving::ClaimHead(_) => Receiving::LoadHead,
            Receiving::LoadTail(head) if self.tail & !self.mark == head => {
                return Some(if self.tail & self.mark != 0 { Answer::Disconnected(0) } else { Answer::Empty });
            }
            Receiving::LoadTail(_) => Receiving::LoadHead,
            Receiving::TakeMessage(head) => Receiving::StoreStamp(head, std::mem::take(&mut self.slot(head).message)),
            Receiving::StoreStamp(head, message) => {
                self.slot(head).stamp = head + self.lap;
                return Some(Answer::Received(message));
            }
        };
        None
    }

    /// One step of any other call.
    fn ask(&mut self, place: &mut Asking) -> Option<Answer> {
        *place = match *place {
            Asking::LenTail => Asking::LenHead { tail: self.tail },
            Asking::LenHead { tail } => Asking::LenTailAgain { tail, head: self.head },
            Asking::LenTailAgain { tail, head } if self.tail == tail => return Some(Answer::Number(self.length(tail, head))),
            Asking::LenTailAgain { .. } => Asking::LenTail,
            Asking::EmptyHead => Asking::EmptyTail { head: self.head },
            Asking::EmptyTail { head } => return Some(Answer::says(self.tail & !self.mark == head)),
            Asking::FullTail => Asking::FullHead { tail: self.tail },
            Asking::FullHead { tail } => return Some(Answer::says(self.head + self.lap == tail & !self.mark)),
            Asking::IsDisconnected => return Some(Answer::says(self.tail & self.mark != 0)),
            Asking::Disconnect => {
                let was = self.tail;
                self.tail |= self.mark;
                return Some(Answer::says(was & self.mark == 0));
            }
        };
        None
    }

    /// The number of messages between a head and a tail.
    fn length(&self, tail: usize, head: usize) -> u32 {
        let (h, t) = (self.index(head), self.index(tail));
        let length = match h.cmp(&t) {
            Ordering::Less => t - h,
            Ordering::Greater => self.capacity - h + t,
            Ordering::Equal if tail & !self.mark == head => 0,
            Ordering::Equal => self.capacity,
        };
        length as u32
    }
}
