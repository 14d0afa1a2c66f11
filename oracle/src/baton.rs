//! Real threads behind a baton: a worker stops at each gate until the schedule lets it make that one step.
use crate::release::waker::current_thread_id;
use std::cell::RefCell;
use std::panic::{AssertUnwindSafe, catch_unwind, resume_unwind};
use std::sync::{Arc, Condvar, Mutex};
use std::time::Duration;

/// How long a step may take before the oracle gives up.
const PATIENCE: Duration = Duration::from_secs(20);

type Job = Box<dyn FnOnce() -> (u8, u32) + Send>;

/// What a worker's next step is: which access, of the word or message at which address.
#[derive(Clone, Copy)]
pub enum Access {
    Load(usize),
    Poll(usize),
    /// With the value to be stored.
    Store(usize, usize),
    Exchange,
    /// With the value that is expected; it may fail though the word has that value.
    WeakExchange(usize, usize),
    Mark,
    Message(usize),
    Lock,
    /// A call's one step that accesses nothing.
    Nothing,
}

enum State {
    Idle,
    Begun(Job),
    Running,
    AtGate(Access),
    Go,
    Fail,
    Quit,
    Ended(u8, u32),
}

struct Seat {
    state: Mutex<State>,
    turn: Condvar,
}

impl Seat {
    fn change(&self, to: State) {
        *self.state.lock().unwrap() = to;
        self.turn.notify_all();
    }
}

thread_local! {
    static OWN: RefCell<Option<Arc<Seat>>> = const { RefCell::new(None) };
}

/// What an unfinished call unwinds with when its text has ended.
struct Unfinished;

/// A worker waits here for its next step.
pub fn gate(access: Access) {
    fails_at(access);
}

/// The same; true where the schedule says that the step's weak exchange fails.
pub fn fails_at(access: Access) -> bool {
    let Some(seat) = OWN.with(|own| own.borrow().clone()) else { return false };
    seat.change(State::AtGate(access));
    let mut state = seat.turn.wait_while(seat.state.lock().unwrap(), |s| matches!(s, State::AtGate(_))).unwrap();
    let told = std::mem::replace(&mut *state, State::Running);
    drop(state);
    match told {
        State::Quit => resume_unwind(Box::new(Unfinished)),
        told => matches!(told, State::Fail),
    }
}

/// A worker thread, for as long as the program runs.
pub struct Worker {
    seat: Arc<Seat>,
    /// The release's number of the thread.
    pub id: usize,
}

impl Worker {
    pub fn new() -> Worker {
        let seat = Arc::new(Seat { state: Mutex::new(State::Idle), turn: Condvar::new() });
        let own = seat.clone();
        let (tell, told) = std::sync::mpsc::channel();
        std::thread::spawn(move || {
            tell.send(current_thread_id()).unwrap();
            work(own)
        });
        Worker { seat, id: told.recv().unwrap() }
    }

    /// Begins a call: it runs up to its first gate.
    pub fn begin(&self, job: Job) {
        self.seat.change(State::Begun(job));
        self.settle();
    }

    /// Makes one step; the answer's kind and value where the call has ended.
    pub fn step(&self) -> Option<(u8, u32)> {
        self.seat.change(State::Go);
        self.settle()
    }

    /// Makes one step, whose weak exchange fails; no call ends by that.
    pub fn fail(&self) {
        self.seat.change(State::Fail);
        self.settle();
    }

    /// The next step of a call that has not ended.
    pub fn next(&self) -> Option<Access> {
        match *self.seat.state.lock().unwrap() {
            State::AtGate(access) => Some(access),
            _ => None,
        }
    }

    /// Ends a call that has not ended by itself.
    pub fn quit(&self) {
        self.seat.change(State::Quit);
        self.settle();
    }

    fn settle(&self) -> Option<(u8, u32)> {
        let moving = |s: &mut State| !matches!(s, State::AtGate(_) | State::Ended(..) | State::Idle);
        let lock = self.seat.state.lock().unwrap();
        let (state, late) = self.seat.turn.wait_timeout_while(lock, PATIENCE, moving).unwrap();
        if late.timed_out() {
            eprintln!("oracle: a worker reached neither a gate nor its end");
            std::process::exit(1);
        }
        match *state {
            State::Ended(kind, value) => Some((kind, value)),
            _ => None,
        }
    }
}

fn work(seat: Arc<Seat>) {
    OWN.with(|own| *own.borrow_mut() = Some(seat.clone()));
    loop {
        let mut state = seat.turn.wait_while(seat.state.lock().unwrap(), |s| !matches!(s, State::Begun(_))).unwrap();
        let State::Begun(job) = std::mem::replace(&mut *state, State::Running) else { unreachable!() };
        drop(state);
        match catch_unwind(AssertUnwindSafe(job)) {
            Ok((kind, value)) => seat.change(State::Ended(kind, value)),
            Err(unwound) if unwound.is::<Unfinished>() => seat.change(State::Idle),
            Err(other) => resume_unwind(other),
        }
    }
}
