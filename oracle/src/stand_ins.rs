//! What the release's files name: the same names, standing behind the gates.
use crate::baton::{Access, gate};
use std::cell::Cell;

/// One word of shared memory. Only the thread that holds the baton runs, so plain accesses are sequentially consistent.
pub struct Word<T>(std::cell::UnsafeCell<T>);

unsafe impl<T> Sync for Word<T> {}
unsafe impl<T> Send for Word<T> {}

impl<T: Copy + PartialEq> Word<T> {
    const fn new(value: T) -> Self {
        Word(std::cell::UnsafeCell::new(value))
    }
    fn get(&self) -> T {
        unsafe { *self.0.get() }
    }
    fn set(&self, value: T) {
        unsafe { *self.0.get() = value }
    }
    fn exchange(&self, old: T, new: T) -> Result<T, T> {
        let now = self.get();
        if now == old {
            self.set(new);
            return Ok(now);
        }
        Err(now)
    }
}

/// A word's value as a number.
pub trait Number: Copy + PartialEq {
    fn number(self) -> usize;
}

impl Number for usize {
    fn number(self) -> usize {
        self
    }
}

impl Number for bool {
    fn number(self) -> usize {
        self as usize
    }
}

impl<T> Number for *mut T {
    fn number(self) -> usize {
        self as usize
    }
}

/// Atomics of which the named accesses wait at a gate.
macro_rules! atomics {
    ($load:expr, $change:expr) => {
        use crate::baton::Access;
        use crate::stand_ins::{Number, Word};
        pub use std::sync::atomic::Ordering;

        pub struct Atomic<T>(Word<T>);
        #[allow(dead_code)]
        pub type AtomicUsize = Atomic<usize>;
        #[allow(dead_code)]
        pub type AtomicBool = Atomic<bool>;
        #[allow(dead_code)]
        pub type AtomicPtr<T> = Atomic<*mut T>;

        impl<T> std::fmt::Debug for Atomic<T> {
            fn fmt(&self, f: &mut std::fmt::Formatter<'_>) -> std::fmt::Result {
                f.write_str("Atomic")
            }
        }

        #[allow(dead_code)]
        impl<T: Number> Atomic<T> {
            pub const fn new(value: T) -> Self {
                Atomic(Word::new(value))
            }
            pub fn peek(&self) -> T {
                self.0.get()
            }
            pub fn address(&self) -> usize {
                self as *const Self as usize
            }
            pub fn load(&self, _: Ordering) -> T {
                $load(Access::Load(self.address()));
                self.0.get()
            }
            pub fn store(&self, value: T, _: Ordering) {
                $change(Access::Store(self.address(), value.number()));
                self.0.set(value)
            }
            pub fn compare_exchange(&self, old: T, new: T, _: Ordering, _: Ordering) -> Result<T, T> {
                $change(Access::Exchange);
                self.0.exchange(old, new)
            }
        }

        #[allow(dead_code)]
        impl Atomic<usize> {
            pub fn fetch_or(&self, bits: usize, _: Ordering) -> usize {
                $change(Access::Mark);
                let old = self.0.get();
                self.0.set(old | bits);
                old
            }
        }
    };
}

fn quiet(_: Access) {}

/// A poll's load, known as one.
fn poll(access: Access) {
    let Access::Load(word) = access else { unreachable!() };
    gate(Access::Poll(word));
}

/// Every access is a step: the array's words and the packets' ready marks.
pub mod gated {
    pub mod atomic {
        use crate::baton::fails_at;
        use crate::stand_ins::gate;
        atomics!(gate, gate);

        impl<T: Number> Atomic<T> {
            /// Fails, whatever the word is, where the schedule says so.
            pub fn compare_exchange_weak(&self, old: T, new: T, _: Ordering, _: Ordering) -> Result<T, T> {
                if fails_at(Access::WeakExchange(self.address(), old.number())) {
                    return Err(self.0.get());
                }
                self.0.exchange(old, new)
            }
        }

        pub fn fence(_: Ordering) {}
    }

    /// A locked section is one step.
    pub struct Mutex<T>(std::sync::Mutex<T>);

    impl<T> Mutex<T> {
        pub fn new(value: T) -> Self {
            Mutex(std::sync::Mutex::new(value))
        }
        pub fn lock(&self) -> std::sync::LockResult<std::sync::MutexGuard<'_, T>> {
            crate::baton::gate(crate::baton::Access::Lock);
            self.0.lock()
        }
        pub fn peek(&self) -> std::sync::MutexGuard<'_, T> {
            self.0.lock().unwrap()
        }
    }
}

/// No access is a step.
pub mod quiet_words {
    pub use std::sync::Mutex;
    pub mod atomic {
        use crate::stand_ins::quiet;
        atomics!(quiet, quiet);
    }
}

/// A load is a step.
pub mod polled_words {
    pub mod atomic {
        use crate::stand_ins::{poll, quiet};
        atomics!(poll, quiet);
    }
}

/// A message's place. Its store or take is a step where the release's text was changed to say so.
pub struct UnsafeCell<T> {
    cell: std::cell::UnsafeCell<T>,
    full: Cell<bool>,
}

/// A message's place, reached through a gate.
pub struct Gated<'a, T>(&'a UnsafeCell<T>);

impl<T> UnsafeCell<T> {
    pub fn new(value: T) -> Self {
        UnsafeCell { cell: std::cell::UnsafeCell::new(value), full: Cell::new(false) }
    }
    pub fn get(&self) -> *mut T {
        self.cell.get()
    }
    pub fn at_gate(&self) -> Gated<'_, T> {
        gate(Access::Message(self.get() as usize));
        Gated(self)
    }
}

impl<T> Gated<'_, T> {
    pub unsafe fn write(&self, value: T) {
        self.0.full.set(true);
        unsafe { self.0.get().write(value) }
    }
    pub unsafe fn read(&self) -> T {
        self.0.full.set(false);
        unsafe { self.0.get().read() }
    }
    pub unsafe fn replace(&self, value: T) -> T {
        unsafe { self.0.get().replace(value) }
    }
}

impl UnsafeCell<std::mem::MaybeUninit<u32>> {
    /// The message that was stored and not yet taken, or 0.
    pub fn shown(&self) -> u32 {
        if !self.full.get() {
            return 0;
        }
        unsafe { (*self.get()).assume_init() }
    }
}

/// Parking does nothing: a waiter may be stepped at any time.
#[derive(Debug)]
pub struct Thread;

impl Thread {
    pub unsafe fn park(&self) {}
    pub unsafe fn park_timeout(&self, _: std::time::Duration) {}
    pub fn unpark(&self) {}
}

/// The tick clock.
pub mod clock {
    use std::sync::atomic::{AtomicU32, Ordering::SeqCst};

    static NOW: AtomicU32 = AtomicU32::new(0);

    #[derive(Clone, Copy, PartialEq, Eq, PartialOrd, Ord)]
    pub struct Instant(pub u32);

    impl Instant {
        pub fn now() -> Instant {
            Instant(NOW.load(SeqCst))
        }
        pub fn set(ticks: u32) {
            NOW.store(ticks, SeqCst);
        }
    }

    impl std::ops::Sub for Instant {
        type Output = std::time::Duration;
        fn sub(self, _: Instant) -> std::time::Duration {
            std::time::Duration::ZERO
        }
    }
}
