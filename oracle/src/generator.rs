//! Schedule texts: random ones and long logs by a seed, and every order of the steps of two calls.

/// A small random number generator (xorshift64*), so that a seed always makes the same texts.
pub struct Random(u64);

impl Random {
    pub fn new(seed: u64) -> Random {
        Random(seed.wrapping_mul(0x9e37_79b9_7f4a_7c15) | 1)
    }

    fn next(&mut self) -> u64 {
        self.0 ^= self.0 >> 12;
        self.0 ^= self.0 << 25;
        self.0 ^= self.0 >> 27;
        self.0.wrapping_mul(0x2545_f491_4f6c_dd1d) >> 16
    }

    fn below(&mut self, n: u64) -> u64 {
        self.next() % n
    }

    fn one_of<T: Copy>(&mut self, choices: &[T]) -> T {
        choices[self.below(choices.len() as u64) as usize]
    }

    /// True once in n times.
    fn once_in(&mut self, n: u64) -> bool {
        self.below(n) == 0
    }
}

const NO_DEADLINE: u64 = 0xffff_ffff;

fn begin(t: u64, code: u64, message: u64, deadline: u64) -> String {
    format!("01{t:02x}{code:02x}{message:08x}{deadline:08x}")
}

/// A line that is not of the forms, or whose numbers are refused.
fn odd_line(r: &mut Random) -> String {
    let digits = |r: &mut Random, n: u64| -> String { (0..n).map(|_| r.one_of(&['0', '1', '2', '9', 'a', 'f'])).collect() };
    match r.below(10) {
        0 => String::new(),
        1 => digits(r, 1 + 2 * 3),
        2 => "020A".into(),
        3 => "0200\r".into(),
        4 => format!("02{}", digits(r, 2)),
        5 => format!("0{}{}", r.one_of(&['4', '5']), digits(r, 2)),
        6 => format!("00{}", digits(r, 4)),
        7 => begin(r.below(256), r.below(256), 7, r.one_of(&[0, NO_DEADLINE])),
        8 => format!("03{}", r.one_of(&["ffffffff", "fffffffe", "7fffffff"])),
        _ => format!("0{}{}", r.below(10), digits(r, 2)),
    }
}

/// The channel of a random text, and the codes of the calls on it.
struct Plan {
    capacity: u64,
    threads: u64,
    codes: &'static [u64],
}

impl Plan {
    fn new(r: &mut Random) -> Plan {
        let array = r.once_in(2);
        let capacity = match array {
            false => 0,
            true if r.once_in(4) => 1 + r.below(64),
            true => r.one_of(&[1, 1, 2, 2, 3, 4, 5, 7, 8, 64]),
        };
        let fewest = if array { 1 } else { 2 };
        let threads = if r.once_in(4) { fewest + r.below(9 - fewest) } else { 2 + r.below(3) };
        let codes: &[u64] = match (array, r.below(3)) {
            (true, 0) => &[1, 2],
            (true, 1) => &[1, 1, 2, 2, 5, 6, 7, 8],
            (true, _) => &[1, 2, 5, 6, 7, 8, 9],
            (false, 0) => &[3, 4],
            (false, 1) => &[1, 2, 3, 3, 4, 4],
            (false, _) => &[1, 2, 3, 4, 3, 4, 5, 6, 7, 8, 9],
        };
        Plan { capacity, threads, codes }
    }

    /// The header, after a line or two that are refused.
    fn heading(&self, r: &mut Random) -> Vec<String> {
        let mut lines = Vec::new();
        if r.once_in(20) {
            lines.push(odd_line(r));
        }
        if r.once_in(8) {
            lines.push(r.one_of(&["000000", "000001", "000009", "000100", "000109", "004101"]).into());
        }
        lines.push(format!("00{:02x}{:02x}", self.capacity, self.threads));
        lines
    }

    fn call(&self, r: &mut Random, t: u64) -> String {
        let code = r.one_of(self.codes);
        let limit = if code == 3 || code == 4 { r.one_of(&[0, 3, 9, NO_DEADLINE, NO_DEADLINE]) } else { NO_DEADLINE };
        begin(t, code, r.below(1 << 32), limit)
    }

    /// A call in one go, whose exchange may fail again and again.
    fn whole_call(&self, r: &mut Random, t: u64, failures: u64) -> Vec<String> {
        let mut lines = vec![self.call(r, t)];
        while r.below(100) < 5 * failures {
            lines.extend([format!("02{t:02x}"), format!("02{t:02x}"), format!("05{t:02x}")]);
        }
        lines.extend((0..5 + r.below(2)).map(|_| format!("02{t:02x}")));
        lines.push(format!("04{t:02x}"));
        lines
    }
}

/// A random text: threads begin calls, make steps in any order, some with an exchange that fails, and take their answers; some calls
/// are made in one go.
pub fn text(seed: u64) -> Vec<u8> {
    let r = &mut Random::new(seed);
    let plan = Plan::new(r);
    let mut lines = plan.heading(r);
    let whole_calls = r.one_of(&[0, 2, 10]);
    let failures = r.one_of(&[0, 3, 12]);
    // Each thread's steps since A, as far as can be guessed: two on from there it may stand at C.
    let mut since = [0; 8];
    for _ in 0..r.one_of(&[20, 100, 300]) {
        let t = r.below(plan.threads);
        match r.below(100) {
            n if n < whole_calls => lines.extend(plan.whole_call(r, t, failures)),
            10..24 => {
                lines.push(plan.call(r, t));
                since[t as usize] = 0;
            }
            24..34 => lines.push(format!("04{t:02x}")),
            34..36 => lines.push(format!("03{:08x}", r.below(4))),
            36 => lines.push(odd_line(r)),
            n if n >= 100 - failures => lines.push(format!("05{t:02x}")),
            _ => {
                let since = &mut since[t as usize];
                let fails = *since == 2 && r.below(100) < 5 * failures;
                *since = if fails { 0 } else { *since + 1 };
                lines.push(format!("0{}{t:02x}", if fails { 5 } else { 2 }));
            }
        }
    }
    let mut text = lines.join("\n").into_bytes();
    if !r.once_in(8) {
        text.push(b'\n');
    }
    text
}

/// Which channel a log is of; the bench makes logs, and the oracle none.
#[allow(dead_code)]
#[derive(Clone, Copy)]
pub struct Kind {
    pub array: bool,
    pub threads: u64,
}

/// How long a log may be.
const LOG_LIMIT: usize = 60_000;

/// Lines of a log that are refused whatever its channel stands at.
const REFUSED: [&str; 10] = ["", "0200\r", "020A", "02ff", "04f0", "0509", "0600", "000101", "010901000000010000000f", "03ffffffff"];

/// Where a thread of a log stands. On an array a call runs, at the places A to F, 0 to 5, with the number of claims that it has loaded;
/// on a rendezvous it comes to its first section, and then waits, was picked, has picked the partner that it meets, or leaves.
#[derive(Clone, Copy, PartialEq)]
enum At {
    Idle,
    Runs { code: u64, place: u64, seen: u64 },
    First { code: u64 },
    Waits { code: u64 },
    Picked { polled: bool, ready: bool },
    Meets { partner: u64, passed: bool },
    Leaves,
    Ended,
}

/// A log's channel, followed (but for a disconnect) so that most lines are accepted. An array has the claims of sends and of receives, and
/// of each slot twice its lap, and one more while it holds a message; a rendezvous has the queue of both sides, the oldest first.
struct Log {
    kind: Kind,
    capacity: u64,
    clock: u64,
    threads: [At; 8],
    deadlines: [u64; 8],
    claims: [u64; 2],
    slots: [u64; 64],
    queue: Vec<u64>,
}

impl Log {
    fn new(r: &mut Random, kind: Kind) -> Log {
        let capacity = match kind.array {
            false => 0,
            true if r.once_in(4) => 1 + r.below(64),
            true => r.one_of(&[1, 1, 2, 2, 3, 4, 5, 7, 8, 64]),
        };
        let (threads, deadlines) = ([At::Idle; 8], [NO_DEADLINE; 8]);
        Log { kind, capacity, clock: 0, threads, deadlines, claims: [0; 2], slots: [0; 64], queue: Vec::new() }
    }

    /// Mostly a call that goes through.
    fn code(&self, r: &mut Random) -> u64 {
        let first = self.queue.first().map(|t| self.threads[*t as usize]);
        let waiting = self.queue.len() as u64;
        let held = self.claims[0] - self.claims[1];
        let choices: &[u64] = match (self.kind.array, r.below(32)) {
            (_, 0) => &[5, 6, 7, 8],
            (true, 4..) if held == 0 => &[1],
            (true, 4..) if held == self.capacity => &[2],
            (true, _) => &[1, 2],
            (false, 1..4) => &[1, 2, 3, 4],
            (false, _) if 2 * waiting < self.kind.threads => &[3, 4],
            (false, _) if first == Some(At::Waits { code: 3 }) => &[2, 4, 4, 4],
            (false, _) => &[1, 3, 3, 3],
        };
        r.one_of(choices)
    }

    /// A call begins. It has a deadline where all others are in the same call, so that not all wait for ever.
    fn begin(&mut self, r: &mut Random, t: u64, code: u64) -> String {
        let same = |other: &At| matches!(*other, At::First { code: c } | At::Waits { code: c } if c == code);
        let all = self.threads.iter().filter(|at| same(at)).count() as u64 + 1 == self.kind.threads;
        let limited = (code == 3 || code == 4) && (all || r.once_in(5));
        let deadline = if limited { self.clock + r.below(5) } else { NO_DEADLINE };
        self.deadlines[t as usize] = deadline;
        self.threads[t as usize] = if self.kind.array { At::Runs { code, place: 0, seen: 0 } } else { At::First { code } };
        begin(t, code, r.below(1 << 32), deadline)
    }

    /// Where a step takes a send or a receive on an array.
    fn pass(&mut self, code: u64, place: u64, seen: u64) -> At {
        let side = code as usize - 1;
        let slot = &mut self.slots[(seen % self.capacity) as usize];
        let due = 2 * (seen / self.capacity) + side as u64;
        let at = |place, seen| At::Runs { code, place, seen };
        match place {
            0 => at(1, self.claims[side]),
            1 if *slot == due => at(2, seen),
            1 if *slot + 1 == due => at(3, seen),
            2 if self.claims[side] == seen => {
                self.claims[side] += 1;
                at(4, seen)
            }
            3 if [self.claims[1] + self.capacity, self.claims[0]][side] == seen => At::Ended,
            4 => at(5, seen),
            5 => {
                *slot = due + 1;
                At::Ended
            }
            _ => at(0, 0),
        }
    }

    /// Where a step takes a call on an array that only asks.
    fn ask(&self, code: u64, place: u64, seen: u64) -> At {
        let tail = self.claims[0];
        match (code, place) {
            (5, 2) if tail == seen => At::Ended,
            (5, 2) => At::Runs { code, place: 0, seen: 0 },
            (5..=7, 0) => At::Runs { code, place: 1, seen: tail },
            (5, 1) => At::Runs { code, place: 2, seen },
            _ => At::Ended,
        }
    }

    /// Where the first section takes a call on a rendezvous.
    fn meet(&mut self, t: u64, code: u64) -> At {
        let opposed = |t: &u64| matches!(self.threads[*t as usize], At::Waits { code: other } if other % 2 != code % 2);
        if code > 4 {
            return At::Ended;
        }
        if let Some(at) = self.queue.iter().position(opposed) {
            let partner = self.queue.remove(at);
            self.threads[partner as usize] = At::Picked { polled: false, ready: false };
            return At::Meets { partner, passed: false };
        }
        if code <= 2 {
            return At::Ended;
        }
        self.queue.push(t);
        At::Waits { code }
    }

    /// Where a step takes a thread.
    fn step(&mut self, t: u64) -> At {
        match self.threads[t as usize] {
            At::Runs { code: code @ 1..=2, place, seen } => self.pass(code, place, seen),
            At::Runs { code, place, seen } => self.ask(code, place, seen),
            At::First { code } => self.meet(t, code),
            At::Waits { .. } if self.clock >= self.deadlines[t as usize] => {
                self.queue.retain(|other| *other != t);
                At::Leaves
            }
            At::Picked { polled: true, ready: true } | At::Leaves => At::Ended,
            At::Picked { ready, .. } => At::Picked { polled: true, ready },
            At::Meets { partner, passed: false } => At::Meets { partner, passed: true },
            At::Meets { partner, .. } => {
                if let At::Picked { ready, .. } = &mut self.threads[partner as usize] {
                    *ready = true;
                }
                At::Ended
            }
            same => same,
        }
    }

    /// The next line of a thread: now and then one that is refused, or an exchange that fails.
    fn turn(&mut self, r: &mut Random, t: u64, late: bool) -> String {
        let at = self.threads[t as usize];
        let (line, next) = match at {
            At::Idle if r.once_in(25) => (2, at),
            At::Idle => {
                let code = if late && r.once_in(4) { 9 } else { self.code(r) };
                return self.begin(r, t, code);
            }
            At::Ended => (4, At::Idle),
            At::Runs { code: code @ 1..=2, place: 2, .. } if r.once_in(25) => (5, At::Runs { code, place: 0, seen: 0 }),
            _ if r.once_in(100) => (4, at),
            _ => (2, self.step(t)),
        };
        self.threads[t as usize] = next;
        format!("0{line}{t:02x}")
    }
}

/// A long text, as a log of workers: mostly steps, and nearly all accepted; a disconnect comes late, if at all.
#[allow(dead_code)]
pub fn log(kind: Kind, seed: u64) -> Vec<u8> {
    let r = &mut Random::new(seed);
    let mut log = Log::new(r, kind);
    let mut text = format!("00{:02x}{:02x}\n", log.capacity, kind.threads);
    while text.len() + 23 <= LOG_LIMIT {
        let mut t = r.below(kind.threads);
        while log.threads[t as usize] == At::Idle && r.once_in(2) {
            t = r.below(kind.threads);
        }
        text += &match r.below(200) {
            0 => r.one_of(&REFUSED).to_string(),
            1..4 => {
                let ticks = r.below(4);
                log.clock += ticks;
                format!("03{ticks:08x}")
            }
            _ => log.turn(r, t, text.len() + 1000 > LOG_LIMIT),
        };
        text.push('\n');
    }
    text.into_bytes()
}

/// What two calls may find: nothing, a full or half full array, a stalled claim, a waiter, a disconnect.
fn starts(capacity: u64) -> Vec<Vec<String>> {
    let whole = |t: u64, code: u64, n: usize| {
        let mut l = vec![begin(t, code, 5, NO_DEADLINE)];
        l.extend(vec![format!("02{t:02x}"); n]);
        l
    };
    let stalled = |code: u64, n: usize| whole(2, code, n);
    if capacity == 0 {
        return vec![vec![], stalled(3, 1), stalled(4, 1), whole(2, 9, 1)];
    }
    let taken = |l: Vec<String>| l.into_iter().chain(["0402".to_string()]).collect::<Vec<_>>();
    vec![vec![], taken(whole(2, 1, 5)), stalled(1, 3), [taken(whole(2, 1, 5)), stalled(2, 3)].concat(), taken(whole(2, 9, 1))]
}

/// Every order of `length` steps of each pair of calls, from each start, with both answers taken; of sends and receives on an array also
/// with each of the steps, one at a time, as a failing exchange.
pub fn pairs(capacity: u64, length: u32) -> impl Iterator<Item = Vec<u8>> {
    let codes: Vec<u64> = if capacity == 0 { (1..=9).collect() } else { vec![1, 2, 5, 6, 7, 8, 9] };
    let mut firsts = Vec::new();
    for start in starts(capacity) {
        for a in &codes {
            for b in &codes {
                let limit = |code: u64| if code == 4 { 0 } else { NO_DEADLINE };
                let mut lines = vec![format!("00{capacity:02x}03")];
                lines.extend(start.clone());
                lines.extend([begin(0, *a, 0xa, limit(*a)), begin(1, *b, 0xb, limit(*b))]);
                let failing = if capacity > 0 && *a.max(b) <= 2 { length } else { 0 };
                // No step fails in the last of these.
                firsts.extend((0..=failing).map(|fails| (lines.clone(), if fails < failing { fails } else { length })));
            }
        }
    }
    firsts.into_iter().flat_map(move |(lines, fails)| {
        (0..1u32 << length).map(move |order| {
            let mut lines = lines.clone();
            lines.extend((0..length).map(|i| format!("0{}{:02x}", if i == fails { 5 } else { 2 }, order >> i & 1)));
            lines.extend(["0400", "0401", "0200", "0201", "0202", "0402"].map(String::from));
            (lines.join("\n") + "\n").into_bytes()
        })
    })
}
