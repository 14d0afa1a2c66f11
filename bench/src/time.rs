//! Both replayers timed over the same texts, in one process and by turns.
use crate::sides::{self, SIDES, Side};
use crate::texts::{KINDS, Kind, SUMS, frames};
use std::time::Instant;

/// What was measured of some texts: their frames, and the seconds of the proved and of the ordinary side.
#[derive(Clone, Copy, Default)]
struct Times {
    frames: u64,
    seconds: [f64; 2],
}

impl Times {
    /// The sum of two measurements.
    fn add(&mut self, more: Times) {
        self.frames += more.frames;
        self.seconds = [self.seconds[0] + more.seconds[0], self.seconds[1] + more.seconds[1]];
    }

    /// The proved side's time by the ordinary side's.
    fn ratio(self) -> f64 {
        self.seconds[0] / self.seconds[1]
    }

    /// Frames a second of a side.
    fn speed(self, side: usize) -> f64 {
        self.frames as f64 / self.seconds[side]
    }

    /// One line of the table.
    fn tell(self, name: &str) {
        println!("{name:<15} {:>10} {:>8.3} {:>16.0} {:>16.0}", self.frames, self.ratio(), self.speed(0), self.speed(1));
    }
}

/// Replays each text on a side, and hands on the output; answers the seconds that the replays took.
fn timed(side: Side, texts: &[Vec<u8>], out: &mut [u8], mut seen: impl FnMut(usize, &[u8])) -> f64 {
    let mut seconds = 0.0;
    for (i, text) in texts.iter().enumerate() {
        let start = Instant::now();
        let end = side.replay(text, out);
        seconds += start.elapsed().as_secs_f64();
        seen(i, &out[..end]);
    }
    seconds
}

/// A warm-up round, and then the best of the rounds, of each side.
fn measure(name: &str, kind: Kind, seed: u64, count: u64, rounds: u64) -> Times {
    let texts: Vec<Vec<u8>> = (seed..seed + count).map(|s| kind.text(s)).collect();
    let mut out = sides::buffer(texts.iter().map(Vec::len).max().unwrap_or(0));
    let mut outputs = vec![Vec::new(); texts.len()];
    let mut seconds = [f64::INFINITY; 2];
    for round in 0..=rounds {
        for (i, (_, side, _)) in SIDES.iter().enumerate() {
            let took = match side {
                Side::Proved => timed(*side, &texts, &mut out, |n, output| outputs[n] = output.to_vec()),
                Side::Ordinary => timed(*side, &texts, &mut out, |n, output| sides::same(name, seed + n as u64, &outputs[n], output)),
            };
            if round > 0 {
                seconds[i] = seconds[i].min(took);
            }
        }
    }
    Times { frames: texts.iter().map(|text| frames(text)).sum(), seconds }
}

/// The table of all kinds, and the sums of the arrays' and the rendezvous' texts.
pub fn time(seed: u64, count: u64, rounds: u64) {
    println!("{:<15} {:>10} {:>8} {:>16} {:>16}", "kind", "frames", "ratio", "proved: fr/s", "ordinary: fr/s");
    let mut sums = [Times::default(); SUMS.len()];
    for (name, kind) in KINDS {
        let times = measure(name, kind, seed, count, rounds);
        times.tell(name);
        for (sum, (_, begins)) in sums.iter_mut().zip(SUMS) {
            if name.starts_with(begins) {
                sum.add(times);
            }
        }
    }
    for (sum, (name, _)) in sums.iter().zip(SUMS) {
        sum.tell(name);
    }
}

/// Ever new texts of all logs' kinds, made one at a time, until both sides have replayed so many frames.
pub fn log(least: u64) {
    let logs: Vec<(&str, Kind)> = KINDS.into_iter().filter(|(_, kind)| matches!(kind, Kind::Log(_))).collect();
    let mut outs = [Vec::new(), Vec::new()];
    let mut times = Times::default();
    let mut texts = 0;
    while times.frames < least {
        let (name, kind) = logs[texts % logs.len()];
        texts += 1;
        let text = kind.text(texts as u64);
        let mut took = Times { frames: frames(&text), ..Times::default() };
        let mut ends = [0; 2];
        // The sides take turns in being first.
        for i in [texts / logs.len() % 2, 1 - texts / logs.len() % 2] {
            outs[i].resize(3 * text.len() + 3, 0);
            let start = Instant::now();
            ends[i] = SIDES[i].1.replay(&text, &mut outs[i]);
            took.seconds[i] = start.elapsed().as_secs_f64();
        }
        sides::same(name, texts as u64, &outs[0][..ends[0]], &outs[1][..ends[1]]);
        times.add(took);
    }
    println!("log: {} frames in {texts} texts, no difference", times.frames);
    println!("proved   {:>9.3} seconds {:>12.0} frames a second", times.seconds[0], times.speed(0));
    println!("ordinary {:>9.3} seconds {:>12.0} frames a second", times.seconds[1], times.speed(1));
    println!("ratio    {:>9.3}", times.ratio());
}
