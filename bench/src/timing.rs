//! The clock: both sides in turn, many short rounds, and the median of one call's time.
use std::time::Instant;

/// A round takes about this long, or one call; few short rounds are cut by another program's turn.
const ROUND_NANOS: f64 = 250_000.0;
const MOST_ROUNDS: f64 = 301.0;
const LEAST_ROUNDS: f64 = 3.0;
/// A row of the table takes about this long, where three rounds do not take longer.
const ROW_NANOS: f64 = 1_000_000_000.0;

/// The median times of one call in nanoseconds.
pub struct Times {
    pub name: String,
    pub ours: f64,
    pub rust: f64,
}

impl Times {
    pub fn ratio(&self) -> f64 {
        self.ours / self.rust
    }
}

/// One side of a comparison, and which input its next call takes. Each call takes the next of many inputs: repeated on
/// one, the processor learns its branches by heart, which no user's data lets it do.
struct Side<'a> {
    call: &'a mut dyn FnMut(usize),
    inputs: usize,
    next: usize,
    times: Vec<f64>,
}

impl<'a> Side<'a> {
    fn new(inputs: usize, call: &'a mut dyn FnMut(usize)) -> Self {
        Side { call, inputs, next: 0, times: Vec::new() }
    }

    /// The time of one call, over `calls` calls that take the inputs in turn.
    fn nanos(&mut self, calls: usize) -> f64 {
        let start = Instant::now();
        for _ in 0..calls {
            (self.call)(self.next);
            self.next += 1;
            if self.next == self.inputs {
                self.next = 0;
            }
        }
        start.elapsed().as_nanos() as f64 / calls as f64
    }

    fn round(&mut self, calls: usize) {
        let time = self.nanos(calls);
        self.times.push(time);
    }

    fn median(mut self) -> f64 {
        self.times.sort_by(f64::total_cmp);
        self.times[self.times.len() / 2]
    }
}

/// The two sides take turns, so that a slow moment of the machine meets both.
pub fn compare(name: &str, inputs: usize, ours: &mut dyn FnMut(usize), rust: &mut dyn FnMut(usize)) -> Times {
    let mut ours = Side::new(inputs, ours);
    let mut rust = Side::new(inputs, rust);
    // a first call of each tells how long a round is
    let (our, their) = (ours.nanos(1), rust.nanos(1));
    let calls = (ROUND_NANOS / our.max(their)).ceil();
    // every input as often as every other, where a call is long and its input tells
    let round = if calls > 1.0 { calls } else { inputs as f64 };
    let rounds = (ROW_NANOS / (round * (our + their))).clamp(LEAST_ROUNDS, MOST_ROUNDS);
    for _ in 0..rounds as usize {
        ours.round(round as usize);
        rust.round(round as usize);
    }
    Times { name: name.to_string(), ours: ours.median(), rust: rust.median() }
}
