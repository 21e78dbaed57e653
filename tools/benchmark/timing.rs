//! Times pairs of calls in turns: in each round a batch of either side of every case, so that what disturbs the machine meets all alike.

use std::time::{Duration, Instant};

const BATCH: Duration = Duration::from_millis(2);
const ROUNDS: usize = 41;

type Call<'a> = Box<dyn FnMut() + 'a>;

/// The same work for both sides, `count` calls to a batch, and what each batch took.
pub struct Case<'a> {
    what: String,
    sides: [Call<'a>; 2],
    count: usize,
    taken: [Vec<f64>; 2],
}

fn seconds(count: usize, call: &mut Call) -> f64 {
    let start = Instant::now();
    for _ in 0..count {
        call();
    }
    start.elapsed().as_secs_f64()
}

/// How many calls fill a batch, by doubling.
fn calibrated(call: &mut Call) -> usize {
    let mut count = 1;
    loop {
        let took = seconds(count, call);
        if took >= BATCH.as_secs_f64() / 2.0 {
            return ((count as f64 * BATCH.as_secs_f64() / took) as usize).max(1);
        }
        count *= 2;
    }
}

fn percentile(numbers: &[f64], percent: usize) -> f64 {
    let mut sorted = numbers.to_vec();
    sorted.sort_by(f64::total_cmp);
    sorted[(sorted.len() - 1) * percent / 100]
}

impl<'a> Case<'a> {
    pub fn new(what: String, original: impl FnMut() + 'a, port: impl FnMut() + 'a) -> Case<'a> {
        Case { what, sides: [Box::new(original), Box::new(port)], count: 0, taken: [Vec::new(), Vec::new()] }
    }

    /// One batch of either side, one after the other.
    fn pair(&mut self, first: usize) {
        for side in [first, 1 - first] {
            let took = seconds(self.count, &mut self.sides[side]);
            self.taken[side].push(took);
        }
    }

    /// What a call takes, in µs.
    fn each(&self, side: usize) -> f64 {
        percentile(&self.taken[side], 50) * 1e6 / self.count as f64
    }

    /// The ratio, port to original, by its median and its 10th and 90th percentile; then µs of a call of either.
    fn print(&self) {
        let ratios: Vec<f64> = self.taken[1].iter().zip(&self.taken[0]).map(|(port, original)| port / original).collect();
        let [low, middle, high] = [10, 50, 90].map(|percent| percentile(&ratios, percent));
        println!("{} | {middle:.4} {low:.4} {high:.4} {:.4} {:.4}", self.what, self.each(0), self.each(1));
    }
}

/// Times the cases and prints a line of each. Which side goes first changes from round to round.
pub fn in_turns(mut cases: Vec<Case>) {
    for case in &mut cases {
        case.count = calibrated(&mut case.sides[0]).min(calibrated(&mut case.sides[1]));
    }
    for round in 0..ROUNDS {
        for case in &mut cases {
            case.pair(round % 2);
        }
    }
    for case in &cases {
        case.print();
    }
}
