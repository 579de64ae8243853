//! Times of several things side by side. In each round each is timed once, so that a busy machine slows
//! all of a round alike; what is given are medians over the rounds.

use std::time::Duration;

use crate::clock::processor_time;

const MOST_ROUNDS: usize = 31;
const LEAST_ROUNDS: usize = 9;
/// Rounds beyond the least are made while they take no more than this together.
const ROW_TIME: Duration = Duration::from_millis(250);
/// So long that reading the clock, which asks the system, does not count.
const BATCH_TIME: Duration = Duration::from_micros(200);

/// Something to be timed: so many calls at once, made ready before.
pub trait Timed {
    fn ready(&mut self, calls: usize);
    fn call(&mut self, calls: usize);
    /// How many calls can be made ready at once.
    fn most_calls(&self) -> usize;
}

fn time(timed: &mut dyn Timed, calls: usize) -> Duration {
    timed.ready(calls);
    let start = processor_time();
    timed.call(calls);
    processor_time() - start
}

/// As many calls as take some time together.
fn batch(timed: &mut dyn Timed) -> usize {
    let mut calls = 1;
    while 2 * calls <= timed.most_calls() && time(timed, calls) < BATCH_TIME {
        calls *= 2;
    }
    calls
}

/// The nanoseconds of a call, of each, round by round.
pub struct Times(Vec<Vec<f64>>);

impl Times {
    pub fn of(things: &mut [&mut dyn Timed]) -> Times {
        let calls: Vec<usize> = things.iter_mut().map(|timed| batch(*timed)).collect();
        let (mut rounds, mut spent) = (Vec::new(), Duration::ZERO);
        while rounds.len() < LEAST_ROUNDS || rounds.len() < MOST_ROUNDS && spent < ROW_TIME {
            let times: Vec<Duration> =
                things.iter_mut().zip(&calls).map(|(timed, calls)| time(*timed, *calls)).collect();
            spent += times.iter().sum::<Duration>();
            let of_one =
                |(time, calls): (&Duration, &usize)| time.as_nanos() as f64 / *calls as f64;
            rounds.push(times.iter().zip(&calls).map(of_one).collect());
        }
        Times(rounds)
    }

    /// The median of what each round gives.
    pub fn median(&self, of: impl Fn(&[f64]) -> f64) -> f64 {
        let mut all: Vec<f64> = self.0.iter().map(|round| of(round)).collect();
        all.sort_by(f64::total_cmp);
        all[all.len() / 2]
    }
}

/// A call that leaves its input as it is.
pub struct Reading<F>(pub F);

impl<T, F: Fn() -> T> Timed for Reading<F> {
    fn ready(&mut self, _: usize) {}

    fn call(&mut self, calls: usize) {
        for _ in 0..calls {
            std::hint::black_box((self.0)());
        }
    }

    fn most_calls(&self) -> usize {
        usize::MAX
    }
}
