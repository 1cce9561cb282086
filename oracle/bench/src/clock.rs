//! The best time of a call, of several runs in which the sides take turns.
use std::hint::black_box;
use std::time::{Duration, Instant};

/// How long a run takes at least. Short runs are disturbed less often.
const LEAST: Duration = Duration::from_millis(1);

/// How often each side is run: so many times, or fewer if that would take too long.
const MOST_RUNS: usize = 50;
const FEWEST_RUNS: usize = 9;
const ENOUGH: Duration = Duration::from_secs(1);

/// Something to be timed, called so many times.
pub type Side<'a> = Box<dyn FnMut(u32) + 'a>;

/// What the call gives is looked at from outside and dropped, within its time.
pub fn side<'a, T>(mut call: impl FnMut() -> T + 'a) -> Side<'a> {
    Box::new(move |calls| {
        for _ in 0..calls {
            black_box(&call());
        }
    })
}

/// The best time of one call of each side, in seconds.
pub fn best(sides: &mut [Side<'_>]) -> Vec<f64> {
    let calls: Vec<u32> = sides.iter_mut().map(calls_of_a_run).collect();
    let mut best = vec![f64::INFINITY; sides.len()];
    let start = Instant::now();
    for runs in 0..MOST_RUNS {
        if runs >= FEWEST_RUNS && start.elapsed() > ENOUGH {
            break;
        }
        for (i, side) in sides.iter_mut().enumerate() {
            let time = run(side, calls[i]).as_secs_f64() / f64::from(calls[i]);
            best[i] = best[i].min(time);
        }
    }
    best
}

fn run(side: &mut Side<'_>, calls: u32) -> Duration {
    let start = Instant::now();
    side(calls);
    start.elapsed()
}

/// How many calls take long enough.
fn calls_of_a_run(side: &mut Side<'_>) -> u32 {
    let mut calls = 1;
    while run(side, calls) < LEAST {
        calls *= 2;
    }
    calls
}
