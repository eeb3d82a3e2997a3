//! Programs in turn, round by round, so that whatever else the machine does hits all.

use std::hint::black_box;
use std::time::Instant;

/// Nanoseconds that this thread has had a processor: other work on the machine does not count, though it still warms and cools the
/// caches. The system brings the figure up to date when the thread gives way. None where it has no such figure.
fn on_the_processor() -> Option<f64> {
    std::thread::yield_now();
    let stat = std::fs::read_to_string("/proc/thread-self/schedstat").ok()?;
    stat.split(' ').next()?.parse().ok()
}

/// Nanoseconds a call, over the rounds.
pub struct Times {
    pub best: f64,
    pub median: f64,
}

fn times(mut rounds: Vec<f64>) -> Times {
    rounds.sort_by(f64::total_cmp);
    Times { best: rounds[0], median: rounds[rounds.len() / 2] }
}

impl Times {
    pub fn print(&self, name: &str, what: &str) {
        println!("  {name:<11} best {:>8.1}  median {:>8.1}  ns a {what}", self.best, self.median);
    }

    /// To another's, best and median.
    pub fn to(&self, other: &Times) -> [f64; 2] {
        [self.best / other.best, self.median / other.median]
    }
}

pub fn print_ratio(name: &str, [best, median]: [f64; 2]) {
    println!("  {name:<11} best {best:>8.2}  median {median:>8.2}");
}

fn timed<T>(calls: u64, run: &mut impl FnMut() -> T) -> (f64, T) {
    let before = on_the_processor();
    let start = Instant::now();
    let answer = black_box(run());
    let passed = start.elapsed().as_nanos() as f64;
    let used = on_the_processor().zip(before).map_or(passed, |(after, before)| after - before);
    (used / calls as f64, answer)
}

/// Each round runs `calls` calls of every program. None if what they answer differs.
pub fn alternate<T: PartialEq, const N: usize>(
    rounds: usize,
    calls: u64,
    mut programs: [&mut dyn FnMut() -> T; N],
) -> Option<[Times; N]> {
    let mut all = [(); N].map(|()| Vec::new());
    for _ in 0..rounds {
        let mut answers = Vec::new();
        for (program, times) in programs.iter_mut().zip(&mut all) {
            let (time, answer) = timed(calls, program);
            times.push(time);
            answers.push(answer);
        }
        if answers.iter().any(|answer| *answer != answers[0]) {
            return None;
        }
    }
    Some(all.map(times))
}
