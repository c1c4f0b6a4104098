//! Times of calls, and ratios of them held to goals.

use std::time::Instant;

/// Everything is measured in so many parts, by turns; the quickest part counts, since whatever else
/// the machine does only adds to it.
const PARTS: usize = 20;

/// What is measured: a call, or a word of a fill; how often in all, and how.
pub struct Subject {
    pub name: String,
    pub calls: usize,
    run: Box<dyn FnMut(usize)>,
}

impl Subject {
    /// `run` makes as many calls as it is told.
    pub fn new(name: &str, calls: usize, run: impl FnMut(usize) + 'static) -> Subject {
        Subject {
            name: name.to_string(),
            calls,
            run: Box::new(run),
        }
    }

    pub fn call(name: &str, calls: usize, mut call: impl FnMut() + 'static) -> Subject {
        Subject::new(name, calls, move |times| (0..times).for_each(|_| call()))
    }
}

/// Nanoseconds of one call of each.
pub fn measure(subjects: &mut [Subject]) -> Vec<f64> {
    let mut best = vec![f64::INFINITY; subjects.len()];
    for _ in 0..PARTS {
        for (subject, best) in subjects.iter_mut().zip(&mut best) {
            let calls = subject.calls / PARTS;
            let start = Instant::now();
            (subject.run)(calls);
            *best = best.min(start.elapsed().as_nanos() as f64 / calls as f64);
        }
    }
    best
}

/// Nanoseconds as documents have them: tenths below 100, and a comma before the hundreds.
pub fn figure(time: f64) -> String {
    match time.round() as u64 {
        0..100 => format!("{time:.1}"),
        whole @ 100..1000 => whole.to_string(),
        whole => format!("{},{:03}", whole / 1000, whole % 1000),
    }
}

/// A ratio, and whether it is within its goal.
pub fn within(name: &str, ratio: f64, most: f64) -> bool {
    let held = ratio <= most;
    let verdict = if held { "held" } else { "MISSED" };
    println!("{ratio:>9.2}     {name}: at most {most:?}, {verdict}");
    held
}
