//! One line of a table: calls that take turns within a round, many rounds.
use std::time::Instant;

const ROUNDS: usize = 41;

/// Seconds for one call, over as many calls as take about two milliseconds.
fn once(call: &mut dyn FnMut()) -> f64 {
    let start = Instant::now();
    call();
    let calls = (2e-3 / start.elapsed().as_secs_f64().max(1e-8)).clamp(1.0, 1e5) as usize;
    let start = Instant::now();
    for _ in 0..calls {
        call();
    }
    start.elapsed().as_secs_f64() / calls as f64
}

fn median(mut times: Vec<f64>) -> f64 {
    times.sort_by(f64::total_cmp);
    times[times.len() / 2]
}

/// One line of the table: microseconds of each, and the ratio of the medians with the middle half of the rounds' ratios.
pub fn compare(name: &str, mut ours: impl FnMut(), mut theirs: impl FnMut()) {
    let (mut a, mut b, mut ratios) = (Vec::new(), Vec::new(), Vec::new());
    for _ in 0..ROUNDS {
        let (x, y) = (once(&mut ours), once(&mut theirs));
        a.push(x);
        b.push(y);
        ratios.push(x / y);
    }
    ratios.sort_by(f64::total_cmp);
    let (low, high) = (ratios[ROUNDS / 4], ratios[ROUNDS * 3 / 4]);
    let (a, b) = (median(a), median(b));
    println!("| {name} | {:.2} | {:.2} | {:.2} | {low:.2} to {high:.2} |", a * 1e6, b * 1e6, a / b);
}

/// One line of a table of several calls of the library: microseconds of each.
pub fn side_by_side(name: &str, calls: &mut [&mut dyn FnMut()]) {
    let mut times = vec![Vec::new(); calls.len()];
    for _ in 0..ROUNDS {
        for (call, times) in calls.iter_mut().zip(&mut times) {
            times.push(once(call));
        }
    }
    let cells: Vec<String> = times.into_iter().map(|times| format!("{:.2}", median(times) * 1e6)).collect();
    println!("| {name} | {} |", cells.join(" | "));
}
