//! Times forms of the same work in turn, and keeps the best time of each.
use std::time::{Duration, Instant};

/// How long a row is raced, and how many rounds it has at least.
const ROW: Duration = Duration::from_millis(500);
const ROUNDS: usize = 31;

/// A side's work, done once over; what it answers is how long it took.
pub type Side<'a> = Box<dyn FnMut() -> Duration + 'a>;

pub fn timed(work: impl FnOnce()) -> Duration {
    let start = Instant::now();
    work();
    start.elapsed()
}

/// A round has every side once. The best time of each side, in ns for one of `units`.
pub fn best(units: usize, sides: &mut [Side]) -> Vec<f64> {
    let mut best = vec![Duration::MAX; sides.len()];
    let start = Instant::now();
    let mut round = 0;
    while round < ROUNDS || start.elapsed() < ROW {
        for (best, side) in best.iter_mut().zip(sides.iter_mut()) {
            *best = side().min(*best);
        }
        round += 1;
    }
    best.iter().map(|b| b.as_secs_f64() * 1e9 / units as f64).collect()
}

/// Races the Rust's forms against the port's one and prints the row, with the Rust's faster form.
pub fn row<'a>(name: &str, units: usize, forms: &[&str], mut rust: Vec<Side<'a>>, port: Side<'a>) {
    rust.push(port);
    let times = best(units, &mut rust);
    let (port, rust) = times.split_last().unwrap();
    let fastest = (0..rust.len()).min_by(|&a, &b| rust[a].total_cmp(&rust[b])).unwrap();
    if forms.len() > 1 {
        let told: Vec<String> = forms.iter().zip(rust).map(|(form, ns)| format!("{form} {ns:.3}")).collect();
        println!("# {name}: the Rust by {}: the faster counts", told.join(", "));
    }
    println!("{name} rust={:.3} port={port:.3} ratio={:.2}", rust[fastest], rust[fastest] / port);
}
