//! Runs in turn, and what is printed of their speeds.

use std::time::Instant;

pub const RUNS: usize = 5;

/// Each of these does a number of works and is run five times, in turn. The speeds are millions of works in a second,
/// slowest run first.
pub fn runs<const N: usize>(works: usize, measured: [impl Fn(); N]) -> [[f64; RUNS]; N] {
    let mut speeds = [[0.0; RUNS]; N];
    for run in 0..RUNS {
        for (speeds, work) in speeds.iter_mut().zip(&measured) {
            let start = Instant::now();
            work();
            speeds[run] = works as f64 / start.elapsed().as_secs_f64() / 1e6;
        }
    }
    for speeds in &mut speeds {
        speeds.sort_by(f64::total_cmp);
    }
    speeds
}

pub fn print_heading() {
    println!("{:<26} {:>8} {:>10} {:>10} {:>10}", "millions a second", "", "min", "median", "max");
}

/// The first of the names is the library, to which the others are held.
pub fn print_speeds(title: &str, names: &[&str], speeds: &[[f64; RUNS]]) {
    for (name, speeds) in names.iter().zip(speeds) {
        let (least, most) = (speeds[0], speeds[RUNS - 1]);
        println!("{title:<26} {name:>8} {least:>10.2} {:>10.2} {most:>10.2}", median(speeds));
    }
    for (name, other) in names.iter().zip(speeds).skip(1) {
        println!("{title:<26} library/{name} {:.2}", median(&speeds[0]) / median(other));
    }
}

pub fn median(speeds: &[f64; RUNS]) -> f64 {
    speeds[RUNS / 2]
}
