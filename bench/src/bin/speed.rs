//! Times the reference and, with the feature `library`, the linked library on the same inputs.
//!
//! Times are medians over runs; the two typers take turns. Memories are just long enough unless a row says otherwise, and
//! both clear them, as the rules have it.

use bench::reference::Reference;
use bench::workloads::{NEEDS, Row, growing, rows};
use std::time::{Duration, Instant};

const RUNS: usize = 15;
const RUN: Duration = Duration::from_millis(10);

/// How often the work is done in one run.
fn turns(work: &mut dyn FnMut()) -> u32 {
    let mut turns = 1;
    loop {
        let start = Instant::now();
        (0..turns).for_each(|_| work());
        let taken = start.elapsed();
        if taken * 4 >= RUN {
            return ((f64::from(turns) * RUN.as_secs_f64() / taken.as_secs_f64()) as u32).max(1);
        }
        turns *= 2;
    }
}

/// Nanoseconds for one turn of each of some works, medians of runs that take turns.
fn medians(works: &mut [Box<dyn FnMut() + '_>]) -> Vec<f64> {
    let turns: Vec<u32> = works.iter_mut().map(|work| turns(work)).collect();
    let mut times = vec![Vec::new(); works.len()];
    for _ in 0..RUNS {
        for (at, work) in works.iter_mut().enumerate() {
            let start = Instant::now();
            (0..turns[at]).for_each(|_| work());
            times[at].push(start.elapsed().as_nanos() as f64 / f64::from(turns[at]));
        }
    }
    times.iter_mut().for_each(|times| times.sort_by(f64::total_cmp));
    times.iter().map(|times| times[RUNS / 2]).collect()
}

#[cfg(feature = "library")]
fn works(row: &Row) -> Vec<Box<dyn FnMut() + '_>> {
    vec![row.ready::<Reference>(), row.ready::<bench::ffi::Library>()]
}

#[cfg(not(feature = "library"))]
fn works(row: &Row) -> Vec<Box<dyn FnMut() + '_>> {
    vec![row.ready::<Reference>()]
}

fn shown(nanoseconds: f64) -> String {
    format!("{:.2} µs", nanoseconds / 1_000.0)
}

/// The times of one row, the library's also as a multiple of the reference's.
fn cells(times: &[f64]) -> String {
    match times {
        [reference, library] => {
            format!("{:>14} {:>14} {:>7.2}", shown(*reference), shown(*library), library / reference)
        }
        times => times.iter().map(|&time| format!("{:>14}", shown(time))).collect(),
    }
}

fn main() {
    println!("medians of {RUNS} runs");
    println!("{:<52} {:>5} {:>5} {:>14} {:>14} {:>7}", "", "T", "N", "reference", "library", "ratio");
    for row in rows() {
        let (nodes, need) = row.size;
        println!("{:<52} {nodes:>5} {need:>5} {}", row.title, cells(&medians(&mut works(&row))));
    }
    println!("\ntime against N, microseconds (reference, then library)");
    let heads: String = NEEDS.iter().map(|need| format!("{need:>18}")).collect();
    println!("{:<44}{heads}", "");
    for shape in growing() {
        let times: Vec<Vec<f64>> = shape.iter().map(|row| medians(&mut works(row))).collect();
        let cell = |times: &Vec<f64>| {
            times.iter().map(|time| format!("{:.1}", time / 1_000.0)).collect::<Vec<_>>().join(" / ")
        };
        let cells: String = times.iter().map(|times| format!("{:>18}", cell(times))).collect();
        println!("{:<44}{cells}", shape[0].title);
    }
}
