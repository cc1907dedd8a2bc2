//! Times rows: the sides take turns, and the minimum and the median of many runs are kept.
use crate::rows::{Row, Work};
use std::hint::black_box;
use std::time::Instant;

/// Nanoseconds per unit: the minimum and the median of all runs.
#[derive(Clone, Copy)]
pub struct Time {
    pub least: f64,
    pub middle: f64,
}

/// The times of a row.
pub struct Measured {
    pub ours: Time,
    pub original: Time,
    pub limit: Option<Time>,
}

/// Times a row, after checking that both sides return and write the same.
pub fn measure(row: &Row, runs: usize) -> Measured {
    assert_eq!(
        (row.ours)(),
        (row.original)(),
        "{}: the answers differ",
        row.name
    );
    if let Some((ours, original)) = row.written.as_ref().map(|written| written()) {
        assert_eq!(ours, original, "{}: the written bytes differ", row.name);
    }
    let works: Vec<&Work> = [Some(&row.ours), Some(&row.original), row.limit.as_ref()]
        .into_iter()
        .flatten()
        .collect();
    let mut times = vec![Vec::with_capacity(runs); works.len()];
    for run in 0..runs {
        let _held = held(run % 4);
        for turn in 0..works.len() {
            let side = (turn + run) % works.len();
            times[side].push(once(works[side], row.units));
        }
    }
    let mut kept = times.into_iter().map(of_runs);
    let (ours, original) = (kept.next(), kept.next());
    Measured {
        ours: ours.expect("ours ran"),
        original: original.expect("the original ran"),
        limit: kept.next(),
    }
}

/// The lengths of most allocations of the calls that write.
const WRITTEN: [usize; 6] = [8, 12, 64, 80, 1028, 2048];

/// Allocates `count` blocks of each length. They are held while a run is timed, so that the addresses of the
/// call's own allocations vary from run to run and the minimum doesn't depend on a single one.
fn held(count: usize) -> Vec<Vec<u8>> {
    WRITTEN
        .iter()
        .flat_map(|len| std::iter::repeat_with(|| black_box(Vec::with_capacity(*len))).take(count))
        .collect()
}

/// Times one run, after one that isn't timed. Each side has bytes of its own, and has just read them.
fn once(work: &Work, units: usize) -> f64 {
    black_box(work());
    let start = Instant::now();
    black_box(work());
    start.elapsed().as_nanos() as f64 / units as f64
}

/// Returns the minimum and the median.
pub fn of_runs(mut times: Vec<f64>) -> Time {
    times.sort_by(f64::total_cmp);
    Time {
        least: times[0],
        middle: times[times.len() / 2],
    }
}
