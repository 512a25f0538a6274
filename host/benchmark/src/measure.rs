//! Two versions side by side on the same buffers: first compared, then timed
//! in turn.

use std::hint::black_box;
use std::time::{Duration, Instant};

use crate::buffers::Buffers;
use crate::rows::Row;
use crate::version::{Version, CORE, TUNED};

/// Each row is measured for this long, and in at least so many rounds.
const LEAST_TIME: Duration = Duration::from_millis(2500);
const LEAST_ROUNDS: usize = 15;

/// Nanoseconds of one call, of each round.
pub struct Times(Vec<f64>);

impl Times {
    pub fn min(&self) -> f64 {
        self.0.iter().copied().fold(f64::INFINITY, f64::min)
    }

    pub fn median(&self) -> f64 {
        let mut sorted = self.0.clone();
        sorted.sort_by(f64::total_cmp);
        sorted[sorted.len() / 2]
    }

    pub fn rounds(&self) -> usize {
        self.0.len()
    }
}

/// One of those that take turns: call i of a batch.
pub type Contender<'a> = &'a dyn Fn(&mut Buffers, usize) -> u64;

/// Compares the versions on a row and times them.
pub fn measure(row: &Row, buffers: &mut Buffers) -> [Times; 2] {
    (row.prepare)(buffers);
    let batch = row.batch(buffers.sectors());
    let core = |b: &mut Buffers, i| (row.call)(black_box(&CORE), b, i);
    let tuned = |b: &mut Buffers, i| (row.call)(black_box(&TUNED), b, i);
    compare(row, buffers, batch);
    take_turns([&core, &tuned], buffers, batch)
}

/// "both numbers and every byte of image, kinds, ledger and block buffer
/// afterwards" are the same, and of the roles, the answer and what is viewed, and no
/// call of the batch is refused.
fn compare(row: &Row, buffers: &mut Buffers, batch: usize) {
    let mut run = |version: &Version| {
        buffers.set_back_all();
        let answers: Vec<u64> = (0..batch)
            .map(|i| (row.call)(version, buffers, i))
            .collect();
        (answers, buffers.fingerprint())
    };
    let (core, tuned) = (run(&CORE), run(&TUNED));
    assert_eq!(core.0, tuned.0, "{}: other answers", row.name);
    assert_eq!(core.1, tuned.1, "{}: other bytes", row.name);
    let refused = tuned.0.iter().find(|answer| **answer >> 32 != 0);
    assert_eq!(refused, None, "{}: a call is refused", row.name);
    buffers.set_back_all();
}

/// A B A B ..: one batch of each in every round, after one that is not counted.
pub fn take_turns<const N: usize>(
    contenders: [Contender; N],
    buffers: &mut Buffers,
    batch: usize,
) -> [Times; N] {
    let mut times = [const { Times(Vec::new()) }; N];
    let sums = contenders.map(|contender| time(contender, buffers, batch).1);
    let start = Instant::now();
    while start.elapsed() < LEAST_TIME || times[0].rounds() < LEAST_ROUNDS {
        for ((contender, times), sum) in contenders.iter().zip(&mut times).zip(sums) {
            let (nanoseconds, again) = time(*contender, buffers, batch);
            assert_eq!(again, sum, "a measured batch answers as the first did");
            times.0.push(nanoseconds);
        }
    }
    times
}

/// One batch: nanoseconds of a call, and the sum of the answers.
fn time(contender: Contender, buffers: &mut Buffers, batch: usize) -> (f64, u64) {
    buffers.set_back();
    let mut sum = 0u64;
    let start = Instant::now();
    for i in 0..batch {
        sum = sum.wrapping_add(black_box(contender(black_box(buffers), i)));
    }
    let elapsed = start.elapsed();
    (elapsed.as_nanos() as f64 / batch as f64, sum)
}
