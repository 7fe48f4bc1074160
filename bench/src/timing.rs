//! Times by the thread's own processor time: the median of many batches.
use std::hint::black_box;

const ROUNDS: usize = 500;
const BATCH_NANOSECONDS: u64 = 100_000;

/// What is measured: runs so many times.
pub type Runs<'a> = Box<dyn FnMut(u64) + 'a>;

pub fn runs<'a, T>(mut once: impl FnMut() -> T + 'a) -> Runs<'a> {
    Box::new(move |times| {
        for _ in 0..times {
            black_box(once());
        }
    })
}

/// The nanoseconds of one run of each case: the median of batches that take turns.
pub fn medians(mut cases: Vec<Runs>) -> Vec<f64> {
    let sizes: Vec<u64> = cases.iter_mut().map(batch_size).collect();
    let mut times = vec![Vec::with_capacity(ROUNDS); cases.len()];
    for _ in 0..ROUNDS {
        for ((case, &size), times) in cases.iter_mut().zip(&sizes).zip(&mut times) {
            times.push(batch(case, size) as f64 / size as f64);
        }
    }
    times.into_iter().map(median).collect()
}

/// How many runs make a batch; finding it also warms up the caches.
fn batch_size(case: &mut Runs) -> u64 {
    let mut size = 1;
    loop {
        let taken = batch(case, size);
        if taken >= BATCH_NANOSECONDS / 2 {
            return (size * BATCH_NANOSECONDS / taken).max(1);
        }
        size *= 2;
    }
}

fn batch(case: &mut Runs, size: u64) -> u64 {
    let start = nanoseconds();
    case(size);
    nanoseconds() - start
}

fn median(mut times: Vec<f64>) -> f64 {
    times.sort_by(f64::total_cmp);
    times[times.len() / 2]
}

#[repr(C)]
struct Timespec {
    seconds: i64,
    nanoseconds: i64,
}

const CLOCK_THREAD_CPUTIME_ID: i32 = 3;

extern "C" {
    fn clock_gettime(clock: i32, time: *mut Timespec) -> i32;
}

/// The processor time of this thread, on a 64-bit Linux.
fn nanoseconds() -> u64 {
    let mut time = Timespec { seconds: 0, nanoseconds: 0 };
    let result = unsafe { clock_gettime(CLOCK_THREAD_CPUTIME_ID, &mut time) };
    assert_eq!(result, 0, "the thread's clock");
    time.seconds as u64 * 1_000_000_000 + time.nanoseconds as u64
}
