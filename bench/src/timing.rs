//! How calls are timed, and how their ratios are told.

use std::hint::black_box;

/// Rounds of each measurement, and the nanoseconds that a sample takes at least.
pub const ROUNDS: usize = 101;
const SAMPLE: u64 = 40_000;

/// The processor time of this thread in nanoseconds, so that what else runs on the machine counts for nothing.
fn now() -> u64 {
    #[repr(C)]
    struct Timespec {
        seconds: i64,
        nanoseconds: i64,
    }
    extern "C" {
        fn clock_gettime(clock: i32, time: *mut Timespec) -> i32;
    }
    const THREAD_CPU_TIME: i32 = 3;
    let mut time = Timespec { seconds: 0, nanoseconds: 0 };
    // Safety: the C library writes one timespec, which on 64-bit Linux is these two numbers.
    assert_eq!(unsafe { clock_gettime(THREAD_CPU_TIME, &mut time) }, 0);
    time.seconds as u64 * 1_000_000_000 + time.nanoseconds as u64
}

/// The median time of each call, in nanoseconds: the calls are sampled in turn.
pub fn medians<I, const N: usize>(input: &mut I, calls: [fn(&mut I); N]) -> [f64; N] {
    let batches = calls.map(|call| {
        let mut calls = 1;
        loop {
            let start = now();
            (0..calls).for_each(|_| call(input));
            if now() - start >= SAMPLE {
                return calls;
            }
            calls *= 2;
        }
    });
    let mut samples = [(); N].map(|_| Vec::with_capacity(ROUNDS));
    for _ in 0..ROUNDS {
        for k in 0..N {
            let start = now();
            (0..batches[k]).for_each(|_| calls[k](input));
            samples[k].push((now() - start) as f64 / batches[k] as f64);
        }
    }
    samples.map(|mut s| {
        s.sort_by(f64::total_cmp);
        s[ROUNDS / 2]
    })
}

#[derive(Default)]
pub struct Ratios(Vec<f64>);

impl Ratios {
    pub fn add(&mut self, ratio: f64) -> f64 {
        self.0.push(ratio);
        ratio
    }

    pub fn say(&mut self, what: &str) {
        self.0.sort_by(f64::total_cmp);
        let mean = (self.0.iter().map(|r| r.ln()).sum::<f64>() / self.0.len() as f64).exp();
        let (low, mid, high) = (self.0[0], self.0[self.0.len() / 2], self.0[self.0.len() - 1]);
        let over = self.0.iter().filter(|r| **r > 1.25).count();
        println!("| {what} | {low:.2} | {mid:.2} | {mean:.2} | {high:.2} | {over} of {} |", self.0.len());
    }
}

/// What a call gave, so that no call is left out.
pub fn keep<T>(answer: T) {
    let _ = black_box(answer);
}
