//! Processor time, and what is told of several rounds of it.

/// Seconds and nanoseconds.
#[repr(C)]
struct Timespec(i64, i64);

unsafe extern "C" {
    fn clock_gettime(clock: i32, time: *mut Timespec) -> i32;
}

/// CLOCK_THREAD_CPUTIME_ID as Linux numbers it.
const THREAD_CPU_TIME: i32 = 3;

/// Nanoseconds that this thread has had a processor: what else runs on the machine
/// weighs less than on the clock at the wall.
fn now() -> i64 {
    let mut time = Timespec(0, 0);
    // SAFETY: `time` is a timespec of this machine's C library.
    assert_eq!(unsafe { clock_gettime(THREAD_CPU_TIME, &mut time) }, 0);
    time.0 * 1_000_000_000 + time.1
}

/// Nanoseconds that one of `turns` calls in turn takes; one more goes before them, so
/// that each finds in the caches what fits there.
pub fn timed(turns: usize, mut call: impl FnMut()) -> f64 {
    call();
    let start = now();
    for _ in 0..turns {
        call();
    }
    (now() - start) as f64 / turns as f64
}

/// The median of several rounds, and how far apart the quartiles are, in medians.
#[derive(Clone, Copy)]
pub struct Summary {
    pub median: f64,
    pub spread: f64,
}

impl Summary {
    pub fn of(mut rounds: Vec<f64>) -> Self {
        rounds.sort_by(f64::total_cmp);
        let [first, median, third] = [1, 2, 3].map(|i| rounds[i * (rounds.len() - 1) / 4]);
        let spread = (third - first) / median;
        Summary { median, spread }
    }

    /// The median in another unit, and the spread in percent.
    pub fn show(&self, unit: f64) -> String {
        format!("{:9.3} {:3.0}%", self.median / unit, self.spread * 100.0)
    }
}
