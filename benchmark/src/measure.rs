//! The two measures: marks for the emulator's count, and time on the processor.

use std::arch::asm;
use std::time::{Duration, Instant};

/// One workload, ready to be called on either side.
pub struct Pair {
    pub ours: Box<dyn FnMut()>,
    pub theirs: Box<dyn FnMut()>,
}

/// A call between the marks. On a processor they do nothing.
#[inline(never)]
pub fn marked(call: &mut dyn FnMut()) {
    // SAFETY: a no-op of eight bytes.
    unsafe { asm!(".byte 0x0f, 0x1f, 0x84, 0x00, 0x01, 0x00, 0xed, 0x5e") };
    call();
    // SAFETY: the same.
    unsafe { asm!(".byte 0x0f, 0x1f, 0x84, 0x00, 0x02, 0x00, 0xed, 0x5e") };
}

/// A sample is as many calls as take about so long.
const SAMPLE: Duration = Duration::from_micros(200);
/// So many samples of each side, fewer where they would take longer than this in all.
const SAMPLES: usize = 101;
const FEWEST: usize = 5;
const IN_ALL: Duration = Duration::from_secs(3);
/// A call that takes longer than this is timed once.
const ONCE: Duration = Duration::from_secs(3);

fn sample(call: &mut dyn FnMut(), n: u32) -> Duration {
    let start = Instant::now();
    for _ in 0..n {
        call();
    }
    start.elapsed()
}

/// How many calls make a sample.
fn calls(call: &mut dyn FnMut()) -> u32 {
    let mut n = 1;
    while n < 1 << 20 && sample(call, n) < SAMPLE {
        n *= 2;
    }
    n
}

fn median(mut of: Vec<f64>) -> f64 {
    of.sort_by(f64::total_cmp);
    of[of.len() / 2]
}

/// Median nanoseconds of a call, ours and the Rust's, the samples of the two in turn, and how many samples there were.
pub fn times(pair: &mut Pair) -> (f64, f64, usize) {
    let (first_ours, first_theirs) = (sample(&mut *pair.ours, 1), sample(&mut *pair.theirs, 1));
    if first_ours.max(first_theirs) > ONCE {
        return (first_ours.as_nanos() as f64, first_theirs.as_nanos() as f64, 1);
    }
    let (n_ours, n_theirs) = (calls(&mut *pair.ours), calls(&mut *pair.theirs));
    let once = sample(&mut *pair.ours, n_ours) + sample(&mut *pair.theirs, n_theirs);
    let samples = ((IN_ALL.as_secs_f64() / once.as_secs_f64()) as usize).clamp(FEWEST, SAMPLES);
    let (mut ours, mut theirs) = (Vec::new(), Vec::new());
    for _ in 0..samples {
        ours.push(sample(&mut *pair.ours, n_ours).as_nanos() as f64 / f64::from(n_ours));
        theirs.push(sample(&mut *pair.theirs, n_theirs).as_nanos() as f64 / f64::from(n_theirs));
    }
    (median(ours), median(theirs), samples)
}
