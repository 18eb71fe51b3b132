//! How far a long run is, on standard error.
use std::sync::atomic::{AtomicBool, AtomicU64, Ordering};
use std::thread;
use std::time::{Duration, Instant};

const EACH: Duration = Duration::from_secs(10);

/// Tells it every ten seconds until the run is over.
pub fn tell(name: &str, done: &AtomicU64, upto: u64, over: &AtomicBool) {
    let (begun, mut told) = (Instant::now(), Instant::now());
    while !over.load(Ordering::Relaxed) {
        thread::sleep(Duration::from_millis(50));
        if told.elapsed() < EACH {
            continue;
        }
        told = Instant::now();
        let now = done.load(Ordering::Relaxed).min(upto);
        let rate = now as f64 / begun.elapsed().as_secs_f64();
        eprintln!("{name}: {now} of {upto}, {rate:.0} a second, {:.0} s left", (upto - now) as f64 / rate.max(1.0));
    }
}
