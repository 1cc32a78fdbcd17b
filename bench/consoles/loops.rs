//! Endless loops, which take cores away from what is measured beside them.
use std::hint::black_box;
use std::sync::atomic::{AtomicBool, Ordering};
use std::sync::Arc;
use std::thread::{self, JoinHandle};

/// Two threads that count without a pause, each on a core of its own where there are two. They end with this value, so that a
/// measure that fails doesn't leave them running.
pub struct Loops {
    stop: Arc<AtomicBool>,
    threads: Vec<JoinHandle<()>>,
}

impl Loops {
    /// Starts both.
    pub fn start() -> Loops {
        let stop = Arc::new(AtomicBool::new(false));
        let threads = (0..2)
            .map(|_| {
                let stop = Arc::clone(&stop);
                thread::spawn(move || count_until(&stop))
            })
            .collect();
        Loops { stop, threads }
    }
}

impl Drop for Loops {
    fn drop(&mut self) {
        self.stop.store(true, Ordering::Relaxed);
        for thread in self.threads.drain(..) {
            thread.join().expect("an endless loop panicked");
        }
    }
}

/// Counts until it is stopped. The counter is hidden from the compiler, which would count nothing else; and no hint says that the
/// thread only waits, since the work of other programs gives none.
fn count_until(stop: &AtomicBool) {
    let mut counter = 0u64;
    while !stop.load(Ordering::Relaxed) {
        counter = black_box(counter.wrapping_add(1));
    }
}
