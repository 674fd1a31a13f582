//! How far a command is: on anything over a second, a line a second on standard error.

use std::sync::atomic::{AtomicU64, Ordering::Relaxed};
use std::sync::{Arc, Condvar, Mutex, MutexGuard};
use std::thread::{self, JoinHandle};
use std::time::{Duration, Instant};

/// What takes long is told after so long, and then as often.
const A_SECOND: Duration = Duration::from_secs(1);

/// Where a line goes.
type Tell = Box<dyn FnMut(&str) + Send>;

pub struct Progress {
    shared: Arc<Shared>,
    teller: Option<JoinHandle<()>>,
}

#[derive(Default)]
struct Shared {
    now: Mutex<Now>,
    changed: Condvar,
    made: AtomicU64,
    total: AtomicU64,
}

#[derive(Default)]
struct Now {
    step: Option<(&'static str, Instant)>,
    over: bool,
}

impl Shared {
    fn now(&self) -> MutexGuard<'_, Now> {
        // a number and a name: whole whatever ended the one who held it
        self.now.lock().unwrap_or_else(|held| held.into_inner())
    }

    fn line(&self, step: &str, so_far: Duration) -> String {
        let (made, total) = (self.made.load(Relaxed), self.total.load(Relaxed));
        let seconds = so_far.as_secs();
        match total {
            0 => format!("mengkiloh: {step}, {seconds} s so far"),
            _ => format!("mengkiloh: {step}, {made} of {total}, {seconds} s so far"),
        }
    }
}

impl Progress {
    /// Told on standard error; where that cannot be written, not at all.
    pub fn told() -> Progress {
        use std::io::Write;
        Progress::with(
            A_SECOND,
            Box::new(|line| {
                let _ = writeln!(std::io::stderr(), "{line}");
            }),
        )
    }

    /// Told to nobody.
    pub fn quiet() -> Progress {
        Progress {
            shared: Arc::default(),
            teller: None,
        }
    }

    fn with(after: Duration, mut tell: Tell) -> Progress {
        let shared = Arc::new(Shared::default());
        let seen = Arc::clone(&shared);
        let teller = thread::Builder::new().spawn(move || {
            let mut now = seen.now();
            while !now.over {
                let held = match now.step {
                    None => seen.changed.wait(now),
                    Some(step) => {
                        let waited = seen.changed.wait_timeout(now, after);
                        let (held, waited) = waited.unwrap_or_else(|held| held.into_inner());
                        if waited.timed_out() && held.step == Some(step) {
                            tell(&seen.line(step.0, step.1.elapsed()));
                        }
                        Ok(held)
                    }
                };
                now = held.unwrap_or_else(|held| held.into_inner());
            }
        });
        Progress {
            shared,
            teller: teller.ok(),
        }
    }

    /// The work under its name.
    pub fn during<T>(&self, step: &'static str, work: impl FnOnce() -> T) -> T {
        self.shared.made.store(0, Relaxed);
        self.shared.total.store(0, Relaxed);
        self.set(Some((step, Instant::now())));
        let done = work();
        self.set(None);
        done
    }

    /// So many of so many are made.
    pub fn at(&self, made: usize, total: usize) {
        self.shared.made.store(made as u64, Relaxed);
        self.shared.total.store(total as u64, Relaxed);
    }

    fn set(&self, step: Option<(&'static str, Instant)>) {
        self.shared.now().step = step;
        self.shared.changed.notify_all();
    }
}

impl Drop for Progress {
    fn drop(&mut self) {
        self.shared.now().over = true;
        self.shared.changed.notify_all();
        if let Some(teller) = self.teller.take() {
            let _ = teller.join();
        }
    }
}

#[cfg(test)]
mod tests {
    use super::*;

    /// With a hundredth of a second for a second.
    #[test]
    fn what_takes_long_is_told() {
        let lines = Arc::new(Mutex::new(Vec::new()));
        let kept = Arc::clone(&lines);
        let progress = Progress::with(
            Duration::from_millis(10),
            Box::new(move |line| kept.lock().expect("the lines").push(line.to_string())),
        );
        let told = || lines.lock().expect("the lines").len();
        progress.during("sleeping", || {
            progress.at(7, 9);
            while told() < 2 {
                thread::sleep(Duration::from_millis(1));
            }
        });
        for _ in 0..1_000 {
            progress.during("a short step", || {});
        }
        drop(progress);
        let lines = lines.lock().expect("the lines");
        let about = "mengkiloh: sleeping, 7 of 9, 0 s so far";
        assert!(lines.iter().all(|line| line == about), "{lines:?}");
    }
}
