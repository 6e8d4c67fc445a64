//! How long a check takes, in processor time.

use crate::engines::Engine;
use vd::Verdict;

/// A check is repeated until so many seconds have passed; one that isn't long, so many times.
const SHORT: f64 = 0.02;
const LONG: f64 = 0.3;
const TIMES: usize = 3;

#[repr(C)]
struct Time {
    seconds: i64,
    nanoseconds: i64,
}

extern "C" {
    fn clock_gettime(clock: i32, time: *mut Time) -> i32;
}

/// Seconds of processor time that this process has taken.
fn now() -> f64 {
    const CLOCK_PROCESS_CPUTIME_ID: i32 = 2;
    let mut time = Time {
        seconds: 0,
        nanoseconds: 0,
    };
    // SAFETY: the clock's time is written to a place of its form.
    assert_eq!(
        unsafe { clock_gettime(CLOCK_PROCESS_CPUTIME_ID, &mut time) },
        0
    );
    time.seconds as f64 + time.nanoseconds as f64 * 1e-9
}

/// Which times are taken of one check: the least counts.
struct Watch {
    least: f64,
    spent: f64,
    times: usize,
}

impl Watch {
    fn new() -> Watch {
        Watch {
            least: f64::INFINITY,
            spent: 0.0,
            times: 0,
        }
    }

    fn take(&mut self, seconds: f64) {
        self.least = self.least.min(seconds);
        self.spent += seconds;
        self.times += 1;
    }

    fn wants_more(&self) -> bool {
        self.spent < SHORT || (self.times < TIMES && self.least < LONG)
    }
}

/// What the engines say of a file, which must be the same, and the seconds that each takes. They take turns, so that what else runs on the machine meets
/// all.
pub fn compared(engines: &[&Engine], file: &[u8]) -> (Verdict, Vec<f64>) {
    let mut watches: Vec<Watch> = engines.iter().map(|_| Watch::new()).collect();
    let mut said = None;
    while watches.iter().any(Watch::wants_more) {
        for (engine, watch) in engines.iter().zip(&mut watches) {
            if watch.wants_more() {
                let begin = now();
                let verdict = (engine.check)(file);
                watch.take(now() - begin);
                assert_eq!(
                    *said.get_or_insert(verdict),
                    verdict,
                    "{} says something else",
                    engine.name
                );
            }
        }
    }
    let seconds = watches.iter().map(|watch| watch.least).collect();
    (said.expect("an engine"), seconds)
}

#[cfg(test)]
mod tests {
    use super::*;

    #[test]
    fn the_clock_goes_on() {
        let begin = now();
        while now() - begin < 0.001 {}
    }

    #[test]
    fn short_ones_are_repeated() {
        let mut watch = Watch::new();
        assert!(watch.wants_more());
        watch.take(0.015);
        assert!(watch.wants_more());
        watch.take(0.005);
        assert!(watch.wants_more());
        watch.take(0.01);
        assert!(!watch.wants_more());
        assert_eq!(watch.least, 0.005);
    }

    #[test]
    fn long_ones_are_not() {
        let mut watch = Watch::new();
        watch.take(1.5);
        assert!(!watch.wants_more());
    }
}
