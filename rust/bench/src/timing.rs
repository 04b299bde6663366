//! Timing, and numbers as they are printed.
//!
//! What counts is the time of the processor, and the fastest part of each
//! measurement: what else the machine does can only slow it.

use std::ffi::{c_int, c_long};

/// The seconds that work is timed for at the least, and those of a part of it.
const ENOUGH: f64 = 0.7;
const OF_A_PART: f64 = 0.05;

/// The parts after which the fastest is no longer a matter of luck, the seconds
/// after which no more are waited for, and how many there must be even then.
const MANY_PARTS: usize = 16;
const PLENTY: f64 = 2.0;
const FEW_PARTS: usize = 2;

/// How exactly work is timed.
#[derive(Clone, Copy)]
pub enum Care {
    /// One part will do.
    Little,
    /// To compare it with work that takes about as long.
    Much,
}

/// Work that is timed: it says how many it did of what is counted.
pub struct Work<'w> {
    run: Box<dyn FnMut() -> u64 + 'w>,
    care: Care,
    parts: usize,
    spent: f64,
    /// The seconds for each of what was done, in the fastest part.
    fastest: f64,
}

impl<'w> Work<'w> {
    pub fn new(care: Care, run: impl FnMut() -> u64 + 'w) -> Self {
        Work {
            run: Box::new(run),
            care,
            parts: 0,
            spent: 0.0,
            fastest: f64::INFINITY,
        }
    }

    fn is_timed(&self) -> bool {
        let parts = match self.care {
            Care::Little => 1,
            Care::Much if self.spent < PLENTY => MANY_PARTS,
            Care::Much => FEW_PARTS,
        };
        self.spent >= ENOUGH && self.parts >= parts
    }

    /// Does it for a part of the time, at least once.
    fn time_a_part(&mut self) {
        let mut done = 0;
        let started = processor_seconds();
        let mut taken = 0.0;
        while taken < OF_A_PART {
            done += (self.run)();
            taken = processor_seconds() - started;
        }
        self.parts += 1;
        self.spent += taken;
        self.fastest = self.fastest.min(taken / done as f64);
    }
}

/// The seconds of each work for each of what it says that it did, none where it
/// was left out.
pub type Times = Vec<Option<f64>>;

/// Does each work again and again, a part of each in turn, so that the machine's
/// speed, which drifts, is the same for all. None stands for work that is left
/// out.
pub fn in_turn(mut works: Vec<Option<Work>>) -> Times {
    while !works.iter().flatten().all(Work::is_timed) {
        let untimed = works.iter_mut().flatten().filter(|work| !work.is_timed());
        untimed.for_each(Work::time_a_part);
    }
    let fastest = works.iter().map(|work| work.as_ref().map(|it| it.fastest));
    fastest.collect()
}

/// As the system has it on Linux.
#[repr(C)]
struct Time {
    seconds: i64,
    nanoseconds: c_long,
}

extern "C" {
    fn clock_gettime(clock: c_int, time: *mut Time) -> c_int;
}

/// The number of the clock that runs while this process does.
const OF_THIS_PROCESS: c_int = 2;

pub fn processor_seconds() -> f64 {
    let mut time = Time {
        seconds: 0,
        nanoseconds: 0,
    };
    // SAFETY: the time is writable.
    let result = unsafe { clock_gettime(OF_THIS_PROCESS, &mut time) };
    assert_eq!(result, 0, "a clock of this process");
    time.seconds as f64 + 1e-9 * time.nanoseconds as f64
}

/// A whole number with a comma after each three digits.
pub fn grouped(number: u64) -> String {
    let digits = number.to_string();
    let mut text = String::new();
    for (place, digit) in digits.chars().enumerate() {
        if place > 0 && (digits.len() - place).is_multiple_of(3) {
            text.push(',');
        }
        text.push(digit);
    }
    text
}

/// How many a second there are of what takes so many seconds.
pub fn a_second(seconds: f64) -> String {
    grouped((1.0 / seconds) as u64)
}

pub fn milliseconds(seconds: f64) -> String {
    format!("{:.2} ms", 1e3 * seconds)
}

/// With a fraction where there are few.
pub fn microseconds(seconds: f64) -> String {
    let microseconds = 1e6 * seconds;
    if microseconds < 1_000.0 {
        format!("{microseconds:.2} us")
    } else {
        format!("{} us", grouped(microseconds as u64))
    }
}

#[cfg(test)]
mod tests {
    use super::*;
    use std::cell::RefCell;

    #[test]
    fn numbers_are_grouped_by_threes() {
        let numbers = [0, 7, 999, 1_000, 59_049, 1_594_323];
        let texts = ["0", "7", "999", "1,000", "59,049", "1,594,323"];
        assert_eq!(numbers.map(grouped), texts);
        assert_eq!(a_second(0.001), "1,000");
        assert_eq!(microseconds(0.0000125), "12.50 us");
        assert_eq!(microseconds(9.5), "9,500,000 us");
    }

    #[test]
    fn work_is_timed_as_often_as_its_care_wants() {
        let is_timed = |care, parts, spent| {
            let work = Work::new(care, || 1);
            Work {
                parts,
                spent,
                ..work
            }
            .is_timed()
        };
        assert!(!is_timed(Care::Little, 9, 0.9 * ENOUGH));
        assert!(is_timed(Care::Little, 1, ENOUGH));
        assert!(!is_timed(Care::Much, MANY_PARTS, 0.9 * ENOUGH));
        assert!(!is_timed(Care::Much, MANY_PARTS - 1, ENOUGH));
        assert!(is_timed(Care::Much, MANY_PARTS, ENOUGH));
        assert!(!is_timed(Care::Much, 1, 5.0 * PLENTY));
        assert!(is_timed(Care::Much, 2, PLENTY));
    }

    /// Work that keeps the processor busy and leaves its name.
    fn busy(care: Care, name: char, seconds: f64, names: &RefCell<String>) -> Option<Work<'_>> {
        Some(Work::new(care, move || {
            names.borrow_mut().push(name);
            let started = processor_seconds();
            while processor_seconds() - started < seconds {}
            1
        }))
    }

    #[test]
    fn works_are_timed_in_turn() {
        let names = RefCell::default();
        let times = in_turn(vec![
            busy(Care::Much, 'a', OF_A_PART, &names),
            None,
            busy(Care::Much, 'b', OF_A_PART, &names),
            busy(Care::Little, 'c', ENOUGH, &names),
        ]);
        let names = names.borrow();
        assert!(names.starts_with("abcababab"), "{names}");
        assert_eq!(names.matches('c').count(), 1, "{names}");
        let least = [Some(OF_A_PART), None, Some(OF_A_PART), Some(ENOUGH)];
        for (time, least) in times.iter().zip(least) {
            assert_eq!(time.is_some(), least.is_some());
            assert!(*time >= least, "{time:?}");
        }
    }

    #[test]
    fn short_work_is_repeated_in_each_part() {
        let names = RefCell::default();
        let times = in_turn(vec![busy(Care::Little, 'a', 0.1 * OF_A_PART, &names)]);
        let repeated = names.borrow().len();
        assert!(repeated > MANY_PARTS, "{repeated} times");
        assert!(times[0] < Some(OF_A_PART), "{times:?}");
    }
}
