//! What a comparison prints: the lines of a test harness with one test.

use random::seed::{seed, VARIABLE};
use std::process::exit;
use std::time::{Instant, SystemTime, UNIX_EPOCH};

/// A comparison that runs as a test of its own.
pub struct Run {
    test: &'static str,
    started: Instant,
    pub seed: u64,
}

impl Run {
    /// The test's own seed is that of the clock. It is said first, so that it is
    /// known even if the process is stopped.
    pub fn start(test: &'static str, subject: &str) -> Run {
        println!("\nrunning 1 test");
        println!("comparing {subject}");
        Run {
            test,
            started: Instant::now(),
            seed: seed(of_clock()),
        }
    }

    /// Passes where there are no complaints.
    pub fn end(&self, complaints: &[String]) {
        if !complaints.is_empty() {
            self.fail(&complaints.join("\n"));
        }
        println!("test {} ... ok\n", self.test);
        println!(
            "test result: ok. 1 passed; 0 failed; 0 ignored; 0 measured; 0 filtered out; \
             finished in {:.2}s\n",
            self.started.elapsed().as_secs_f64()
        );
    }

    pub fn fail(&self, report: &str) -> ! {
        println!("test {} ... FAILED\n", self.test);
        println!("{VARIABLE}={}\n{report}\n", self.seed);
        println!(
            "test result: FAILED. 0 passed; 1 failed; 0 ignored; 0 measured; 0 filtered out\n"
        );
        exit(1);
    }
}

fn of_clock() -> u64 {
    let now = SystemTime::now().duration_since(UNIX_EPOCH);
    now.expect("a clock past 1970").as_nanos() as u64
}
