//! What was compared, and what differed.

use std::fmt::Debug;

#[derive(Default)]
pub struct Verdict {
    pub passed: u64,
    pub failed: u64,
}

impl Verdict {
    /// Counts a comparison, and prints it where it fails.
    pub fn compare<T: PartialEq + Debug>(&mut self, what: &str, found: T, expected: T) {
        let same = if found == expected {
            Ok(())
        } else {
            Err(format!("{found:?}, but {expected:?} is expected"))
        };
        self.take(what, &same);
    }

    /// Counts a result, and prints it where it is a failure.
    pub fn take<T>(&mut self, what: &str, result: &Result<T, String>) {
        match result {
            Ok(_) => self.passed += 1,
            Err(fault) => {
                self.failed += 1;
                println!("FAILED {what}: {fault}");
            }
        }
    }
}
