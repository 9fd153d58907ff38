//! Checks that passed and failed.

/// How many checks passed and failed.
#[derive(Default)]
pub struct Count {
    pub passed: u64,
    pub failed: u64,
}

impl Count {
    /// Takes in a check, and names the first few that failed.
    pub fn take(&mut self, name: &str, passed: bool) {
        if passed {
            self.passed += 1;
            return;
        }
        self.failed += 1;
        if self.failed <= 5 {
            println!("{name}: check {} differs", self.passed + self.failed);
        }
    }
}
