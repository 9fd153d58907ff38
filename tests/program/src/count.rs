//! Outputs that are right and that differ.

/// How many outputs are right and how many differ.
#[derive(Default)]
pub struct Count {
    pub passed: u64,
    pub failed: u64,
}

impl Count {
    /// Takes in an output; where it differs it says so.
    pub fn take(&mut self, program: &str, name: &str, difference: Option<usize>) {
        match difference {
            None => self.passed += 1,
            Some(line) => {
                self.failed += 1;
                println!("{program}: {name}: differs at line {line}");
            }
        }
    }
}
