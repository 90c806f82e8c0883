//! Counting checks.

/// One fault may fail many thousand checks; the first few say enough.
const SHOWN: u64 = 5;

#[derive(Default)]
pub struct Checks {
    pub passed: u64,
    pub failed: u64,
}

impl Checks {
    /// Counts a check; the first few that fail are described.
    pub fn check(&mut self, ok: bool, describe: impl FnOnce() -> String) {
        if ok {
            self.passed += 1;
            return;
        }
        self.failed += 1;
        if self.failed <= SHOWN {
            println!("failed: {}", describe());
        }
    }

    /// Every answer occurs.
    pub fn check_met(&mut self, answers: Vec<(String, u64)>) {
        for (answer, times) in answers {
            self.check(times > 0, || format!("never met: {answer}"));
        }
    }
}

pub fn hex(bytes: &[u8]) -> String {
    bytes.iter().map(|byte| format!("{byte:02x}")).collect()
}
