//! Counts what passed and what failed. A check is one named claim over many calls, so that a count says something.

#[derive(Default)]
pub struct Tally {
    passed: usize,
    failed: usize,
}

impl Tally {
    /// One claim: `calls` comparisons were made, and `wrong` names the first that failed.
    pub fn claim(&mut self, name: &str, calls: usize, wrong: Option<String>) {
        match wrong {
            None if calls > 0 => {
                self.passed += 1;
                println!("ok      {name} ({calls} comparisons)");
            }
            None => {
                self.failed += 1;
                println!("FAILED  {name}: nothing was compared");
            }
            Some(what) => {
                self.failed += 1;
                println!("FAILED  {name}: {what}");
            }
        }
    }

    pub fn finish(&self) -> i32 {
        println!("{} passed, {} failed", self.passed, self.failed);
        i32::from(self.failed > 0 || self.passed == 0)
    }
}

/// Runs comparisons, keeps the first that fails, and counts them.
#[derive(Default)]
pub struct Comparison {
    pub calls: usize,
    pub wrong: Option<String>,
}

impl Comparison {
    pub fn same<T: PartialEq + std::fmt::Debug>(&mut self, what: impl Fn() -> String, ours: T, theirs: T) {
        self.calls += 1;
        if ours != theirs && self.wrong.is_none() {
            self.wrong = Some(format!("{}: ours {ours:?}, theirs {theirs:?}", what()));
        }
    }

    pub fn claim(self, tally: &mut Tally, name: &str) {
        tally.claim(name, self.calls, self.wrong);
    }
}
