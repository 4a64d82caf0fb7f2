//! What was compared, and how it went.

use std::collections::BTreeMap;
use std::fmt::Debug;

#[derive(Default)]
pub struct Tally {
    functions: BTreeMap<&'static str, [u64; 2]>,
    rules: BTreeMap<&'static str, u64>,
    shown: u32,
}

/// So many failures are shown in full.
const SHOWN: u32 = 20;

impl Tally {
    /// One comparison. The detail is made only for a failure.
    pub fn judge(&mut self, function: &'static str, same: bool, detail: impl FnOnce() -> String) {
        self.functions.entry(function).or_default()[!same as usize] += 1;
        if !same && self.shown < SHOWN {
            self.shown += 1;
            println!("FAILED {function}: {}", detail());
        }
    }

    /// One comparison of two values.
    pub fn equal<T: PartialEq + Debug>(
        &mut self,
        function: &'static str,
        expected: T,
        got: T,
        input: impl FnOnce() -> String,
    ) {
        let same = expected == got;
        self.judge(function, same, || {
            format!("{}: expected {expected:?}, got {got:?}", input())
        });
    }

    /// A known difference was met.
    pub fn met(&mut self, rule: &'static str) {
        *self.rules.entry(rule).or_default() += 1;
    }

    pub fn total(&self) -> u64 {
        self.functions.values().flatten().sum()
    }

    pub fn failed(&self) -> u64 {
        self.functions.values().map(|counts| counts[1]).sum()
    }

    pub fn times_met(&self, rule: &str) -> u64 {
        self.rules.get(rule).copied().unwrap_or(0)
    }

    pub fn print(&self) {
        println!("{:32} {:>12} {:>8}", "function", "passed", "failed");
        for (function, [passed, failed]) in &self.functions {
            println!("{function:32} {passed:12} {failed:8}");
        }
        println!("known differences met:");
        for (rule, times) in &self.rules {
            println!("{times:12}  {rule}");
        }
    }
}

/// How many bytes, and what they are.
pub fn hex(bytes: &[u8]) -> String {
    let text: String = bytes.iter().map(|byte| format!("{byte:02x}")).collect();
    format!("{} bytes {text}", bytes.len())
}
