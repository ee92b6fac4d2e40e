//! Cases drawn at random. A test's case draws from the test's seed and the case's number, its step; where it fails, the panic
//! tells both, and how to run that case alone: SEED stands for the test's seed, and with STEP no other case runs.
use crate::random::Random;
use std::any::Any;
use std::cell::Cell;
use std::panic::{catch_unwind, AssertUnwindSafe};

thread_local! {
    /// The number of the call under way in a case, where it has calls in order.
    static CALL: Cell<Option<usize>> = const { Cell::new(None) };
}

/// Notes the number of the call under way.
pub fn at_call(number: usize) {
    CALL.set(Some(number));
}

/// A number of the environment.
pub fn setting(name: &str) -> Option<u64> {
    let text = std::env::var(name).ok()?;
    Some(text.parse().unwrap_or_else(|_| panic!("{name}={text} is no number")))
}

/// The cases of one test, in order.
pub struct Cases {
    file: &'static str,
    test: &'static str,
    own: u64,
    seed: u64,
    only: Option<u64>,
    step: u64,
}

impl Cases {
    /// The cases of a test in a file of tests/tests. The harness names a test's thread after it, if it starts one.
    pub fn new(file: &'static str, test: &'static str, seed: u64) -> Cases {
        let thread = std::thread::current();
        assert!([Some(test), Some("main")].contains(&thread.name()), "{test} is another test's name");
        Cases { file, test, own: seed, seed: setting("SEED").unwrap_or(seed), only: setting("STEP"), step: 0 }
    }

    /// Runs the next case, unless another one alone is asked for.
    pub fn run(&mut self, case: impl FnOnce(&mut Random)) {
        self.step += 1;
        if self.only.is_some_and(|step| step != self.step) {
            return;
        }
        CALL.set(None);
        let mut random = Random::new(state(self.seed, self.step));
        if let Err(cause) = catch_unwind(AssertUnwindSafe(|| case(&mut random))) {
            panic!("{}", self.failure(cause.as_ref()));
        }
    }

    pub fn seed(&self) -> u64 {
        self.seed
    }

    /// Whether all cases run, so that what they met together can be judged.
    pub fn all(&self) -> bool {
        self.only.is_none()
    }

    /// Whether all cases run, from the test's own seed.
    pub fn usual(&self) -> bool {
        self.all() && self.seed == self.own
    }

    /// What failed where, and how to run it alone.
    fn failure(&self, cause: &(dyn Any + Send)) -> String {
        let Cases { file, test, seed, step, .. } = self;
        let text = cause.downcast_ref::<String>().map(String::as_str).or(cause.downcast_ref::<&str>().copied());
        let call = CALL.get().map_or(String::new(), |number| format!(", call {number}"));
        format!(
            "{file}::{test}, seed {seed}, step {step}{call}: {}\nthis case alone: SEED={seed} STEP={step} cargo test \
             --release --offline --test {file} -- --exact {test} --include-ignored",
            text.unwrap_or("failed")
        )
    }
}

/// A step that no case has is told.
impl Drop for Cases {
    fn drop(&mut self) {
        if let Some(step) = self.only.filter(|step| *step == 0 || *step > self.step) {
            assert!(std::thread::panicking(), "{} has no step {step}, only 1 to {}", self.test, self.step);
        }
    }
}

/// The generator's start for a seed and a step, other than 0: both are spread over all 64 bits.
fn state(seed: u64, step: u64) -> u64 {
    let mut mixed = seed.wrapping_mul(0x9e37_79b9_7f4a_7c15).wrapping_add(step);
    mixed = (mixed ^ mixed >> 30).wrapping_mul(0xbf58_476d_1ce4_e5b9);
    mixed = (mixed ^ mixed >> 27).wrapping_mul(0x94d0_49bb_1331_11eb);
    (mixed ^ mixed >> 31).max(1)
}
