//! Numbered cases of a seed, each of which can be repeated alone.

use snova_host::prng::Prng;

/// A number of the environment, decimal or with 0x.
fn setting(name: &str) -> Option<u64> {
    let text = std::env::var(name).ok()?;
    let number = match text.strip_prefix("0x") {
        Some(digits) => u64::from_str_radix(digits, 16),
        None => text.parse(),
    };
    Some(number.unwrap_or_else(|_| panic!("{name} = {text} is no number")))
}

/// Whether the run repeats one case only: what a whole run must show is not asked for then.
pub fn single_case() -> bool {
    setting("SNOVA_CASE").is_some()
}

/// The number of cases of a test: `count`, times SNOVA_TIMES if that is set.
fn times(count: u64) -> u64 {
    count * setting("SNOVA_TIMES").unwrap_or(1)
}

/// Runs the cases 0, 1, .. of a test, each with a generator of its own. `place` says how to
/// repeat a case that fails.
pub fn cases(test: &str, seed: u64, count: u64, mut each: impl FnMut(&mut Prng, &str)) {
    let seed = setting("SNOVA_SEED").unwrap_or(seed);
    let numbers = match setting("SNOVA_CASE") {
        Some(case) => case..case + 1,
        None => 0..times(count),
    };
    for case in numbers {
        let place = format!(
            "test {test}, seed {seed:#x}, case {case}; \
             to repeat: SNOVA_SEED={seed:#x} SNOVA_CASE={case} cargo test {test}"
        );
        each(&mut Prng::of_case(seed, case), &place);
    }
}
