//! Seeds one after another, as the environment says: KEEP_SEED is the first, KEEP_CASES how many cases there are at least.

use lizdakk::with_stack;

fn from_environment(name: &str, default: u64) -> u64 {
    std::env::var(name).map_or(default, |text| text.parse().unwrap_or_else(|_| panic!("{name} is a number")))
}

/// How many cases a large test takes at least.
pub fn cases(default: u64) -> u64 {
    from_environment("KEEP_CASES", default)
}

/// Calls `test` with one seed after another until it has counted enough cases.
pub fn for_seeds(what: &str, least: u64, test: impl Fn(u64) -> u64 + Sync) {
    let first = from_environment("KEEP_SEED", 1);
    with_stack(|| {
        let (mut seed, mut counted) = (first, 0);
        while counted < least.max(1) {
            counted += test(seed);
            seed += 1;
        }
        println!("{what}: {counted} cases from seeds {first} to {}", seed - 1);
    });
}
