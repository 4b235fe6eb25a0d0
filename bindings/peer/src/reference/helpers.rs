//! The helpers of the runtime: which of them modules need, and what the runtime stage starts.

use super::rules::{reason, Fact, Rules};

/// By module: bit h for each helper h that it needs. A module that is not kept needs all that it lists, except the
/// runtime; otherwise a helper is needed by its kept statements.
pub fn words(rules: &Rules, is_kept: impl Fn(Fact) -> bool) -> Vec<u32> {
    let word = |index: u32| {
        let all = index != rules.graph.runtime && !is_kept(Fact::Module(index));
        let needed = |row: &&[u32; 2]| all || is_kept(Fact::Statement(index, row[1]));
        let helpers = rules.module(index).helpers.iter().filter(needed);
        helpers.fold(0, |word, row| word | 1 << row[0])
    };
    (0..rules.graph.modules.len() as u32).map(word).collect()
}

/// What the runtime stage starts: the helpers that kept modules need, or the runtime if it has effects.
pub fn runtime_starts(rules: &Rules, words: &[u32], is_kept: impl Fn(Fact) -> bool) -> Vec<Fact> {
    let kept = (0..).zip(words).filter(|&(module, _)| is_kept(Fact::Module(module)));
    let union = kept.fold(0, |union, (_, word)| union | word);
    let runtime = rules.graph.runtime;
    if union == 0 && rules.effectful(runtime) {
        return vec![Fact::Module(runtime)];
    }
    let needed = (0..).zip(&rules.graph.helpers).filter(|&(helper, _)| union >> helper & 1 == 1);
    needed.map(|(_, &symbol)| Fact::Use(symbol, reason::NORMAL)).collect()
}
