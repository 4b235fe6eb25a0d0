//! Random graphs for a comparison. All follows from a seed.

use crate::circles::break_circles;
use crate::generate::runs::{import_graph, run_graph, small_run_graph, sparse};
use crate::generate::{graph, Random, Size};
use crate::model::{Graph, Module, Reference, Statement, Symbol};

/// The graph of a seed: mostly one made for runs, at times any graph, a larger one, or one whose uses double.
///
/// The tree shaking doesn't return where uses lead back to themselves. Many graphs have such circles; in most they are
/// broken.
pub fn graph_of(seed: u64) -> Graph {
    let mut random = Random::new(seed);
    let mut graph = match random.below(1000) {
        0..=499 => run_graph(&mut random),
        500..=549 => import_graph(&mut random),
        550..=699 => small_run_graph(&mut random),
        700..=929 => {
            let size = Size::usual(&mut random);
            graph(&mut random, size)
        }
        930..=959 => {
            let modules = random.between(30, 150);
            sparse(&mut random, modules)
        }
        960..=961 => {
            let modules = random.between(150, 1_024);
            sparse(&mut random, modules)
        }
        962..=991 => {
            let size = Size::large(&mut random);
            graph(&mut random, size)
        }
        _ => {
            let levels = random.between(1, 24);
            let circle = random.chance(20);
            return doubling(levels, circle);
        }
    };
    if random.chance(70) {
        break_circles(&mut graph);
    }
    graph
}

/// Levels at each of which one use gives two of the next by K11 and K12; the last may lead back to the first.
///
/// Module 0 is the runtime, 1 the entry. Level i is module 2 + i, a wrapped one: its namespace, its wrapper, and the
/// symbol that both of the level before lead to, an alias in it of its own export.
pub fn doubling(levels: u32, circle: bool) -> Graph {
    let module = |namespace: u32, statements: usize| Module {
        normal: true,
        namespace: namespace + 1,
        statements: vec![Statement::default(); statements],
        ..Module::default()
    };
    let symbol = |owner: u32, root: u32| Symbol { owner, root, ..Symbol::default() };
    let mut graph = Graph { options: 1, ..Graph::default() };
    graph.modules = vec![module(0, 1), module(1, 2)];
    graph.symbols = vec![symbol(0, 0), symbol(1, 1)];
    graph.entries = vec![crate::model::Entry { module: 1, ..Default::default() }];
    graph.modules[1].statements[1] =
        Statement { bits: 1, references: vec![Reference::Symbol(4)], ..Default::default() };
    for level in 0..levels {
        let (owner, first) = (2 + level, 2 + 3 * level);
        let next = match (level + 1 < levels, circle) {
            (true, _) => first + 5,
            (false, true) => 4,
            (false, false) => first,
        };
        let mut wrapped = module(first, 1);
        (wrapped.wrap, wrapped.wrapper) = (2, first + 2);
        wrapped.commonjs_namespaces = vec![[first, owner]];
        wrapped.resolved_exports = vec![[7, next, 0]];
        graph.modules.push(wrapped);
        // The wrapper's root is the next level's symbol, so that its use leads there as well.
        let wrapper_root = if level + 1 < levels { first + 5 } else { first + 1 };
        graph.symbols.push(symbol(owner, first));
        graph.symbols.push(symbol(owner, wrapper_root));
        graph.symbols.push(Symbol { alias_namespace: first + 1, alias_name: 7, ..symbol(owner, first + 2) });
    }
    graph
}
