//! Random graphs whose runs take several rounds, find entries dead and live, on cycles and not, and need helpers.

use super::{drop_repeats, graph, name, record, reference, resolved_records, shuffle, Lists, Random, Size};
use crate::model::{Entry, Graph, Module, Record, Reference, Statement, Symbol};

const DYNAMIC_IMPORT: u32 = 2;

/// A graph for a run: mostly one with few rules and many dynamic entries, else any graph with entries that are related
/// to the imports of their modules.
pub fn run_graph(random: &mut Random) -> Graph {
    match random.below(100) {
        0..=54 => {
            let modules = random.between(2, 9);
            sparse(random, modules)
        }
        55..=59 => {
            let modules = random.between(4, 12);
            thin(random, modules)
        }
        60..=61 => {
            let modules = random.between(20, 60);
            sparse(random, modules)
        }
        _ => {
            let size = Size::usual(random);
            let mut graph = graph(random, size);
            relate_entries(random, &mut graph);
            graph
        }
    }
}

/// A graph of a few hundred numbers at most.
pub fn small_run_graph(random: &mut Random) -> Graph {
    if random.chance(40) {
        let modules = random.between(4, 7);
        return thin(random, modules);
    }
    let modules = random.between(3, 6);
    sparse(random, modules)
}

/// A graph of so many modules with little else than what takes several rounds.
fn thin(random: &mut Random, modules: u32) -> Graph {
    let mut graph = Graph { options: 1, ..Graph::default() };
    for index in 0..modules {
        let swept = Statement { bits: random.bits(&[90]), ..Statement::default() };
        let (statements, flags) = (vec![Statement::default(), swept], random.bits(&[0, 0, 0, 0, 50]));
        graph.modules.push(Module { normal: true, namespace: index + 1, flags, statements, ..Module::default() });
        graph.symbols.push(Symbol { owner: index, root: index, ..Symbol::default() });
    }
    graph.runtime = random.below(modules);
    graph.modules[graph.runtime as usize].effects = 1;
    let mut order: Vec<u32> = (1..modules).collect();
    shuffle(random, &mut order);
    let mut importer = 0;
    graph.entries.push(Entry { module: 0, ..Entry::default() });
    for module in order {
        if random.chance(70) {
            link_dynamically(random, &mut graph, importer, module);
        } else {
            place_bailout(random, &mut graph, importer, module);
        }
        importer = if random.chance(90) { module } else { random.below(modules) };
    }
    if random.chance(80) {
        graph.entries.reverse();
    }
    graph
}

/// A dynamic entry that is related to the last statement of an importer.
pub(super) fn link_dynamically(random: &mut Random, graph: &mut Graph, importer: u32, module: u32) {
    let from = &mut graph.modules[importer as usize];
    let related = vec![[importer, from.statements.len() as u32 - 1, from.records.len() as u32, 0]];
    let kind = random.weighted(&[65, 20, 15]);
    from.records.push(Record { target: module + 1, kind, bits: random.bits(&[0, 30]) });
    graph.entries.push(Entry { module, kind: DYNAMIC_IMPORT, related });
}

/// Makes dynamic entries of modules that are imported, related to those imports.
pub(super) fn relate_entries(random: &mut Random, graph: &mut Graph) {
    let modules = graph.modules.len() as u32;
    for index in 0..graph.entries.len() {
        if random.chance(30) {
            continue;
        }
        let module = graph.entries[index].module;
        let related = imports_of(random, graph, module);
        graph.entries[index].related.extend(related);
        graph.entries[index].kind = if random.chance(80) { DYNAMIC_IMPORT } else { random.below(2) };
    }
    if random.chance(85) {
        let place = random.index(graph.entries.len() + 1);
        let entry = Entry { module: random.below(modules), kind: random.below(2), related: Vec::new() };
        graph.entries.insert(place, entry);
    }
    while random.chance(40) {
        let module = random.below(modules);
        let related = imports_of(random, graph, module);
        graph.entries.push(Entry { module, kind: DYNAMIC_IMPORT, related });
    }
}

/// The related statements of a module's imports: each record that leads to it, with a statement that has it.
fn imports_of(random: &mut Random, graph: &Graph, module: u32) -> Vec<[u32; 4]> {
    let mut related = Vec::new();
    for [importer, record] in resolved_records(graph) {
        let from = &graph.modules[importer as usize];
        if from.records[record as usize].target != module + 1 || random.chance(20) {
            continue;
        }
        let has = |&index: &u32| from.statements[index as usize].records.contains(&record);
        let statements: Vec<u32> = (0..from.statements.len() as u32).filter(has).collect();
        let statement = random.prefer(&statements, from.statements.len() as u32);
        related.push([importer, statement, record, u32::from(random.chance(15))]);
    }
    shuffle(random, &mut related);
    related
}

/// A graph of so many modules in which little is kept unless an entry asks for it.
pub fn sparse(random: &mut Random, modules: u32) -> Graph {
    let mut graph = Graph { options: random.bits(&[92, 30, 30, 20, 10, 15]), ..Graph::default() };
    graph.runtime = random.below(modules);
    for index in 0..modules {
        let normal = index == graph.runtime || random.chance(88);
        let count = if normal { random.between(1, 3) } else { 0 };
        let statements = vec![Statement::default(); count as usize];
        graph.modules.push(Module { normal, statements, ..Module::default() });
    }
    place_symbols(random, &mut graph);
    graph.helpers = (0..random.below(4)).map(|_| helper_symbol(random, &graph)).collect();
    for index in 0..modules {
        fill_module(random, &mut graph, index);
    }
    for index in 0..modules {
        fill_statements(random, &mut graph, index);
    }
    let first = place_user_defined(random, &mut graph);
    if random.chance(60) {
        place_helper_links(random, &mut graph, first);
    }
    place_entries(random, &mut graph, first);
    graph
}

/// A namespace for each normal module, and a few symbols more.
fn place_symbols(random: &mut Random, graph: &mut Graph) {
    let own = |owner: u32, symbols: &mut Vec<Symbol>| {
        symbols.push(Symbol { owner, root: symbols.len() as u32, ..Symbol::default() });
    };
    for index in 0..graph.modules.len() as u32 {
        if graph.modules[index as usize].normal {
            graph.modules[index as usize].namespace = graph.symbols.len() as u32 + 1;
            own(index, &mut graph.symbols);
        }
        if random.chance(70) {
            own(index, &mut graph.symbols);
        }
    }
    let symbols = graph.symbols.len() as u32;
    let of_runtime = symbols_of(graph, graph.runtime);
    for index in 0..graph.symbols.len() {
        if random.chance(10) {
            let root = graph.symbols[random.below(symbols) as usize].root;
            let is_root = graph.symbols.iter().filter(|symbol| symbol.root == index as u32).count() > 1;
            if !is_root && graph.symbols[root as usize].root == root {
                graph.symbols[index].root = root;
            }
        }
        let statements = graph.modules[graph.symbols[index].owner as usize].statements.len() as u32;
        let symbol = &mut graph.symbols[index];
        symbol.name = name(random);
        symbol.alias_namespace = if random.chance(6) { random.below(symbols) + 1 } else { 0 };
        symbol.alias_name = random.below(3);
        symbol.constant = if random.chance(6) { random.below(8) } else { 0 };
        symbol.chain = if random.chance(20) { vec![random.prefer(&of_runtime, symbols)] } else { Vec::new() };
        if statements > 0 {
            let few = Lists { shortest: 0, longest: 1 };
            symbol.declaring = random.indexes(few, statements);
            symbol.written = if random.chance(5) { random.indexes(few, statements) } else { Vec::new() };
        }
    }
}

/// A symbol of the runtime, mostly.
fn helper_symbol(random: &mut Random, graph: &Graph) -> u32 {
    random.prefer(&symbols_of(graph, graph.runtime), graph.symbols.len() as u32)
}

fn symbols_of(graph: &Graph, module: u32) -> Vec<u32> {
    (0..graph.symbols.len() as u32).filter(|&symbol| graph.symbols[symbol as usize].owner == module).collect()
}

fn fill_module(random: &mut Random, graph: &mut Graph, index: u32) {
    let (modules, symbols) = (graph.modules.len() as u32, graph.symbols.len() as u32);
    let own = symbols_of(graph, index);
    let externals: Vec<u32> = (0..modules).filter(|&module| random.chance(30) && !is_normal(graph, module)).collect();
    let (helpers, is_runtime) = (graph.helpers.len() as u32, index == graph.runtime);
    let module = &mut graph.modules[index as usize];
    let effects: &[u32] = if is_runtime { &[50, 35, 10, 3, 2] } else { &[55, 12, 28, 3, 2] };
    module.effects = random.weighted(effects);
    module.scan_effects = random.weighted(effects);
    module.exports = random.weighted(&[65, 30, 5]);
    module.kind = random.weighted(&[80, 5, 10, 5]);
    module.flags = random.bits(&[3, 10, 10, 5, 60, 2]);
    module.wrap = random.weighted(&[85, 5, 10]);
    module.wrapper = if random.chance(70) { 0 } else { random.prefer(&own, symbols) + 1 };
    module.scan_statements = random.below(4);
    let few = Lists { shortest: 0, longest: 2 };
    module.records = random.list(few, |random| dynamic_record(random, modules));
    module.dependencies = if random.chance(15) { vec![random.below(modules)] } else { Vec::new() };
    module.named_imports = if random.chance(5) { vec![random.below(symbols)] } else { Vec::new() };
    module.own_exports = if random.chance(15) { vec![random.prefer(&own, symbols)] } else { Vec::new() };
    module.entry_references = if random.chance(25) { vec![random.prefer(&own, symbols)] } else { Vec::new() };
    module.commonjs_export_symbols = if random.chance(5) { vec![random.below(symbols)] } else { Vec::new() };
    if random.chance(if module.normal { 30 } else { 70 }) {
        module.resolved_exports = random.list(few, |random| [random.below(4), random.below(symbols), random.below(2)]);
        drop_repeats(&mut module.resolved_exports);
    }
    if random.chance(15) {
        module.commonjs_namespaces = vec![[random.prefer(&own, symbols), random.prefer(&externals, modules)]];
    }
    let statements = module.statements.len() as u32;
    if helpers > 0 && statements > 0 && random.chance(60) {
        module.helpers = random.list(few, |random| [random.below(helpers), random.below(statements)]);
    }
}

/// A record with a target, mostly a dynamic import; many are pure.
fn dynamic_record(random: &mut Random, modules: u32) -> Record {
    if random.chance(10) {
        return record(random, modules);
    }
    Record { target: random.between(1, modules), kind: random.weighted(&[20, 10, 70]), bits: random.bits(&[10, 60]) }
}

/// Each record of a module in one of its statements, with few references and few effects.
fn fill_statements(random: &mut Random, graph: &mut Graph, index: u32) {
    let symbols = &graph.symbols;
    let module = &mut graph.modules[index as usize];
    let count = module.statements.len();
    for statement in &mut module.statements {
        statement.bits = random.bits(&[25, 25, 20, 10, 20]);
        while random.chance(25) {
            let few = Lists { shortest: 0, longest: 1 };
            statement.references.push(match random.chance(70) {
                true => Reference::Symbol(random.index(symbols.len()) as u32),
                false => reference(random, few, symbols, &[]),
            });
        }
    }
    for record in 0..module.records.len() as u32 {
        if count > 0 && random.chance(85) {
            module.statements[random.index(count)].records.push(record);
        }
    }
}

/// Helpers that are declared by a statement of their module, which refers to further symbols, often of the first module;
/// at times a statement of that waits for one of the runtime.
fn place_helper_links(random: &mut Random, graph: &mut Graph, first: u32) {
    let (near, of_runtime) = (symbols_of(graph, first), symbols_of(graph, graph.runtime));
    let all = graph.symbols.len() as u32;
    if random.chance(50) {
        let (symbol, depended) =
            (random.below(all), random.list(Lists { shortest: 1, longest: 2 }, |random| random.pick(&of_runtime)));
        let statements = &mut graph.modules[first as usize].statements;
        let statement = random.index(statements.len());
        statements[statement].references.push(Reference::Resolved { symbol, commonjs: random.below(2), depended });
    }
    for helper in graph.helpers.clone() {
        let Symbol { owner, root, .. } = graph.symbols[helper as usize];
        graph.symbols[root as usize].constant = 0;
        if root != helper || !is_normal(graph, owner) {
            continue;
        }
        let statement = random.index(graph.modules[owner as usize].statements.len());
        graph.symbols[helper as usize].declaring.push(statement as u32);
        for _ in 0..random.between(1, 2) {
            let symbol = random.prefer(&near, all);
            graph.modules[owner as usize].statements[statement].references.push(Reference::Symbol(symbol));
        }
    }
}

/// CommonJS modules one behind the other, from one that is kept: what a round uses of one bails out the next.
fn place_bailouts(random: &mut Random, graph: &mut Graph, first: u32) {
    let mut normal: Vec<u32> = (0..graph.modules.len() as u32).filter(|&index| is_normal(graph, index)).collect();
    shuffle(random, &mut normal);
    normal.retain(|&index| index != first);
    normal.truncate(random.between(1, 5) as usize);
    normal.insert(0, first);
    for pair in normal.windows(2) {
        place_bailout(random, graph, pair[0], pair[1]);
    }
}

/// A statement that requires a CommonJS module, whose namespace is one of its exports and keeps its last statement.
pub(super) fn place_bailout(random: &mut Random, graph: &mut Graph, from: u32, to: u32) {
    let module = &mut graph.modules[from as usize];
    let last = module.statements.len() - 1;
    module.statements[last].records.push(module.records.len() as u32);
    module.records.push(Record { target: to + 1, kind: random.between(1, 2), bits: 0 });
    module.flags &= !4;
    let target = &mut graph.modules[to as usize];
    let last = target.statements.len() as u32 - 1;
    let symbol = target.namespace - 1;
    target.exports = 1;
    target.resolved_exports.retain(|row| row[0] != 5);
    target.resolved_exports.push([5, symbol, 1]);
    graph.symbols[symbol as usize].declaring.push(last);
    let root = graph.symbols[symbol as usize].root;
    graph.symbols[root as usize].constant = 0;
}

fn is_normal(graph: &Graph, index: u32) -> bool {
    graph.modules[index as usize].normal
}

/// User-defined entries, dynamic entries of imported modules, at times in an order that needs many rounds.
fn place_entries(random: &mut Random, graph: &mut Graph, first: u32) {
    let modules = graph.modules.len() as u32;
    if random.chance(25) {
        place_bailouts(random, graph, first);
    }
    for module in 0..modules {
        let related = imports_of(random, graph, module);
        let all = random.chance(10);
        if all || (!related.is_empty() && random.chance(85)) {
            graph.entries.push(Entry { module, kind: DYNAMIC_IMPORT, related });
        }
    }
    if random.chance(45) {
        relate_in_a_chain(random, graph, first);
    }
    if random.chance(20) {
        repeat_an_entry(random, graph);
    }
    if random.chance(45) {
        shuffle(random, &mut graph.entries);
    }
}

/// Mostly an entry of a normal module all of whose statements are swept; which module it would be. At times others too.
fn place_user_defined(random: &mut Random, graph: &mut Graph) -> u32 {
    let modules = graph.modules.len() as u32;
    let normal: Vec<u32> = (0..modules).filter(|&index| is_normal(graph, index)).collect();
    let first = random.pick(&normal);
    if random.chance(90) {
        graph.entries.push(Entry { module: first, kind: random.below(2), related: Vec::new() });
        let module = &mut graph.modules[first as usize];
        if first != graph.runtime {
            let mut swept = module.statements.iter_mut().filter(|_| random.chance(80));
            swept.by_ref().for_each(|statement| statement.bits |= 3);
        }
    }
    for _ in 0..random.weighted(&[70, 25, 5]) {
        graph.entries.push(Entry { module: random.below(modules), kind: random.below(2), related: Vec::new() });
    }
    first
}

/// Another entry of a module that has one, at times of another kind.
fn repeat_an_entry(random: &mut Random, graph: &mut Graph) {
    if graph.entries.is_empty() {
        return;
    }
    let mut entry = graph.entries[random.index(graph.entries.len())].clone();
    if random.chance(60) {
        entry.kind = random.below(3);
    }
    entry.related.truncate(random.index(entry.related.len() + 1));
    graph.entries.push(entry);
}

/// Dynamic entries each related to a statement that the next one's module sweeps, and the last one to a statement of
/// a module that is kept: that one is live first.
fn relate_in_a_chain(random: &mut Random, graph: &mut Graph, first: u32) {
    let long = |index: &u32| {
        let module = &graph.modules[*index as usize];
        *index != first && module.normal && module.statements.len() > 1
    };
    let mut chain: Vec<u32> = (0..graph.modules.len() as u32).filter(long).collect();
    shuffle(random, &mut chain);
    chain.truncate(random.between(2, 8) as usize);
    for &index in &chain {
        let module = &mut graph.modules[index as usize];
        module.effects = u32::from(random.chance(40));
        module.scan_effects = module.effects;
        module.flags &= if random.chance(70) { !17 } else { !1 };
        module.statements[1].bits |= 3;
        module.dependencies.clear();
    }
    chain.push(first);
    for pair in chain.windows(2) {
        let [module, next] = [pair[0], pair[1]];
        let importer = &mut graph.modules[next as usize];
        let link = [next, importer.statements.len().min(2) as u32 - 1, importer.records.len() as u32, 0];
        let kind = random.weighted(&[65, 20, 15]);
        importer.records.push(Record { target: module + 1, kind, bits: random.bits(&[0, 30]) });
        let mut related = if random.chance(60) { imports_of(random, graph, module) } else { Vec::new() };
        related.push(link);
        graph.entries.push(Entry { module, kind: DYNAMIC_IMPORT, related });
    }
}

/// Modules that import each other in all ways, and dynamic entries of some of them: for their order alone.
pub fn import_graph(random: &mut Random) -> Graph {
    let modules = random.between(2, 24);
    let (longest, dynamic) = (random.between(1, 4), random.pick(&[20, 50, 80, 100]));
    let mut graph = Graph { options: 1, ..Graph::default() };
    for index in 0..modules {
        let normal = index == 0 || random.chance(90);
        let mut module = Module { normal, ..Module::default() };
        module.records = random.list(Lists { shortest: 0, longest }, |random| {
            let kind = if random.chance(dynamic) { DYNAMIC_IMPORT } else { random.below(2) };
            Record { target: random.below(modules + 1), kind, bits: 0 }
        });
        if normal {
            module.statements.push(Statement::default());
            module.namespace = graph.symbols.len() as u32 + 1;
            graph.symbols.push(Symbol { owner: index, root: graph.symbols.len() as u32, ..Symbol::default() });
        }
        graph.modules.push(module);
    }
    for _ in 0..random.below(modules + 4) {
        graph.entries.push(Entry { module: random.below(modules), kind: DYNAMIC_IMPORT, related: Vec::new() });
    }
    graph
}
