//! Makes a graph smaller by dropping parts of it, as long as something holds of it.

use crate::model::{Graph, Module, Reference};
use crate::reference::check;

/// The smallest graph found by dropping one part after the other, such that `holds` still.
pub fn shrink(graph: Graph, holds: impl Fn(&Graph) -> bool) -> Graph {
    let mut smallest = graph;
    loop {
        let before = measure(&smallest);
        smallest = pass(smallest, &holds);
        if measure(&smallest) == before {
            return smallest;
        }
    }
}

/// How many numbers, how many symbols have another root, and how much the numbers are in all.
fn measure(graph: &Graph) -> (usize, usize, u64) {
    let numbers = graph.numbers();
    let linked = (0..).zip(&graph.symbols).filter(|(index, symbol)| symbol.root != *index).count();
    (numbers.len(), linked, numbers.iter().map(|&number| u64::from(number)).sum())
}

type Change = dyn Fn(&mut Graph, usize) -> Option<()>;

fn pass(mut graph: Graph, holds: &impl Fn(&Graph) -> bool) -> Graph {
    let changes: [&Change; 8] = [
        &|graph, index| drop_at(&mut graph.entries, index),
        &own_root,
        &own_namespace,
        &without_module,
        &without_symbol,
        &without_statement,
        &drop_nth,
        &zero_nth,
    ];
    for change in changes {
        for index in (0..MOST).rev() {
            let mut smaller = graph.clone();
            let done = change(&mut smaller, index).is_some()
                && is_encodable(&smaller)
                && measure(&smaller) < measure(&graph)
                && check(&smaller.numbers()).is_ok()
                && holds(&smaller);
            if done {
                graph = smaller;
            }
        }
    }
    graph
}

/// Whether there is something left to write numbers of.
fn is_encodable(graph: &Graph) -> bool {
    let owned = |owner: u32| (owner as usize) < graph.modules.len();
    !graph.modules.is_empty() && !graph.symbols.is_empty() && graph.symbols.iter().all(|symbol| owned(symbol.owner))
}

/// The most places of one kind that are tried.
const MOST: usize = 4_000;

fn drop_at<T>(list: &mut Vec<T>, index: usize) -> Option<()> {
    (index < list.len()).then(|| {
        list.remove(index);
    })
}

/// Drops the element with this number, counted over all lists.
fn drop_nth(graph: &mut Graph, index: usize) -> Option<()> {
    let mut left = index;
    macro_rules! from {
        ($list:expr) => {
            if left < $list.len() {
                $list.remove(left);
                return Some(());
            }
            left -= $list.len();
        };
    }
    for entry in &mut graph.entries {
        from!(entry.related);
    }
    for module in &mut graph.modules {
        from!(module.dependencies);
        from!(module.named_imports);
        from!(module.own_exports);
        from!(module.entry_references);
        from!(module.commonjs_export_symbols);
        from!(module.resolved_exports);
        from!(module.commonjs_namespaces);
        from!(module.enum_members);
        from!(module.helpers);
        for statement in &mut module.statements {
            from!(statement.records);
            from!(statement.references);
            for reference in &mut statement.references {
                if let Reference::Resolved { depended, .. } = reference {
                    from!(depended);
                }
            }
        }
    }
    for symbol in &mut graph.symbols {
        from!(symbol.chain);
        from!(symbol.declaring);
        from!(symbol.written);
    }
    if left < 1 {
        return graph.helpers.pop().map(|_| ());
    }
    left -= 1;
    without_record(graph, left)
}

/// Drops the record with this number, counted over all modules, unless something else names it.
fn without_record(graph: &mut Graph, index: usize) -> Option<()> {
    let mut left = index;
    let module = graph.modules.iter().position(|module| {
        let here = left < module.records.len();
        if !here {
            left -= module.records.len();
        }
        here
    })?;
    graph.modules[module].records.remove(left);
    let statements = graph.modules[module].statements.iter_mut().flat_map(|statement| &mut statement.records);
    let related = graph.entries.iter_mut().flat_map(|entry| &mut entry.related);
    let related = related.filter(|row| row[0] as usize == module).map(|row| &mut row[2]);
    close_up(statements.chain(related), left as u32)
}

/// Takes one from the indexes behind a dropped one; none if one of them is the dropped one.
fn close_up<'a>(indexes: impl Iterator<Item = &'a mut u32>, dropped: u32) -> Option<()> {
    for index in indexes {
        if *index == dropped {
            return None;
        }
        *index -= u32::from(*index > dropped);
    }
    Some(())
}

fn own_root(graph: &mut Graph, index: usize) -> Option<()> {
    graph.symbols.get_mut(index)?.root = index as u32;
    Some(())
}

/// Gives a module the first of its symbols as its namespace.
fn own_namespace(graph: &mut Graph, index: usize) -> Option<()> {
    let module = graph.modules.get_mut(index).filter(|module| module.normal)?;
    let first = graph.symbols.iter().position(|symbol| symbol.owner as usize == index)?;
    module.namespace = first as u32 + 1;
    Some(())
}

/// Drops a module with its symbols, unless something else names one of them.
fn without_module(graph: &mut Graph, index: usize) -> Option<()> {
    *graph.modules.get_mut(index)? = Module::default();
    for symbol in (0..graph.symbols.len()).rev() {
        if graph.symbols[symbol].owner as usize == index {
            without_symbol(graph, symbol)?;
        }
    }
    graph.modules.remove(index);
    let dropped = index as u32;
    let mut plus_one = Vec::new();
    let mut plain: Vec<&mut u32> = vec![&mut graph.runtime];
    for module in &mut graph.modules {
        plus_one.extend(module.records.iter_mut().map(|record| &mut record.target));
        plain.extend(&mut module.dependencies);
        plain.extend(module.commonjs_namespaces.iter_mut().map(|row| &mut row[1]));
    }
    plain.extend(graph.symbols.iter_mut().map(|symbol| &mut symbol.owner));
    for entry in &mut graph.entries {
        plain.push(&mut entry.module);
        plain.extend(entry.related.iter_mut().map(|row| &mut row[0]));
    }
    close_up(plain.into_iter(), dropped)?;
    close_up(plus_one.into_iter(), dropped + 1)
}

fn without_symbol(graph: &mut Graph, index: usize) -> Option<()> {
    drop_at(&mut graph.symbols, index)?;
    let dropped = index as u32;
    let mut plus_one = Vec::new();
    let mut plain: Vec<&mut u32> = graph.helpers.iter_mut().collect();
    for module in &mut graph.modules {
        plus_one.extend([&mut module.wrapper, &mut module.namespace]);
        plain.extend(&mut module.named_imports);
        plain.extend(&mut module.own_exports);
        plain.extend(&mut module.entry_references);
        plain.extend(&mut module.commonjs_export_symbols);
        plain.extend(module.resolved_exports.iter_mut().map(|row| &mut row[1]));
        plain.extend(module.commonjs_namespaces.iter_mut().map(|row| &mut row[0]));
        for reference in module.statements.iter_mut().flat_map(|statement| &mut statement.references) {
            match reference {
                Reference::Symbol(symbol) => plain.push(symbol),
                Reference::Nothing => {}
                Reference::Resolved { symbol, depended, .. } => {
                    plain.push(symbol);
                    plain.extend(depended);
                }
                Reference::Member { object, .. } => plain.push(object),
            }
        }
    }
    for symbol in &mut graph.symbols {
        plain.push(&mut symbol.root);
        plus_one.push(&mut symbol.alias_namespace);
        plain.extend(&mut symbol.chain);
    }
    close_up(plain.into_iter(), dropped)?;
    close_up(plus_one.into_iter(), dropped + 1)
}

/// Drops the statement with this number, counted over all modules.
fn without_statement(graph: &mut Graph, index: usize) -> Option<()> {
    let mut left = index;
    let module = graph.modules.iter().position(|module| {
        let here = left < module.statements.len();
        if !here {
            left -= module.statements.len();
        }
        here
    })?;
    graph.modules[module].statements.remove(left);
    let mut indexes: Vec<&mut u32> = graph.modules[module].helpers.iter_mut().map(|row| &mut row[1]).collect();
    for symbol in graph.symbols.iter_mut().filter(|symbol| symbol.owner as usize == module) {
        indexes.extend(&mut symbol.declaring);
        indexes.extend(&mut symbol.written);
    }
    let related = graph.entries.iter_mut().flat_map(|entry| &mut entry.related);
    indexes.extend(related.filter(|row| row[0] as usize == module).map(|row| &mut row[1]));
    close_up(indexes.into_iter(), left as u32)
}

/// Lowers the number at this place, counted over those that may be lowered: to 0, to itself for a root, bit by bit.
fn zero_nth(graph: &mut Graph, index: usize) -> Option<()> {
    let mut left = index;
    let mut numbers: Vec<&mut u32> = vec![&mut graph.options, &mut graph.runtime];
    for module in &mut graph.modules {
        numbers.extend([&mut module.effects, &mut module.exports, &mut module.kind, &mut module.flags]);
        numbers.extend([&mut module.wrap, &mut module.wrapper, &mut module.reexports]);
        numbers.extend([&mut module.scan_effects, &mut module.scan_statements]);
        for record in &mut module.records {
            numbers.extend([&mut record.target, &mut record.kind, &mut record.bits]);
        }
        for [name, _, from_commonjs] in &mut module.resolved_exports {
            numbers.extend([name, from_commonjs]);
        }
        numbers.extend(module.enum_members.iter_mut().flatten());
        for statement in &mut module.statements {
            numbers.push(&mut statement.bits);
            for reference in &mut statement.references {
                match reference {
                    Reference::Resolved { commonjs, .. } => numbers.push(commonjs),
                    Reference::Member { write, properties, first, .. } => numbers.extend([write, properties, first]),
                    _ => {}
                }
            }
        }
    }
    for symbol in &mut graph.symbols {
        numbers.extend([&mut symbol.name, &mut symbol.alias_namespace, &mut symbol.alias_name, &mut symbol.constant]);
    }
    for entry in &mut graph.entries {
        numbers.extend([&mut entry.module, &mut entry.kind]);
        numbers.extend(entry.related.iter_mut().map(|row| &mut row[3]));
    }
    // Each number has 7 ways: 0, and one of its lowest six bits taken away.
    let way = left % 7;
    left /= 7;
    let number = numbers.into_iter().nth(left)?;
    *number = if way == 0 { 0 } else { *number & !(1 << (way - 1)) };
    Some(())
}
