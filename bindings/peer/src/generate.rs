//! Random graphs that are accepted, random damage to them, and random files of numbers. All follows from a seed.

pub mod counted;
pub mod late;
pub mod records;
pub mod runs;
pub mod settled;

use crate::model::{Encoded, Entry, Graph, Module, Record, Reference, Statement, Symbol};
use crate::reference::graph::{ENTRIES, HELPERS, MODULES, STATEMENTS, SYMBOLS};
use crate::reference::leb128;

/// The printed case, `examples/printed.txt`: an entry with one statement, which has a side effect.
#[rustfmt::skip]
pub const PRINTED: [u32; 81] = [
    1, 0, 2, 2, 3, 1, 0,
    1, 0, 0, 0, 0, 0, 0, 1, 0, 1, 0, 1,  0, 0, 0, 0, 0, 0, 0, 0, 0, 0,
    1, 1, 0, 0, 0, 0, 0, 2, 0, 2, 1, 2,  0, 0, 0, 0, 0, 0, 0, 0, 0, 0,
    0, 1, 0, 0, 0, 0, 0, 0, 0,   1, 1, 1, 0, 0, 0, 0, 0, 0,
    0, 0, 0,   0, 0, 0,   1, 0, 0,   1, 0, 0,
];

/// The splitmix64 generator.
pub struct Random(u64);

impl Random {
    pub fn new(seed: u64) -> Random {
        Random(seed)
    }

    pub fn next(&mut self) -> u64 {
        self.0 = self.0.wrapping_add(0x9e37_79b9_7f4a_7c15);
        let mut mixed = self.0;
        mixed = (mixed ^ (mixed >> 30)).wrapping_mul(0xbf58_476d_1ce4_e5b9);
        mixed = (mixed ^ (mixed >> 27)).wrapping_mul(0x94d0_49bb_1331_11eb);
        mixed ^ (mixed >> 31)
    }

    /// A number below `bound`, which is not 0.
    pub fn below(&mut self, bound: u32) -> u32 {
        (((self.next() >> 32) * u64::from(bound)) >> 32) as u32
    }

    /// A number from `first` to `last`.
    pub fn between(&mut self, first: u32, last: u32) -> u32 {
        first + self.below(last - first + 1)
    }

    pub fn index(&mut self, length: usize) -> usize {
        self.below(length as u32) as usize
    }

    /// True in so many of a hundred cases.
    pub fn chance(&mut self, percent: u32) -> bool {
        self.below(100) < percent
    }

    pub fn pick<T: Copy>(&mut self, from: &[T]) -> T {
        from[self.index(from.len())]
    }

    /// The index of one of the weights, the oftener the larger it is.
    fn weighted(&mut self, weights: &[u32]) -> u32 {
        let mut rest = self.below(weights.iter().sum());
        for (index, &weight) in (0..).zip(weights) {
            if rest < weight {
                return index;
            }
            rest -= weight;
        }
        unreachable!("the rest is below the sum")
    }

    /// A number with each bit set in so many of a hundred cases.
    fn bits(&mut self, percents: &[u32]) -> u32 {
        (0..).zip(percents).map(|(bit, &percent)| u32::from(self.chance(percent)) << bit).sum()
    }

    /// Mostly one of the preferred, if there are any; else any number below `bound`.
    fn prefer(&mut self, preferred: &[u32], bound: u32) -> u32 {
        if preferred.is_empty() || self.chance(20) {
            return self.below(bound);
        }
        self.pick(preferred)
    }

    /// Any 32-bit number, small ones and those of each width alike.
    pub fn any(&mut self) -> u32 {
        let width = self.below(33);
        ((self.next() & 0xffff_ffff) >> width) as u32
    }

    /// A list of a length that `lists` allows.
    fn list<T>(&mut self, lists: Lists, mut element: impl FnMut(&mut Random) -> T) -> Vec<T> {
        let none = lists.shortest == 0 && self.chance(35);
        let length = if none { 0 } else { self.between(lists.shortest, lists.longest) };
        (0..length).map(|_| element(self)).collect()
    }

    /// A list of indexes below `bound`; empty if there are none.
    fn indexes(&mut self, lists: Lists, bound: u32) -> Vec<u32> {
        if bound == 0 {
            return Vec::new();
        }
        self.list(lists, |random| random.below(bound))
    }
}

/// The sizes that a random graph keeps to.
#[derive(Clone, Copy, Debug)]
pub struct Size {
    pub modules: u32,
    /// Beside the namespaces of normal modules.
    pub more_symbols: u32,
    /// Beside statement 0 of normal modules.
    pub more_statements: u32,
    pub entries: u32,
    pub helpers: u32,
    pub lists: Lists,
}

/// How long lists are.
#[derive(Clone, Copy, Debug)]
pub struct Lists {
    pub shortest: u32,
    pub longest: u32,
}

impl Lists {
    /// Up to `longest` elements; one graph in four has no empty list where it can be helped.
    fn up_to(random: &mut Random, longest: u32) -> Lists {
        Lists { shortest: u32::from(random.chance(25)), longest: random.between(1, longest) }
    }
}

impl Size {
    /// At most some hundred numbers.
    pub fn tiny(random: &mut Random) -> Size {
        Size {
            modules: random.between(1, 2),
            more_symbols: random.below(2),
            more_statements: random.below(2),
            entries: random.below(2),
            helpers: random.below(2),
            lists: Lists::up_to(random, 2),
        }
    }

    /// Some hundred numbers.
    pub fn small(random: &mut Random) -> Size {
        Size {
            modules: random.between(1, 5),
            more_symbols: random.below(6),
            more_statements: random.below(6),
            entries: random.below(4),
            helpers: random.below(4),
            lists: Lists::up_to(random, 4),
        }
    }

    /// Some thousand numbers.
    pub fn large(random: &mut Random) -> Size {
        Size {
            modules: random.between(1, 60),
            more_symbols: random.below(120),
            more_statements: random.below(120),
            entries: random.below(40),
            helpers: random.below(HELPERS + 1),
            lists: Lists::up_to(random, 12),
        }
    }

    /// A small graph with lists of some hundred elements.
    pub fn long(random: &mut Random) -> Size {
        Size { lists: Lists { shortest: 0, longest: random.between(20, 300) }, ..Size::tiny(random) }
    }

    /// The largest graph, with lists of a few elements.
    pub fn largest() -> Size {
        Size {
            modules: MODULES,
            more_symbols: SYMBOLS - MODULES,
            more_statements: STATEMENTS - MODULES,
            entries: ENTRIES,
            helpers: HELPERS,
            lists: Lists { shortest: 0, longest: 4 },
        }
    }

    /// Mostly small, often tiny, seldom larger.
    pub fn usual(random: &mut Random) -> Size {
        match random.below(100) {
            0..=29 => Size::tiny(random),
            30..=96 => Size::small(random),
            97..=98 => Size::large(random),
            _ => Size::long(random),
        }
    }
}

/// A random graph that is accepted, such that the keep rules apply often.
pub fn graph(random: &mut Random, size: Size) -> Graph {
    let mut graph = Graph { options: options(random), ..Graph::default() };
    place_modules(random, size.modules, size.modules, &mut graph);
    fill(random, size, &mut graph);
    graph
}

fn options(random: &mut Random) -> u32 {
    random.bits(&[80, 50, 50, 50, 30, 50])
}

/// All but options, kinds of modules and the runtime.
fn fill(random: &mut Random, size: Size, graph: &mut Graph) {
    place_statements(random, size, graph);
    place_symbols(random, size, graph);
    graph.helpers = (0..size.helpers).map(|_| random.below(graph.symbols.len() as u32)).collect();
    fill_modules(random, size.lists, graph);
    fill_symbols(random, size.lists, graph);
    fill_statements(random, size.lists, graph);
    fill_entries(random, size, graph);
    if random.chance(30) {
        place_bodies(random, graph);
    }
}

/// Makes some modules such that they are included on demand, with a gated statement, at times with a key in common.
fn place_bodies(random: &mut Random, graph: &mut Graph) {
    let symbols = graph.symbols.len();
    let (key, percent) = (random.index(symbols) as u32, random.pick(&[50, 90]));
    for (index, module) in (0..).zip(&mut graph.modules) {
        if module.statements.len() < 2 || !random.chance(percent) {
            continue;
        }
        (module.effects, module.scan_effects, module.exports) = (2, 2, 0);
        module.flags &= !1;
        let gated = random.index(module.statements.len() - 1) + 1;
        let statement = &mut module.statements[gated];
        statement.bits |= 1;
        statement.records.clear();
        if statement.references.is_empty() {
            statement.references.push(Reference::Symbol(random.index(symbols) as u32));
        }
        if random.chance(70) {
            module.own_exports.push(key);
        }
        let user_defined = graph.entries.iter_mut().filter(|entry| entry.module == index && random.chance(90));
        user_defined.for_each(|entry| entry.kind = 2);
    }
}

/// Kinds of modules, at most so many of them normal beside the runtime, and which is that.
fn place_modules(random: &mut Random, modules: u32, most_normal: u32, graph: &mut Graph) {
    let (runtime, mut placed) = (random.below(modules), 0);
    for index in 0..modules {
        let normal = index == runtime || random.chance(70) && placed < most_normal;
        placed += u32::from(normal && index != runtime);
        graph.modules.push(Module { normal, ..Module::default() });
    }
    graph.runtime = runtime;
}

/// How many statements each normal module has.
fn place_statements(random: &mut Random, size: Size, graph: &mut Graph) {
    for module in graph.modules.iter_mut().filter(|module| module.normal) {
        module.statements.push(Statement::default());
    }
    let normal: Vec<usize> = (0..graph.modules.len()).filter(|&index| graph.modules[index].normal).collect();
    for _ in 0..size.more_statements {
        graph.modules[random.pick(&normal)].statements.push(Statement::default());
    }
}

/// Owners, namespaces and roots.
fn place_symbols(random: &mut Random, size: Size, graph: &mut Graph) {
    let modules = graph.modules.len() as u32;
    let mut owners: Vec<u32> = (0..modules).filter(|&index| graph.modules[index as usize].normal).collect();
    owners.extend((0..size.more_symbols).map(|_| random.below(modules)));
    shuffle(random, &mut owners);
    let symbols = owners.len() as u32;
    let selves: Vec<u32> = (0..symbols).filter(|_| random.chance(60)).collect();
    for (index, &owner) in (0..).zip(&owners) {
        let root = if selves.is_empty() || selves.binary_search(&index).is_ok() { index } else { random.pick(&selves) };
        graph.symbols.push(Symbol { owner, root, ..Symbol::default() });
    }
    for (index, module) in (0..).zip(&mut graph.modules) {
        let own: Vec<u32> = (0..symbols).filter(|&symbol| owners[symbol as usize] == index).collect();
        module.namespace = if module.normal { random.pick(&own) + 1 } else { 0 };
    }
}

/// By module: the symbols that it owns.
fn owned(graph: &Graph) -> Vec<Vec<u32>> {
    let mut owned = vec![Vec::new(); graph.modules.len()];
    for (index, symbol) in (0..).zip(&graph.symbols) {
        owned[symbol.owner as usize].push(index);
    }
    owned
}

fn fill_modules(random: &mut Random, lists: Lists, graph: &mut Graph) {
    let (modules, symbols) = (graph.modules.len() as u32, graph.symbols.len() as u32);
    let helpers = graph.helpers.len() as u32;
    let owned = owned(graph);
    for (module, own) in graph.modules.iter_mut().zip(&owned) {
        let statements = module.statements.len() as u32;
        fill_leading_numbers(random, module, own, symbols);
        module.records = random.list(lists, |random| record(random, modules));
        module.dependencies = random.indexes(lists, modules);
        module.named_imports = random.indexes(lists, symbols);
        module.own_exports = random.list(lists, |random| random.prefer(own, symbols));
        module.entry_references = random.indexes(lists, symbols);
        module.commonjs_export_symbols = random.indexes(lists, symbols);
        module.resolved_exports = random.list(lists, |random| [name(random), random.below(symbols), random.below(2)]);
        drop_repeats(&mut module.resolved_exports);
        module.commonjs_namespaces = random.list(lists, |random| [random.prefer(own, symbols), random.below(modules)]);
        drop_repeats(&mut module.commonjs_namespaces);
        module.enum_members = random.list(lists, |random| [name(random), name(random)]);
        if helpers > 0 && statements > 0 {
            module.helpers = random.list(lists, |random| [random.below(helpers), random.below(statements)]);
        }
    }
}

fn fill_leading_numbers(random: &mut Random, module: &mut Module, own: &[u32], symbols: u32) {
    let statements = module.statements.len() as u32;
    module.effects = random.weighted(&[40, 15, 30, 7, 8]);
    module.exports = random.weighted(&[60, 30, 10]);
    module.kind = random.weighted(&[45, 15, 25, 15]);
    module.flags = random.bits(&[20, 40, 35, 40, 50, 15]);
    module.wrap = random.weighted(&[40, 20, 40]);
    module.wrapper = if random.chance(20) { 0 } else { random.prefer(own, symbols) + 1 };
    module.reexports = if random.chance(80) { random.below(4) } else { random.any() };
    module.scan_effects = random.weighted(&[30, 40, 20, 5, 5]);
    module.scan_statements = if random.chance(70) { random.below(statements + 3) } else { random.any() };
}

fn record(random: &mut Random, modules: u32) -> Record {
    Record { target: random.below(modules + 1), kind: random.below(3), bits: random.below(4) }
}

/// Small names meet each other; large ones are good too.
fn name(random: &mut Random) -> u32 {
    match random.below(100) {
        0..=59 => random.below(4),
        60..=84 => random.below(20),
        _ => random.any(),
    }
}

/// Keeps the first of those with the same first column.
fn drop_repeats<const WIDTH: usize>(rows: &mut Vec<[u32; WIDTH]>) {
    let mut seen = std::collections::HashSet::new();
    rows.retain(|row| seen.insert(row[0]));
}

fn fill_symbols(random: &mut Random, lists: Lists, graph: &mut Graph) {
    let symbols = graph.symbols.len() as u32;
    let namespaces = commonjs_namespaces(graph);
    for symbol in &mut graph.symbols {
        let statements = graph.modules[symbol.owner as usize].statements.len() as u32;
        let enums = &graph.modules[symbol.owner as usize].enum_members;
        symbol.name = if enums.is_empty() || random.chance(50) { name(random) } else { random.pick(enums)[0] };
        (symbol.alias_namespace, symbol.alias_name) = alias(random, &graph.modules, &namespaces, symbols);
        symbol.constant = if random.chance(60) { 0 } else { random.bits(&[80, 50, 30]) };
        symbol.chain = random.indexes(lists, symbols);
        symbol.declaring = random.indexes(lists, statements);
        symbol.written = random.indexes(lists, statements);
    }
}

/// Symbol and module of each CommonJS namespace that is in the list of the symbol's own owner.
fn commonjs_namespaces(graph: &Graph) -> Vec<[u32; 2]> {
    let mut found = Vec::new();
    for (index, module) in (0..).zip(&graph.modules) {
        let own = |row: &&[u32; 2]| graph.symbols[row[0] as usize].owner == index;
        found.extend(module.commonjs_namespaces.iter().filter(own));
    }
    found
}

/// Namespace plus 1 and name of an alias; mostly in a CommonJS namespace, with a name that its module exports.
fn alias(random: &mut Random, modules: &[Module], namespaces: &[[u32; 2]], symbols: u32) -> (u32, u32) {
    if random.chance(50) {
        return (0, name(random));
    }
    if namespaces.is_empty() || random.chance(30) {
        return (random.below(symbols + 1), name(random));
    }
    let [namespace, module] = random.pick(namespaces);
    let exports = &modules[module as usize].resolved_exports;
    let exported = if exports.is_empty() || random.chance(30) { name(random) } else { random.pick(exports)[0] };
    (namespace + 1, exported)
}

fn fill_statements(random: &mut Random, lists: Lists, graph: &mut Graph) {
    let symbols = &graph.symbols;
    let members = enum_members(graph);
    for module in &mut graph.modules {
        let records = module.records.len() as u32;
        for statement in &mut module.statements {
            statement.bits = random.bits(&[50, 50, 50, 30, 50]);
            statement.records = if random.chance(40) { Vec::new() } else { random.indexes(lists, records) };
            statement.references = random.list(lists, |random| reference(random, lists, symbols, &members));
        }
    }
}

/// Symbol and member, for each symbol that is an enum of its owner.
fn enum_members(graph: &Graph) -> Vec<[u32; 2]> {
    let mut found = Vec::new();
    for (index, symbol) in (0..).zip(&graph.symbols) {
        let members = &graph.modules[symbol.owner as usize].enum_members;
        found.extend(members.iter().filter(|row| row[0] == symbol.name).map(|row| [index, row[1]]));
    }
    found
}

fn reference(random: &mut Random, lists: Lists, symbols: &[Symbol], members: &[[u32; 2]]) -> Reference {
    let symbol = random.index(symbols.len()) as u32;
    let all = symbols.len() as u32;
    match random.weighted(&[35, 10, 30, 25]) {
        0 => Reference::Symbol(symbol),
        1 => Reference::Nothing,
        2 => Reference::Resolved { symbol, commonjs: random.below(2), depended: random.indexes(lists, all) },
        _ => {
            let write = random.weighted(&[70, 30]);
            let properties = if random.chance(80) { random.pick(&[1, 1, 1, 2]) } else { name(random) };
            let known = !members.is_empty() && random.chance(60);
            let [object, first] = if known { random.pick(members) } else { [symbol, name(random)] };
            Reference::Member { object, write, properties, first }
        }
    }
}

fn fill_entries(random: &mut Random, size: Size, graph: &mut Graph) {
    let modules = graph.modules.len() as u32;
    let resolved = resolved_records(graph);
    for _ in 0..size.entries {
        let related = if resolved.is_empty() {
            Vec::new()
        } else {
            random.list(size.lists, |random| {
                let [module, record] = random.pick(&resolved);
                let statements = graph.modules[module as usize].statements.len() as u32;
                [module, random.below(statements), record, random.below(2)]
            })
        };
        graph.entries.push(Entry { module: random.below(modules), kind: random.below(3), related });
    }
}

/// Random starts of a graph: of every kind and reason, some of them repeated, at times none.
pub fn starts(random: &mut Random, graph: &Graph) -> Vec<u32> {
    let count = match random.below(20) {
        0 => 0,
        1..=15 => random.between(1, 3),
        _ => random.between(4, 12),
    };
    let mut starts: Vec<[u32; 3]> = Vec::new();
    for _ in 0..count {
        let again = !starts.is_empty() && random.chance(15);
        let start = if again { random.pick(&starts) } else { start(random, graph) };
        starts.push(start);
    }
    starts.concat()
}

fn start(random: &mut Random, graph: &Graph) -> [u32; 3] {
    let modules = graph.modules.len() as u32;
    let normal: Vec<u32> = (0..modules).filter(|&index| graph.modules[index as usize].normal).collect();
    let symbol = random.index(graph.symbols.len()) as u32;
    let reason = if random.chance(30) { random.pick(&[1, 2, 4, 8, 16]) } else { random.between(1, 31) };
    let module = random.pick(&normal);
    match random.weighted(&[20, 25, 25, 25, 5]) {
        0 => [1, module, 0],
        1 => [2, module, random.index(graph.modules[module as usize].statements.len()) as u32],
        2 => [3, symbol, reason],
        3 => [4, symbol, reason],
        _ => [6, random.below(modules), 0],
    }
}

/// The starts with one fault or a few, though they may happen to be good still.
pub fn damaged_starts(random: &mut Random, graph: &Graph, starts: &[u32]) -> Vec<u32> {
    let mut damaged = starts.to_vec();
    while damaged.len() < 3 {
        damaged.extend(start(random, graph));
    }
    for _ in 0..random.between(1, 2) {
        let place = random.index(damaged.len());
        match random.below(10) {
            0 => {
                damaged.remove(place);
            }
            1 => damaged.insert(place, random.below(8)),
            2 => damaged.push(random.any()),
            _ => damaged[place] = other_part(random, graph, damaged[place]),
        }
    }
    damaged
}

/// A number to put into a start, near a bound of some kind.
fn other_part(random: &mut Random, graph: &Graph, part: u32) -> u32 {
    let module = random.index(graph.modules.len());
    let bounds = [
        graph.modules.len() as u32,
        graph.symbols.len() as u32,
        graph.modules[module].statements.len() as u32,
        module as u32,
        32,
        7,
        5,
        0,
        part,
    ];
    match random.below(10) {
        0 => random.any(),
        _ => random.pick(&bounds).wrapping_add(random.below(3)).wrapping_sub(1),
    }
}

/// Module and record of each record of a normal module that has a target.
fn resolved_records(graph: &Graph) -> Vec<[u32; 2]> {
    let mut found = Vec::new();
    for (index, module) in (0..).zip(&graph.modules).filter(|(_, module)| module.normal) {
        for (number, record) in (0..).zip(&module.records) {
            if record.target != 0 {
                found.push([index, number]);
            }
        }
    }
    found
}

pub fn shuffle<T>(random: &mut Random, list: &mut [T]) {
    for last in (1..list.len()).rev() {
        list.swap(last, random.index(last + 1));
    }
}

/// The graph's numbers with one fault or a few, though it may happen to be a graph still.
pub fn damaged(random: &mut Random, graph: &Encoded) -> Vec<u32> {
    let mut numbers = graph.numbers.clone();
    damage(random, graph, &mut numbers);
    while random.chance(15) {
        damage(random, graph, &mut numbers);
    }
    numbers
}

fn damage(random: &mut Random, graph: &Encoded, numbers: &mut Vec<u32>) {
    if numbers.is_empty() {
        numbers.push(random.any());
        return;
    }
    let place = random.index(numbers.len());
    match random.below(12) {
        0..=5 => numbers[place] = other_number(random, graph, place),
        6 => {
            numbers.remove(place);
        }
        7 => numbers.insert(place, numbers[place]),
        8 => {
            let other = random.index(numbers.len());
            numbers.swap(place, other);
        }
        9 => numbers.truncate(place),
        10 => numbers.extend((0..random.between(1, 3)).map(|_| random.any())),
        _ => numbers.insert(place, random.any()),
    }
}

/// A number to put at `place` instead of the one that is there.
fn other_number(random: &mut Random, graph: &Encoded, place: usize) -> u32 {
    let place = place.min(graph.numbers.len() - 1);
    let (number, limit) = (graph.numbers[place], graph.limits[place]);
    match random.below(9) {
        0 => random.any(),
        1 => 0,
        2 => limit,
        3 => limit.wrapping_add(1),
        4 => u32::MAX - random.below(3),
        5 => number.wrapping_add(1),
        6 => number.wrapping_sub(1),
        7 => random.below(limit.saturating_add(1).max(1)),
        _ => same_field(random, graph, place),
    }
}

/// The number at another place of the same field: makes repeats, wrong roots and wrong owners.
fn same_field(random: &mut Random, graph: &Encoded, place: usize) -> u32 {
    for _ in 0..100 {
        let other = random.index(graph.numbers.len());
        if other != place && graph.fields[other] == graph.fields[place] {
            return graph.numbers[other];
        }
    }
    random.any()
}

/// Numbers that look like a graph for a while: a good header, then small numbers.
pub fn noise(random: &mut Random) -> Vec<u32> {
    let mut numbers = vec![random.below(256), random.below(2)];
    numbers.extend((0..3).map(|_| random.between(1, 3)));
    numbers.extend([random.below(3), 0]);
    let largest = random.between(1, 3);
    numbers.extend((0..random.below(120)).map(|_| random.below(largest + 1)));
    numbers
}

/// The values to try at a number with this limit.
pub fn boundary_values(number: u32, limit: u32) -> [u32; 7] {
    [0, 1, limit.wrapping_sub(1), limit, limit.wrapping_add(1), u32::MAX, number.wrapping_add(1)]
}

/// The number in `width` groups, padded with empty ones; it has to fit.
pub fn padded(number: u64, width: usize) -> Vec<u8> {
    let mut groups: Vec<u8> = (0..width).map(|group| (number >> (7 * group)) as u8 | 0x80).collect();
    groups[width - 1] &= 0x7f;
    groups
}

/// How many groups the shortest form of a number takes.
pub fn shortest_width(number: u64) -> usize {
    (64 - (number | 1).leading_zeros() as usize).div_ceil(7)
}

/// A random file of up to `most` numbers, without a fault.
pub fn good_file(random: &mut Random, most: u32) -> Vec<u8> {
    let count = random.below(most + 1);
    let numbers: Vec<u32> = (0..count).map(|_| random.any()).collect();
    leb128::file_of(&numbers)
}

/// The file with a few bytes changed, or with a number in it that is padded or too large, or cut.
pub fn damaged_file(random: &mut Random, good: &[u8]) -> Vec<u8> {
    let mut file = good.to_vec();
    for _ in 0..random.between(1, 2) {
        let place = random.index(file.len() + 1);
        match random.below(8) {
            0..=2 if place < file.len() => file[place] = odd_byte(random),
            3 if place < file.len() => {
                file.remove(place);
            }
            4 => file.truncate(place),
            5 => insert(&mut file, place, &padded_number(random)),
            6 => insert(&mut file, place, &large_number(random)),
            _ => file.insert(place, odd_byte(random)),
        }
    }
    file
}

fn insert(file: &mut Vec<u8>, place: usize, bytes: &[u8]) {
    file.splice(place..place, bytes.iter().copied());
}

fn odd_byte(random: &mut Random) -> u8 {
    match random.below(3) {
        0 => random.pick(&[0x00, 0x01, 0x0f, 0x10, 0x7f, 0x80, 0x81, 0x8f, 0x90, 0xff]),
        _ => random.below(256) as u8,
    }
}

fn padded_number(random: &mut Random) -> Vec<u8> {
    let number = u64::from(random.any());
    let width = shortest_width(number) + random.index(3);
    padded(number, width)
}

fn large_number(random: &mut Random) -> Vec<u8> {
    let number = (1 << 32) + (random.next() >> random.between(31, 63)) - u64::from(random.below(2));
    padded(number, shortest_width(number))
}

/// Room to lend for a file of so many numbers.
pub fn room(random: &mut Random, count: usize) -> usize {
    match random.below(5) {
        0 => 0,
        1 => count,
        2 => count.saturating_sub(1),
        3 => count + 1,
        _ => random.index(count + 4),
    }
}
