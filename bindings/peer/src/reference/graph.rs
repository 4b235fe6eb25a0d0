//! The check of a graph: one walk from the left, then the rules that read a later number.

use super::seen::Seen;
use crate::Refused;

pub const MODULES: u32 = 1_024;
pub const SYMBOLS: u32 = 16_384;
pub const STATEMENTS: u32 = 16_384;
pub const ENTRIES: u32 = 1_024;
pub const HELPERS: u32 = 32;
pub const LIST: u32 = 16_384;

type Checked<T = ()> = Result<T, Refused>;

/// The first fault of `numbers`, if they are no graph.
pub fn check(numbers: &[u32]) -> Checked {
    let mut walk = Walk { cursor: Cursor { numbers, at: 0 }, header: Header::read_later(), tables: Tables::default() };
    walk.header()?;
    walk.modules()?;
    walk.symbols()?;
    walk.statements()?;
    walk.entries()?;
    walk.later_rules()?;
    walk.cursor.end()
}

/// The place in the numbers where the walk is.
struct Cursor<'a> {
    numbers: &'a [u32],
    at: usize,
}

impl Cursor<'_> {
    /// The next number, whatever it is.
    #[inline]
    fn next(&mut self) -> Checked<u32> {
        match self.numbers.get(self.at) {
            Some(&number) => {
                self.at += 1;
                Ok(number)
            }
            None => Err(refused(4, self.at)),
        }
    }

    /// The next number, which has to be below `bound`.
    #[inline]
    fn below(&mut self, bound: u32) -> Checked<u32> {
        let number = self.next()?;
        self.require(number < bound)?;
        Ok(number)
    }

    /// The next number, which has to be `last` or less.
    #[inline]
    fn up_to(&mut self, last: u32) -> Checked<u32> {
        let number = self.next()?;
        self.require(number <= last)?;
        Ok(number)
    }

    /// The next number, a count with a limit of its own.
    #[inline]
    fn count(&mut self, limit: u32) -> Checked<u32> {
        let number = self.next()?;
        if number > limit {
            return Err(refused(2, self.at - 1));
        }
        Ok(number)
    }

    /// A list of single numbers, each below `bound`.
    #[inline]
    fn list_below(&mut self, bound: u32) -> Checked {
        for _ in 0..self.count(LIST)? {
            self.below(bound)?;
        }
        Ok(())
    }

    /// Refuses the number just read unless `good`.
    #[inline]
    fn require(&self, good: bool) -> Checked {
        if good {
            Ok(())
        } else {
            Err(refused(3, self.at - 1))
        }
    }

    /// Nothing may be left over.
    fn end(&self) -> Checked {
        if self.at < self.numbers.len() {
            return Err(refused(4, self.at));
        }
        Ok(())
    }
}

#[cold]
fn refused(number: u32, place: usize) -> Refused {
    Refused { number, place: place as u64 }
}

/// What the rest of the walk needs from the header.
struct Header {
    runtime: u32,
    modules: u32,
    symbols: u32,
    statements: u32,
    entries: u32,
    helpers: u32,
}

impl Header {
    fn read_later() -> Header {
        Header { runtime: 0, modules: 0, symbols: 0, statements: 0, entries: 0, helpers: 0 }
    }
}

/// What later parts need from the modules and the symbols.
#[derive(Default)]
struct Tables {
    modules: Vec<Module>,
    symbols: Vec<Symbol>,
    names: Seen,
    namespaces: Seen,
}

struct Module {
    normal: bool,
    /// The namespace symbol + 1, and its place.
    namespace: u32,
    namespace_place: usize,
    statements: u32,
    records: u32,
    /// Where the first record stands; a record is three numbers.
    first_record: usize,
}

struct Symbol {
    owner: u32,
    root: u32,
    root_place: usize,
}

struct Walk<'a> {
    cursor: Cursor<'a>,
    header: Header,
    tables: Tables,
}

impl Walk<'_> {
    fn header(&mut self) -> Checked {
        let cursor = &mut self.cursor;
        cursor.below(256)?; // options
        let runtime = cursor.next()?;
        let modules = count_from_one(cursor, MODULES)?;
        let symbols = count_from_one(cursor, SYMBOLS)?;
        let statements = count_from_one(cursor, STATEMENTS)?;
        let entries = cursor.count(ENTRIES)?;
        let helpers = cursor.count(HELPERS)?;
        for _ in 0..helpers {
            cursor.below(symbols)?;
        }
        self.header = Header { runtime, modules, symbols, statements, entries, helpers };
        Ok(())
    }

    fn modules(&mut self) -> Checked {
        self.tables.modules.reserve_exact(self.header.modules as usize);
        let mut statements_left = self.header.statements;
        for index in 0..self.header.modules {
            let last = index + 1 == self.header.modules;
            let module = self.module_numbers(&mut statements_left, last)?;
            self.module_lists(module)?;
        }
        Ok(())
    }

    /// The twelve numbers that a module begins with. `statements_left` are those that no earlier module has.
    fn module_numbers(&mut self, statements_left: &mut u32, last: bool) -> Checked<Module> {
        let cursor = &mut self.cursor;
        let symbols = self.header.symbols;
        let normal = cursor.up_to(1)? == 1;
        cursor.up_to(4)?; // effects
        cursor.up_to(2)?; // exports
        cursor.up_to(3)?; // type
        cursor.below(64)?; // flags
        cursor.up_to(2)?; // wrap
        cursor.up_to(symbols)?; // wrapper + 1
        let namespace = cursor.up_to(symbols)?;
        cursor.require(normal == (namespace != 0))?;
        let namespace_place = cursor.at - 1;
        cursor.next()?; // CommonJS re-export count
        let statements = cursor.up_to(*statements_left)?;
        cursor.require(normal == (statements != 0))?;
        *statements_left -= statements;
        cursor.require(!last || *statements_left == 0)?;
        cursor.up_to(4)?; // scan effects
        cursor.next()?; // scan statement count
        Ok(Module { normal, namespace, namespace_place, statements, records: 0, first_record: 0 })
    }

    /// The ten lists of a module.
    fn module_lists(&mut self, mut module: Module) -> Checked {
        let cursor = &mut self.cursor;
        let Header { modules, symbols, helpers, .. } = self.header;
        module.records = cursor.count(LIST)?;
        module.first_record = cursor.at;
        for _ in 0..module.records {
            cursor.up_to(modules)?; // target + 1
            cursor.up_to(2)?; // kind
            cursor.up_to(3)?; // bits
        }
        cursor.list_below(modules)?; // dependencies
        cursor.list_below(symbols)?; // named imports
        cursor.list_below(symbols)?; // own exports
        cursor.list_below(symbols)?; // entry references
        cursor.list_below(symbols)?; // K5 symbols
        resolved_exports(cursor, &mut self.tables.names, symbols)?;
        commonjs_namespaces(cursor, &mut self.tables.namespaces, symbols, modules)?;
        for _ in 0..cursor.count(LIST)? {
            cursor.next()?; // enum's symbol name
            cursor.next()?; // member
        }
        for _ in 0..cursor.count(LIST)? {
            cursor.below(helpers)?;
            cursor.below(module.statements)?;
        }
        self.tables.modules.push(module);
        Ok(())
    }

    fn symbols(&mut self) -> Checked {
        let cursor = &mut self.cursor;
        let Header { modules, symbols, .. } = self.header;
        let table = &mut self.tables.symbols;
        table.reserve_exact(symbols as usize);
        for _ in 0..symbols {
            let owner = cursor.below(modules)?;
            cursor.next()?; // name
            let root = cursor.below(symbols)?;
            table.push(Symbol { owner, root, root_place: cursor.at - 1 });
            cursor.up_to(symbols)?; // alias namespace + 1
            cursor.next()?; // alias name
            cursor.up_to(7)?; // constant bits
            cursor.list_below(symbols)?; // export chain
            let statements = self.tables.modules[owner as usize].statements;
            owner_statements(cursor, statements)?; // declaring
            owner_statements(cursor, statements)?; // written-property
        }
        Ok(())
    }

    fn statements(&mut self) -> Checked {
        for index in 0..self.tables.modules.len() {
            let Module { statements, records, .. } = self.tables.modules[index];
            for _ in 0..statements {
                self.cursor.up_to(31)?; // bits
                self.cursor.list_below(records)?;
                for _ in 0..self.cursor.count(LIST)? {
                    reference(&mut self.cursor, self.header.symbols)?;
                }
            }
        }
        Ok(())
    }

    fn entries(&mut self) -> Checked {
        for _ in 0..self.header.entries {
            self.cursor.below(self.header.modules)?;
            self.cursor.up_to(2)?; // kind
            for _ in 0..self.cursor.count(LIST)? {
                self.related()?;
            }
        }
        Ok(())
    }

    /// A related statement: module, statement, record, unreachable.
    fn related(&mut self) -> Checked {
        let cursor = &mut self.cursor;
        let index = cursor.below(self.header.modules)?;
        let module = &self.tables.modules[index as usize];
        cursor.require(module.normal)?;
        cursor.below(module.statements)?;
        let record = cursor.below(module.records)?;
        let target = cursor.numbers[module.first_record + 3 * record as usize];
        cursor.require(target != 0)?;
        cursor.up_to(1)?;
        Ok(())
    }

    /// The rules that read a later number, by the place of the earlier one: runtime, namespace owners, roots.
    fn later_rules(&self) -> Checked {
        let Tables { modules, symbols, .. } = &self.tables;
        if !modules.get(self.header.runtime as usize).is_some_and(|module| module.normal) {
            return Err(refused(3, 1));
        }
        for (index, module) in modules.iter().enumerate() {
            if module.normal && symbols[module.namespace as usize - 1].owner as usize != index {
                return Err(refused(3, module.namespace_place));
            }
        }
        for symbol in symbols {
            if symbols[symbol.root as usize].root != symbol.root {
                return Err(refused(3, symbol.root_place));
            }
        }
        Ok(())
    }
}

/// A count that may not be 0.
fn count_from_one(cursor: &mut Cursor, limit: u32) -> Checked<u32> {
    let count = cursor.count(limit)?;
    cursor.require(count != 0)?;
    Ok(count)
}

/// Names in this list don't repeat.
fn resolved_exports(cursor: &mut Cursor, names: &mut Seen, symbols: u32) -> Checked {
    let count = cursor.count(LIST)?;
    names.start(count as usize);
    for _ in 0..count {
        let name = cursor.next()?;
        cursor.require(names.insert(name))?;
        cursor.below(symbols)?;
        cursor.up_to(1)?; // from CommonJS
    }
    Ok(())
}

/// Symbols in this list don't repeat.
fn commonjs_namespaces(cursor: &mut Cursor, seen: &mut Seen, symbols: u32, modules: u32) -> Checked {
    let count = cursor.count(LIST)?;
    seen.start(count as usize);
    for _ in 0..count {
        let symbol = cursor.below(symbols)?;
        cursor.require(seen.insert(symbol))?;
        cursor.below(modules)?;
    }
    Ok(())
}

/// Statements of a symbol's owner; an external owner has none.
fn owner_statements(cursor: &mut Cursor, statements: u32) -> Checked {
    let count = cursor.count(LIST)?;
    cursor.require(count == 0 || statements != 0)?;
    for _ in 0..count {
        cursor.below(statements)?;
    }
    Ok(())
}

/// One of a statement's references.
fn reference(cursor: &mut Cursor, symbols: u32) -> Checked {
    match cursor.up_to(3)? {
        0 => {
            cursor.below(symbols)?;
        }
        1 => {}
        2 => {
            cursor.below(symbols)?;
            cursor.up_to(1)?; // CommonJS target
            cursor.list_below(symbols)?; // depended
        }
        _ => {
            cursor.below(symbols)?; // object
            cursor.up_to(1)?; // write
            cursor.next()?; // property count
            cursor.next()?; // first property
        }
    }
    Ok(())
}
