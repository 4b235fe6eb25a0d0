//! A graph as plain structs, and its numbers. Each number is written with the name of its field and the largest value
//! that is good there, so that damage can aim at the boundary.

use crate::reference::graph::{ENTRIES, HELPERS, LIST, MODULES, STATEMENTS, SYMBOLS};

#[derive(Clone, Debug, Default)]
pub struct Graph {
    pub options: u32,
    pub runtime: u32,
    pub helpers: Vec<u32>,
    pub modules: Vec<Module>,
    pub symbols: Vec<Symbol>,
    pub entries: Vec<Entry>,
}

#[derive(Clone, Debug, Default)]
pub struct Module {
    pub normal: bool,
    pub effects: u32,
    pub exports: u32,
    pub kind: u32,
    pub flags: u32,
    pub wrap: u32,
    /// Symbol + 1.
    pub wrapper: u32,
    /// Symbol + 1.
    pub namespace: u32,
    pub reexports: u32,
    pub scan_effects: u32,
    pub scan_statements: u32,
    pub records: Vec<Record>,
    pub dependencies: Vec<u32>,
    pub named_imports: Vec<u32>,
    pub own_exports: Vec<u32>,
    pub entry_references: Vec<u32>,
    pub commonjs_export_symbols: Vec<u32>,
    /// Name, symbol, from CommonJS.
    pub resolved_exports: Vec<[u32; 3]>,
    /// Symbol, module.
    pub commonjs_namespaces: Vec<[u32; 2]>,
    /// Symbol name, member.
    pub enum_members: Vec<[u32; 2]>,
    /// Helper, statement.
    pub helpers: Vec<[u32; 2]>,
    pub statements: Vec<Statement>,
}

#[derive(Clone, Debug, Default)]
pub struct Record {
    /// Module + 1.
    pub target: u32,
    pub kind: u32,
    pub bits: u32,
}

#[derive(Clone, Debug, Default)]
pub struct Symbol {
    pub owner: u32,
    pub name: u32,
    pub root: u32,
    /// Symbol + 1.
    pub alias_namespace: u32,
    pub alias_name: u32,
    pub constant: u32,
    pub chain: Vec<u32>,
    pub declaring: Vec<u32>,
    pub written: Vec<u32>,
}

#[derive(Clone, Debug, Default)]
pub struct Statement {
    pub bits: u32,
    pub records: Vec<u32>,
    pub references: Vec<Reference>,
}

#[derive(Clone, Debug)]
pub enum Reference {
    Symbol(u32),
    Nothing,
    Resolved { symbol: u32, commonjs: u32, depended: Vec<u32> },
    Member { object: u32, write: u32, properties: u32, first: u32 },
}

#[derive(Clone, Debug, Default)]
pub struct Entry {
    pub module: u32,
    pub kind: u32,
    /// Module, statement, record, unreachable.
    pub related: Vec<[u32; 4]>,
}

/// A graph's numbers; `limits` and `fields` go along number by number.
#[derive(Clone, Debug, Default)]
pub struct Encoded {
    pub numbers: Vec<u32>,
    /// The largest good value, `u32::MAX` if all are good.
    pub limits: Vec<u32>,
    pub fields: Vec<&'static str>,
}

impl Graph {
    pub fn statement_count(&self) -> u32 {
        self.modules.iter().map(|module| module.statements.len() as u32).sum()
    }

    /// The graph's numbers alone.
    pub fn numbers(&self) -> Vec<u32> {
        self.encode().numbers
    }

    pub fn encode(&self) -> Encoded {
        let mut out = Encoded::default();
        self.encode_header(&mut out);
        let mut left = self.statement_count();
        for module in &self.modules {
            self.encode_module(module, left, &mut out);
            left -= module.statements.len() as u32;
        }
        for symbol in &self.symbols {
            self.encode_symbol(symbol, &mut out);
        }
        for module in &self.modules {
            for statement in &module.statements {
                self.encode_statement(statement, module, &mut out);
            }
        }
        for entry in &self.entries {
            self.encode_entry(entry, &mut out);
        }
        out
    }

    fn last_module(&self) -> u32 {
        self.modules.len() as u32 - 1
    }

    fn last_symbol(&self) -> u32 {
        self.symbols.len() as u32 - 1
    }

    fn encode_header(&self, out: &mut Encoded) {
        out.put("options", self.options, 255);
        out.put("runtime", self.runtime, self.last_module());
        out.put("module count", self.modules.len() as u32, MODULES);
        out.put("symbol count", self.symbols.len() as u32, SYMBOLS);
        out.put("statement count in all", self.statement_count(), STATEMENTS);
        out.put("entry count", self.entries.len() as u32, ENTRIES);
        out.put("helper count", self.helpers.len() as u32, HELPERS);
        for &symbol in &self.helpers {
            out.put("helper symbol", symbol, self.last_symbol());
        }
    }

    fn encode_module(&self, module: &Module, statements_left: u32, out: &mut Encoded) {
        let (modules, symbols) = (self.modules.len() as u32, self.symbols.len() as u32);
        let if_normal = |limit| if module.normal { limit } else { 0 };
        out.put("module kind", u32::from(module.normal), 1);
        out.put("effects", module.effects, 4);
        out.put("exports", module.exports, 2);
        out.put("type", module.kind, 3);
        out.put("flags", module.flags, 63);
        out.put("wrap", module.wrap, 2);
        out.put("wrapper", module.wrapper, symbols);
        out.put("namespace", module.namespace, if_normal(symbols));
        out.put("re-export count", module.reexports, u32::MAX);
        out.put("statement count", module.statements.len() as u32, if_normal(statements_left));
        out.put("scan effects", module.scan_effects, 4);
        out.put("scan statement count", module.scan_statements, u32::MAX);
        out.put_count("record count", module.records.len());
        for record in &module.records {
            out.put("record target", record.target, modules);
            out.put("record kind", record.kind, 2);
            out.put("record bits", record.bits, 3);
        }
        out.put_list(["dependency count", "dependency"], &module.dependencies, modules - 1);
        out.put_list(["named import count", "named import"], &module.named_imports, symbols - 1);
        out.put_list(["own export count", "own export"], &module.own_exports, symbols - 1);
        out.put_list(["entry reference count", "entry reference"], &module.entry_references, symbols - 1);
        out.put_list(["K5 count", "K5 symbol"], &module.commonjs_export_symbols, symbols - 1);
        out.put_count("resolved export count", module.resolved_exports.len());
        for &[name, symbol, from_commonjs] in &module.resolved_exports {
            out.put("resolved export name", name, u32::MAX);
            out.put("resolved export symbol", symbol, symbols - 1);
            out.put("from CommonJS", from_commonjs, 1);
        }
        out.put_count("CommonJS namespace count", module.commonjs_namespaces.len());
        for &[symbol, target] in &module.commonjs_namespaces {
            out.put("CommonJS namespace symbol", symbol, symbols - 1);
            out.put("CommonJS namespace module", target, modules - 1);
        }
        out.put_count("enum member count", module.enum_members.len());
        for &[name, member] in &module.enum_members {
            out.put("enum name", name, u32::MAX);
            out.put("enum member", member, u32::MAX);
        }
        out.put_count("module helper count", module.helpers.len());
        for &[helper, statement] in &module.helpers {
            out.put("module helper", helper, self.helpers.len() as u32 - 1);
            out.put("helper statement", statement, module.statements.len() as u32 - 1);
        }
    }

    fn encode_symbol(&self, symbol: &Symbol, out: &mut Encoded) {
        let owner = &self.modules[symbol.owner as usize];
        let last_statement = (owner.statements.len() as u32).wrapping_sub(1);
        let count_limit = if owner.normal { LIST } else { 0 };
        out.put("owner", symbol.owner, self.last_module());
        out.put("symbol name", symbol.name, u32::MAX);
        out.put("root", symbol.root, self.last_symbol());
        out.put("alias namespace", symbol.alias_namespace, self.symbols.len() as u32);
        out.put("alias name", symbol.alias_name, u32::MAX);
        out.put("constant", symbol.constant, 7);
        out.put_list(["chain count", "chain symbol"], &symbol.chain, self.last_symbol());
        out.put("declaring count", symbol.declaring.len() as u32, count_limit);
        for &statement in &symbol.declaring {
            out.put("declaring statement", statement, last_statement);
        }
        out.put("written count", symbol.written.len() as u32, count_limit);
        for &statement in &symbol.written {
            out.put("written statement", statement, last_statement);
        }
    }

    fn encode_statement(&self, statement: &Statement, module: &Module, out: &mut Encoded) {
        out.put("statement bits", statement.bits, 31);
        out.put_count("statement record count", statement.records.len());
        for &record in &statement.records {
            out.put("statement record", record, module.records.len() as u32 - 1);
        }
        out.put_count("reference count", statement.references.len());
        for reference in &statement.references {
            self.encode_reference(reference, out);
        }
    }

    fn encode_reference(&self, reference: &Reference, out: &mut Encoded) {
        match reference {
            Reference::Symbol(symbol) => {
                out.put("reference kind", 0, 3);
                out.put("reference symbol", *symbol, self.last_symbol());
            }
            Reference::Nothing => out.put("reference kind", 1, 3),
            Reference::Resolved { symbol, commonjs, depended } => {
                out.put("reference kind", 2, 3);
                out.put("resolved symbol", *symbol, self.last_symbol());
                out.put("CommonJS target", *commonjs, 1);
                out.put_list(["depended count", "depended symbol"], depended, self.last_symbol());
            }
            Reference::Member { object, write, properties, first } => {
                out.put("reference kind", 3, 3);
                out.put("object", *object, self.last_symbol());
                out.put("write", *write, 1);
                out.put("property count", *properties, u32::MAX);
                out.put("first property", *first, u32::MAX);
            }
        }
    }

    fn encode_entry(&self, entry: &Entry, out: &mut Encoded) {
        out.put("entry module", entry.module, self.last_module());
        out.put("entry kind", entry.kind, 2);
        out.put_count("related count", entry.related.len());
        for &[module, statement, record, unreachable] in &entry.related {
            let owner = &self.modules[module as usize];
            out.put("related module", module, self.last_module());
            out.put("related statement", statement, owner.statements.len() as u32 - 1);
            out.put("related record", record, owner.records.len() as u32 - 1);
            out.put("unreachable", unreachable, 1);
        }
    }
}

impl Encoded {
    fn put(&mut self, field: &'static str, number: u32, limit: u32) {
        self.numbers.push(number);
        self.limits.push(limit);
        self.fields.push(field);
    }

    fn put_count(&mut self, field: &'static str, count: usize) {
        self.put(field, count as u32, LIST);
    }

    fn put_list(&mut self, [count, element]: [&'static str; 2], list: &[u32], limit: u32) {
        self.put_count(count, list.len());
        for &number in list {
            self.put(element, number, limit);
        }
    }
}
