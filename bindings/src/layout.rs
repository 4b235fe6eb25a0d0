//! Which field of a graph a number of its file is, and what that number has to be (docs/GRAPH.md).

use crate::graph::Part;
use crate::ids::{EntryId, ModuleId, StatementId, SymbolId};
use alloc::borrow::ToOwned;
use alloc::format;
use alloc::string::String;
use alloc::vec::Vec;

/// A number of the file: the field of the builder, and what it has to be.
pub(crate) type Column = (&'static str, &'static str);
/// A list of the file: the field, and the numbers of an element.
pub(crate) type List = (&'static str, &'static [Column]);

const MODULE: &str = "a module of the graph";
const SYMBOL: &str = "a symbol of the graph";
const STATEMENT: &str = "a statement of that module";
const ANY: &str = "a number below 2^32";
const FLAG: &str = "0 or 1";
const LIST: &str = "at most 16,384 long";
const OWNED_LIST: &str = "at most 16,384 long, and empty if the symbol's owner is external";

const HEADER: [Column; 6] = [
    ("options", "bits 0 to 7"),
    ("runtime", "a normal module of the graph"),
    ("modules", "1 to 1,024 long"),
    ("symbols", "1 to 16,384 long"),
    ("statements", "1 to 16,384 long, in all modules together"),
    ("entries", "at most 1,024 long"),
];
const HELPERS: &str = "at most 32 long";

const MODULE_HEAD: [Column; 12] = [
    ("kind", "0 external or 1 normal"),
    ("side_effects", "0 to 4"),
    ("exports_kind", "0 to 2"),
    ("module_type", "0 to 3"),
    ("flags", "bits 0 to 5"),
    ("wrap_kind", "0 to 2"),
    ("wrapper", "none, or a symbol of the graph"),
    ("namespace", "a symbol that a normal module owns itself; none for an external one"),
    ("cjs_reexport_count", ANY),
    ("statements", "at least one for a normal module, none for an external one, and together as many as the graph has"),
    ("scan.side_effects", "0 to 4"),
    ("scan.statement_count", ANY),
];
pub(crate) const MODULE_LISTS: [List; 10] = [
    ("import_records", &[("target", "none, or a module of the graph"), ("kind", "0 to 2"), ("flags", "bits 0 and 1")]),
    ("dependencies", &[("", MODULE)]),
    ("named_imports", &[("", SYMBOL)]),
    ("own_exports", &[("", SYMBOL)]),
    ("entry_references", &[("", SYMBOL)]),
    ("commonjs_export_symbols", &[("", SYMBOL)]),
    (
        "resolved_exports",
        &[("name", "a name that no earlier one of the list has"), ("symbol", SYMBOL), ("from_commonjs", FLAG)],
    ),
    (
        "commonjs_namespaces",
        &[("symbol", "a symbol of the graph that no earlier one of the list has"), ("module", MODULE)],
    ),
    ("enum_members", &[("symbol", ANY), ("member", ANY)]),
    ("helpers", &[("helper", "a helper of the graph"), ("statement", STATEMENT)]),
];
const SYMBOL_HEAD: [Column; 6] = [
    ("owner", MODULE),
    ("name", ANY),
    ("root", "a symbol of the graph that is its own root"),
    ("alias_namespace", "none, or a symbol of the graph"),
    ("alias_name", ANY),
    ("constant", "bits 0 to 2"),
];
const EXPORT_CHAIN: List = ("export_chain", &[("", SYMBOL)]);
const OWNED_LISTS: [List; 2] = [
    ("declared_by", &[("", "a statement of the symbol's owner")]),
    ("properties_written_by", &[("", "a statement of the symbol's owner")]),
];
const STATEMENT_RECORDS: List = ("import_records", &[("", "an import record of that module")]);
const ENTRY_HEAD: [Column; 2] = [("module", MODULE), ("kind", "0 to 2")];
const RELATED: List = (
    "related",
    &[
        ("statement", "a statement of a normal module"),
        ("statement", STATEMENT),
        ("record", "a resolved import record of that module"),
        ("is_unreachable", FLAG),
    ],
);

/// Which field a number is.
pub(crate) struct Found {
    pub(crate) part: Part,
    /// The field of the builder, as `resolved_exports[1].name`.
    pub(crate) path: String,
    /// What it has to be.
    pub(crate) wants: &'static str,
}

/// The field of the number at a place. All numbers in front of it have to be good; none if it is behind the graph.
pub(crate) fn field_at(numbers: &[u32], place: usize) -> Option<Found> {
    let mut walk = Walk { numbers, at: 0, place, found: None };
    walk.graph();
    walk.found
}

struct Walk<'a> {
    numbers: &'a [u32],
    at: usize,
    place: usize,
    found: Option<Found>,
}

impl Walk<'_> {
    /// The next number; none, and the walk is over, if it is the one looked for or is absent.
    fn number(&mut self, part: Part, wants: &'static str, path: impl FnOnce() -> String) -> Option<u32> {
        if self.at == self.place {
            self.found = Some(Found { part, path: path(), wants });
            return None;
        }
        let number = self.numbers.get(self.at).copied();
        self.at += 1;
        number
    }

    fn head<const COUNT: usize>(&mut self, part: Part, columns: &[Column; COUNT]) -> Option<[u32; COUNT]> {
        let mut numbers = [0; COUNT];
        for (number, &(name, wants)) in numbers.iter_mut().zip(columns) {
            *number = self.number(part, wants, || name.to_owned())?;
        }
        Some(numbers)
    }

    fn list(&mut self, part: Part, list: List) -> Option<()> {
        self.list_that(LIST, part, list)
    }

    /// A list whose length has to be something.
    fn list_that(&mut self, wants: &'static str, part: Part, (name, columns): List) -> Option<()> {
        for element in 0..self.number(part, wants, || name.to_owned())? {
            for &(column, wants) in columns {
                let dot = if column.is_empty() { "" } else { "." };
                self.number(part, wants, || format!("{name}[{element}]{dot}{column}"))?;
            }
        }
        Some(())
    }

    fn graph(&mut self) -> Option<()> {
        let [_, _, modules, symbols, _, entries] = self.head(Part::Header, &HEADER)?;
        for helper in 0..self.number(Part::Header, HELPERS, || "helpers".to_owned())? {
            self.number(Part::Header, SYMBOL, || format!("helpers[{helper}]"))?;
        }
        let mut statements = Vec::new();
        for module in 0..modules {
            let part = Part::Module(ModuleId::new(module));
            statements.push(self.head(part, &MODULE_HEAD)?[9]);
            MODULE_LISTS.iter().try_for_each(|&list| self.list(part, list))?;
        }
        for symbol in 0..symbols {
            let part = Part::Symbol(SymbolId::new(symbol));
            self.head(part, &SYMBOL_HEAD)?;
            self.list(part, EXPORT_CHAIN)?;
            OWNED_LISTS.iter().try_for_each(|&list| self.list_that(OWNED_LIST, part, list))?;
        }
        for (module, count) in (0..).zip(statements) {
            (0..count).try_for_each(|index| self.statement(StatementId::new(ModuleId::new(module), index)))?;
        }
        for entry in 0..entries {
            let part = Part::Entry(EntryId::new(entry));
            self.head(part, &ENTRY_HEAD)?;
            self.list(part, RELATED)?;
        }
        Some(())
    }

    fn statement(&mut self, id: StatementId) -> Option<()> {
        let part = Part::Statement(id);
        self.number(part, "bits 0 to 4", || "flags".to_owned())?;
        self.list(part, STATEMENT_RECORDS)?;
        for index in 0..self.number(part, LIST, || "references".to_owned())? {
            self.reference(part, index)?;
        }
        Some(())
    }

    fn reference(&mut self, part: Part, index: u32) -> Option<()> {
        let path = |field: &str| format!("references[{index}]{field}");
        match self.number(part, "0 to 3", || path(""))? {
            0 => {
                self.number(part, SYMBOL, || path(".symbol"))?;
            }
            1 => {}
            2 => {
                self.number(part, SYMBOL, || path(".symbol"))?;
                self.number(part, FLAG, || path(".is_commonjs_export"))?;
                for depended in 0..self.number(part, LIST, || path(".depended"))? {
                    self.number(part, SYMBOL, || path(&format!(".depended[{depended}]")))?;
                }
            }
            _ => {
                self.number(part, SYMBOL, || path(".object"))?;
                self.number(part, FLAG, || path(".is_write"))?;
                self.number(part, ANY, || path(".property_count"))?;
                self.number(part, ANY, || path(".first_property"))?;
            }
        }
        Some(())
    }
}
