//! A graph of modules, symbols, statements and entries, built with typed ids.

use crate::ids::{EntryId, HelperId, ImportRecordId, ModuleId, Name, StatementId, SymbolId};
use alloc::borrow::ToOwned;
use alloc::collections::{BTreeMap, BTreeSet};
use alloc::format;
use alloc::string::String;
use alloc::vec::Vec;
use core::fmt;
use core::ops::{Index, IndexMut};

/// The verdict on a module's side effects.
///
/// ```
/// use lizdakk::SideEffects;
///
/// assert!(SideEffects::UserDefined(true).has_side_effects());
/// assert!(!SideEffects::Analyzed(false).has_side_effects());
/// assert!(SideEffects::NoTreeshake.has_side_effects());
/// ```
#[derive(Clone, Copy, Debug, PartialEq, Eq, Hash)]
pub enum SideEffects {
    /// Found by looking at the code. `Analyzed(false)` may become `Analyzed(true)` by what the module imports.
    Analyzed(bool),
    /// Said by the user, as by `sideEffects` of a package. Stays as it is.
    UserDefined(bool),
    /// Nothing is to be dropped from the module.
    NoTreeshake,
}

impl SideEffects {
    /// Whether evaluating the module may be noticed.
    ///
    /// ```
    /// assert!(lizdakk::SideEffects::Analyzed(true).has_side_effects());
    /// ```
    pub const fn has_side_effects(self) -> bool {
        matches!(self, SideEffects::Analyzed(true) | SideEffects::UserDefined(true) | SideEffects::NoTreeshake)
    }
}

/// How a module exports.
///
/// ```
/// let mut graph = lizdakk::Graph::new();
/// let module = graph.module("legacy.cjs");
/// graph[module].exports_kind = lizdakk::ExportsKind::CommonJs;
/// ```
#[derive(Clone, Copy, Debug, PartialEq, Eq, Hash)]
pub enum ExportsKind {
    /// An ES module.
    Esm,
    /// A CommonJS module.
    CommonJs,
    /// Neither.
    Other,
}

/// What a module is written in.
///
/// ```
/// let mut graph = lizdakk::Graph::new();
/// let module = graph.module("package.json");
/// graph[module].module_type = lizdakk::ModuleType::Json;
/// ```
#[derive(Clone, Copy, Debug, PartialEq, Eq, Hash)]
pub enum ModuleType {
    /// JavaScript.
    Js,
    /// JavaScript with JSX.
    Jsx,
    /// JSON.
    Json,
    /// Anything else.
    Other,
}

/// How a module is wrapped, so that it is evaluated when it is asked for.
///
/// ```
/// let mut graph = lizdakk::Graph::new();
/// let module = graph.module("cycle.js");
/// let wrapper = graph.symbol(module, "init_cycle");
/// graph[module].wrap_kind = lizdakk::WrapKind::Esm;
/// graph[module].wrapper = Some(wrapper);
/// ```
#[derive(Clone, Copy, Debug, PartialEq, Eq, Hash)]
pub enum WrapKind {
    /// Not wrapped.
    None,
    /// Wrapped as a CommonJS module.
    Cjs,
    /// Wrapped as an ES module.
    Esm,
}

/// How a module is imported.
///
/// ```
/// use lizdakk::{Graph, ImportKind};
///
/// let mut graph = Graph::new();
/// let (main, legacy) = (graph.module("main.js"), graph.module("legacy.cjs"));
/// let statement = graph.statement(main);
/// let record = graph.import_record(statement, ImportKind::Require, Some(legacy));
/// assert_eq!(graph[record].kind, ImportKind::Require);
/// ```
#[derive(Clone, Copy, Debug, PartialEq, Eq, Hash)]
pub enum ImportKind {
    /// `import .. from ..`, `export .. from ..`.
    Import,
    /// `require(..)`, or any other kind.
    Require,
    /// `import(..)`.
    Dynamic,
}

/// Who began an entry.
///
/// ```
/// use lizdakk::{EntryKind, Graph};
///
/// let mut graph = Graph::new();
/// let main = graph.module("main.js");
/// let entry = graph.entry(main);
/// assert_eq!(graph[entry].kind, EntryKind::UserDefined);
/// ```
#[derive(Clone, Copy, Debug, PartialEq, Eq, Hash)]
pub enum EntryKind {
    /// The user, in the options.
    UserDefined,
    /// A plugin, by emitting it.
    EmittedUserDefined,
    /// An `import()`.
    DynamicImport,
}

/// The options that the decision depends on. By default modules are shaken, code is split, and the rest is off.
///
/// ```
/// let mut graph = lizdakk::Graph::new();
/// graph.options.commonjs = true;
/// assert!(graph.options.treeshake);
/// ```
#[derive(Clone, Copy, Debug, PartialEq, Eq, Hash)]
#[non_exhaustive]
pub struct Options {
    /// Statements that nothing asks for are dropped.
    pub treeshake: bool,
    /// A constant is put in place of its uses only where that is safe; otherwise wherever it is known.
    pub inline_const_smart: bool,
    /// CommonJS modules are shaken too.
    pub commonjs: bool,
    /// Writing a property is a side effect. If not, such a statement is kept where the object is used.
    pub property_write_side_effects: bool,
    /// Dev mode: namespaces of ES modules are registered.
    pub dev_mode: bool,
    /// Dynamic entries get files of their own.
    pub code_splitting: bool,
    /// Dead imports are worked out after the last round, by what is live and kept then. If not, they are all that some
    /// round marked, also where the entry came alive in a later one. Nothing else depends on it
    /// ([`Kept::is_dead`](crate::Kept::is_dead)).
    pub dead_imports_at_end: bool,
    /// Rounds go on until nothing moves: until one gives no new fact, finds no further dynamic entry live and leaves no
    /// CommonJS module bailed out whose exports no round has used. If not, they end with the first one that keeps no
    /// further module, as in rolldown, which has no such option. Then an entry can stay dead that one more round would
    /// find live; [`Kept::rounds`](crate::Kept::rounds) has an example.
    ///
    /// It is for bundlers that lose an `import()` so, of a plugin say, or that want an answer which does not depend on the
    /// order of the dynamic entries: as long as the same modules are on cycles of dynamic imports, the same is kept and
    /// live in each order. Nothing that is kept without it is lost. Both hold for what is decided before the runtime
    /// stage. A run takes a round more at times, or several.
    pub settle: bool,
}

impl Default for Options {
    fn default() -> Options {
        Options {
            treeshake: true,
            inline_const_smart: false,
            commonjs: false,
            property_write_side_effects: true,
            dev_mode: false,
            code_splitting: true,
            dead_imports_at_end: false,
            settle: false,
        }
    }
}

/// What the scan of a module found, before later stages changed it.
///
/// ```
/// use lizdakk::{Graph, Scan, SideEffects};
///
/// let mut graph = Graph::new();
/// let module = graph.module("barrel.js");
/// graph[module].scan = Some(Scan { side_effects: SideEffects::Analyzed(true), statement_count: 1 });
/// ```
#[derive(Clone, Copy, Debug, PartialEq, Eq, Hash)]
pub struct Scan {
    /// The verdict at the scan.
    pub side_effects: SideEffects,
    /// How many statements the module had then.
    pub statement_count: u32,
}

/// An export of a module as linking resolved it.
///
/// ```
/// use lizdakk::{Graph, ResolvedExport};
///
/// let mut graph = Graph::new();
/// let module = graph.module("legacy.cjs");
/// let (name, symbol) = (graph.name("run"), graph.symbol(module, "run"));
/// graph[module].resolved_exports.push(ResolvedExport { name, symbol, from_commonjs: true });
/// ```
#[derive(Clone, Copy, Debug, PartialEq, Eq, Hash)]
pub struct ResolvedExport {
    /// The export's name; no two of a module may be the same.
    pub name: Name,
    /// What it stands for.
    pub symbol: SymbolId,
    /// Whether it comes from a CommonJS module.
    pub from_commonjs: bool,
}

/// A symbol by which a module holds the namespace of a CommonJS module.
///
/// ```
/// use lizdakk::{CommonJsNamespace, Graph};
///
/// let mut graph = Graph::new();
/// let (main, legacy) = (graph.module("main.js"), graph.module("legacy.cjs"));
/// let symbol = graph.symbol(main, "import_legacy");
/// graph[main].commonjs_namespaces.push(CommonJsNamespace { symbol, module: legacy });
/// ```
#[derive(Clone, Copy, Debug, PartialEq, Eq, Hash)]
pub struct CommonJsNamespace {
    /// The symbol; no two of a module may be the same.
    pub symbol: SymbolId,
    /// The CommonJS module.
    pub module: ModuleId,
}

/// A member of an enum whose value is known.
///
/// ```
/// use lizdakk::{EnumMember, Graph};
///
/// let mut graph = Graph::new();
/// let module = graph.module("colours.ts");
/// let (symbol, member) = (graph.name("Colour"), graph.name("Red"));
/// graph[module].enum_members.push(EnumMember { symbol, member });
/// ```
#[derive(Clone, Copy, Debug, PartialEq, Eq, Hash)]
pub struct EnumMember {
    /// The name of the enum's symbol.
    pub symbol: Name,
    /// The name of the member.
    pub member: Name,
}

/// A helper of the runtime that a statement needs.
///
/// ```
/// use lizdakk::{Graph, HelperUse};
///
/// let mut graph = Graph::new();
/// let runtime = graph.runtime();
/// let to_commonjs = graph.symbol(runtime, "__toCommonJS");
/// let helper = graph.helper(to_commonjs);
/// let main = graph.module("main.js");
/// let statement = graph.statement(main);
/// graph[main].helpers.push(HelperUse { helper, statement });
/// ```
#[derive(Clone, Copy, Debug, PartialEq, Eq, Hash)]
pub struct HelperUse {
    /// The helper.
    pub helper: HelperId,
    /// The statement, of the same module.
    pub statement: StatementId,
}

/// An import of a module.
///
/// ```
/// use lizdakk::Graph;
///
/// let mut graph = Graph::new();
/// let (main, lazy) = (graph.module("main.js"), graph.module("lazy.js"));
/// let statement = graph.statement(main);
/// let import = graph.dynamic_import(statement, lazy);
/// graph[import.record].is_top_level_pure = true;
/// assert_eq!(graph[import.record].target, Some(lazy));
/// ```
#[derive(Clone, Debug, PartialEq, Eq, Hash)]
pub struct ImportRecord {
    /// The module it leads to; `None` if it was not resolved.
    pub target: Option<ModuleId>,
    /// How it is imported.
    pub kind: ImportKind,
    /// It is an `export * from ..`.
    pub is_export_star: bool,
    /// It is an `import()` at the top level of its module whose value nothing looks at.
    pub is_top_level_pure: bool,
}

/// A module of a graph. [`Graph::module`] makes a normal one, [`Graph::external`] an external one; both are reached by
/// `graph[module]`. Lists are in the order in which the engine goes through them.
///
/// ```
/// use lizdakk::{Graph, SideEffects};
///
/// let mut graph = Graph::new();
/// let polyfill = graph.module("polyfill.js");
/// graph[polyfill].side_effects = Some(SideEffects::UserDefined(true));
/// assert!(graph[polyfill].is_normal());
/// ```
#[derive(Clone, Debug, PartialEq, Eq)]
pub struct Module {
    pub(crate) label: String,
    pub(crate) normal: bool,
    /// Its verdict, before imports are looked at. `None`, the default of a normal module: as its statements say,
    /// `Analyzed(true)` if one of them has a side effect. An external module is `UserDefined(true)` by default, so that
    /// nothing is lost by it.
    pub side_effects: Option<SideEffects>,
    /// How it exports. By default `Esm`.
    pub exports_kind: ExportsKind,
    /// What it is written in. By default `Js`.
    pub module_type: ModuleType,
    /// It calls `eval` directly.
    pub has_eval: bool,
    /// A CommonJS module of which single exports can be dropped.
    pub safely_treeshake_commonjs: bool,
    /// It is a CommonJS re-export: its statements bail no module out unless `cjs_reexport_count` is over 1.
    pub is_cjs_reexport: bool,
    /// It has exports that are known only when it runs (`export *` from such a module).
    pub has_dynamic_exports: bool,
    /// It is imported by `import()`, and none of these looks at an export of it.
    pub dynamic_imports_use_no_export: bool,
    /// Its verdict was relaxed by other passes and is found again.
    pub relaxed_side_effects: bool,
    /// How it is wrapped. By default not.
    pub wrap_kind: WrapKind,
    /// The symbol of its wrapper.
    pub wrapper: Option<SymbolId>,
    /// The symbol of its namespace. A normal module owns one, [`Graph::module`] makes it; an external one has none.
    pub namespace: Option<SymbolId>,
    /// How many targets its CommonJS re-exports have; several if a condition chooses.
    pub cjs_reexport_count: u32,
    /// What the scan found; `None` means the present verdict and statements.
    pub scan: Option<Scan>,
    pub(crate) import_records: Vec<ImportRecord>,
    /// The modules that it depends on: kept with it if they have side effects.
    pub dependencies: Vec<ModuleId>,
    /// The symbols that it imports by name.
    pub named_imports: Vec<SymbolId>,
    /// The symbols that it exports and that are its own.
    pub own_exports: Vec<SymbolId>,
    /// The symbols that the code generated for an entry of this module refers to: what it exports. [`Graph::export`] adds
    /// to them.
    pub entry_references: Vec<SymbolId>,
    /// The CommonJS exports that are kept along with it.
    pub commonjs_export_symbols: Vec<SymbolId>,
    /// Its exports as linking resolved them.
    pub resolved_exports: Vec<ResolvedExport>,
    /// The symbols by which it holds namespaces of CommonJS modules.
    pub commonjs_namespaces: Vec<CommonJsNamespace>,
    /// Its enum members whose values are known.
    pub enum_members: Vec<EnumMember>,
    /// The helpers of the runtime that its statements need.
    pub helpers: Vec<HelperUse>,
    pub(crate) statements: Vec<Statement>,
}

impl Module {
    pub(crate) fn new(label: &str, normal: bool) -> Module {
        Module {
            label: label.to_owned(),
            normal,
            side_effects: if normal { None } else { Some(SideEffects::UserDefined(true)) },
            exports_kind: ExportsKind::Esm,
            module_type: ModuleType::Js,
            has_eval: false,
            safely_treeshake_commonjs: false,
            is_cjs_reexport: false,
            has_dynamic_exports: false,
            dynamic_imports_use_no_export: false,
            relaxed_side_effects: false,
            wrap_kind: WrapKind::None,
            wrapper: None,
            namespace: None,
            cjs_reexport_count: 0,
            scan: None,
            import_records: Vec::new(),
            dependencies: Vec::new(),
            named_imports: Vec::new(),
            own_exports: Vec::new(),
            entry_references: Vec::new(),
            commonjs_export_symbols: Vec::new(),
            resolved_exports: Vec::new(),
            commonjs_namespaces: Vec::new(),
            enum_members: Vec::new(),
            helpers: Vec::new(),
            statements: Vec::new(),
        }
    }

    /// Its verdict, before imports are looked at: the one that was set, or what its statements say.
    ///
    /// ```
    /// use lizdakk::{Graph, SideEffects};
    ///
    /// let mut graph = Graph::new();
    /// let main = graph.module("main.js");
    /// assert_eq!(graph[main].verdict(), SideEffects::Analyzed(false));
    /// let log = graph.statement(main);
    /// graph[log].has_side_effect = true;
    /// assert_eq!(graph[main].verdict(), SideEffects::Analyzed(true));
    /// ```
    pub fn verdict(&self) -> SideEffects {
        let said = || SideEffects::Analyzed(self.statements.iter().any(|statement| statement.has_side_effect));
        self.side_effects.unwrap_or_else(said)
    }

    /// What it was called when it was added; empty in a graph that was read from a file.
    ///
    /// ```
    /// let mut graph = lizdakk::Graph::new();
    /// let main = graph.module("main.js");
    /// assert_eq!(graph[main].label(), "main.js");
    /// ```
    pub fn label(&self) -> &str {
        &self.label
    }

    /// Whether it is part of the bundle's input, not an external module.
    ///
    /// ```
    /// let mut graph = lizdakk::Graph::new();
    /// let react = graph.external("react");
    /// assert!(!graph[react].is_normal());
    /// ```
    pub fn is_normal(&self) -> bool {
        self.normal
    }
}

/// What is known of a symbol's value.
///
/// ```
/// use lizdakk::{Constant, Graph};
///
/// let mut graph = Graph::new();
/// let module = graph.module("constants.js");
/// let answer = graph.symbol(module, "ANSWER");
/// graph[answer].constant = Constant { is_known: true, safe_to_inline: true, commonjs_export: false };
/// ```
#[derive(Clone, Copy, Debug, Default, PartialEq, Eq, Hash)]
pub struct Constant {
    /// Its value is known, so that it can stand in place of its uses.
    pub is_known: bool,
    /// That is safe in smart mode.
    pub safe_to_inline: bool,
    /// It is an export of a CommonJS module.
    pub commonjs_export: bool,
}

/// A symbol of a graph, made by [`Graph::symbol`] and reached by `graph[symbol]`.
///
/// ```
/// let mut graph = lizdakk::Graph::new();
/// let (main, tools) = (graph.module("main.js"), graph.module("tools.js"));
/// let tool = graph.symbol(tools, "tool");
/// let imported = graph.symbol(main, "tool");
/// graph[imported].root = tool;
/// assert_eq!(graph[tool].root, tool);
/// ```
#[derive(Clone, Debug, PartialEq, Eq)]
pub struct Symbol {
    pub(crate) label: String,
    /// The module it belongs to.
    pub owner: ModuleId,
    /// Its name.
    pub name: Name,
    /// The symbol that it was linked to; by default itself. A root has to be its own root.
    pub root: SymbolId,
    /// If it stands for a property of a namespace: that namespace's symbol.
    pub alias_namespace: Option<SymbolId>,
    /// The property's name.
    pub alias_name: Name,
    /// What is known of its value.
    pub constant: Constant,
    /// The symbols through which it was re-exported on the way.
    pub export_chain: Vec<SymbolId>,
    /// The statements of its owner that declare it.
    pub declared_by: Vec<StatementId>,
    /// The statements of its owner that write a property of it.
    pub properties_written_by: Vec<StatementId>,
}

impl Symbol {
    pub(crate) fn new(label: &str, owner: ModuleId, name: Name, own: SymbolId) -> Symbol {
        Symbol {
            label: label.to_owned(),
            owner,
            name,
            root: own,
            alias_namespace: None,
            alias_name: Name::DEFAULT,
            constant: Constant::default(),
            export_chain: Vec::new(),
            declared_by: Vec::new(),
            properties_written_by: Vec::new(),
        }
    }

    /// What it was called when it was added; empty in a graph that was read from a file.
    ///
    /// ```
    /// let mut graph = lizdakk::Graph::new();
    /// let main = graph.module("main.js");
    /// let run = graph.symbol(main, "run");
    /// assert_eq!(graph[run].label(), "run");
    /// ```
    pub fn label(&self) -> &str {
        &self.label
    }
}

/// What a statement refers to.
///
/// ```
/// use lizdakk::{Graph, Reference};
///
/// let mut graph = Graph::new();
/// let main = graph.module("main.js");
/// let (colour, red) = (graph.symbol(main, "Colour"), graph.name("Red"));
/// let statement = graph.statement(main);
/// graph[statement].references.push(Reference::Symbol(colour));
/// graph[statement].references.push(Reference::member(colour, &[red]));
/// ```
#[derive(Clone, Debug, PartialEq, Eq, Hash)]
pub enum Reference {
    /// A symbol.
    Symbol(SymbolId),
    /// A member expression that linking resolved to nothing.
    ResolvedToNothing,
    /// A member expression that linking resolved to a symbol.
    Resolved {
        /// The symbol.
        symbol: SymbolId,
        /// It is an export of a CommonJS module.
        is_commonjs_export: bool,
        /// The symbols through which it was found.
        depended: Vec<SymbolId>,
    },
    /// A member expression that linking left as it is.
    Member {
        /// The object's symbol.
        object: SymbolId,
        /// The member is written.
        is_write: bool,
        /// How many properties follow each other, 2 for `a.b.c`.
        property_count: u32,
        /// The first of them.
        first_property: Name,
    },
}

impl Reference {
    /// A member expression that is read: `a.b.c` is `member(a, &[b, c])`.
    ///
    /// ```
    /// use lizdakk::{Name, Reference, SymbolId};
    ///
    /// let (object, name) = (SymbolId::new(3), Name::new(5));
    /// let expected = Reference::Member { object, is_write: false, property_count: 1, first_property: name };
    /// assert_eq!(Reference::member(object, &[name]), expected);
    /// ```
    pub fn member(object: SymbolId, properties: &[Name]) -> Reference {
        Reference::Member {
            object,
            is_write: false,
            property_count: u32::try_from(properties.len()).unwrap_or(u32::MAX),
            first_property: properties.first().copied().unwrap_or(Name::DEFAULT),
        }
    }
}

/// A statement of a module, made by [`Graph::statement`] and reached by `graph[statement]`.
///
/// ```
/// let mut graph = lizdakk::Graph::new();
/// let main = graph.module("main.js");
/// let log = graph.statement(main);
/// graph[log].has_side_effect = true;
/// ```
#[derive(Clone, Debug, Default, PartialEq, Eq, Hash)]
pub struct Statement {
    /// Evaluating it may be noticed.
    pub has_side_effect: bool,
    /// It has a side effect of which nothing else is known.
    pub has_unknown_side_effect: bool,
    /// It is shaken even where its module is not.
    pub force_tree_shaking: bool,
    /// It re-exports what another module has only when it runs.
    pub reexports_dynamic_exports: bool,
    /// It declares a symbol. [`Graph::declare`] sets it.
    pub declares: bool,
    /// The import records of its module that stand in it.
    pub import_records: Vec<ImportRecordId>,
    /// What it refers to, in order.
    pub references: Vec<Reference>,
}

/// A statement that has an `import()` of an entry's module.
///
/// ```
/// let mut graph = lizdakk::Graph::new();
/// let (main, lazy) = (graph.module("main.js"), graph.module("lazy.js"));
/// let statement = graph.statement(main);
/// let import = graph.dynamic_import(statement, lazy);
/// graph[import.entry].related[0].is_unreachable = true;
/// ```
#[derive(Clone, Copy, Debug, PartialEq, Eq, Hash)]
pub struct RelatedStatement {
    /// The statement, of a normal module.
    pub statement: StatementId,
    /// Its import record, of the same module; it has to be resolved.
    pub record: ImportRecordId,
    /// The `import()` stands where it is never reached.
    pub is_unreachable: bool,
}

/// An entry of a graph, made by [`Graph::entry`] or [`Graph::dynamic_import`] and reached by `graph[entry]`.
///
/// ```
/// let mut graph = lizdakk::Graph::new();
/// let main = graph.module("main.js");
/// let entry = graph.entry(main);
/// assert_eq!(graph[entry].module, main);
/// ```
#[derive(Clone, Debug, PartialEq, Eq, Hash)]
pub struct Entry {
    /// Its module.
    pub module: ModuleId,
    /// Who began it.
    pub kind: EntryKind,
    /// For a dynamic one: where its `import()`s stand.
    pub related: Vec<RelatedStatement>,
}

/// What [`Graph::dynamic_import`] added.
///
/// ```
/// let mut graph = lizdakk::Graph::new();
/// let (main, lazy) = (graph.module("main.js"), graph.module("lazy.js"));
/// let statement = graph.statement(main);
/// let import = graph.dynamic_import(statement, lazy);
/// assert_eq!(graph[import.entry].related[0].record, import.record);
/// ```
#[derive(Clone, Copy, Debug, PartialEq, Eq, Hash)]
#[non_exhaustive]
pub struct DynamicImport {
    /// The import record.
    pub record: ImportRecordId,
    /// The entry of the module that it leads to.
    pub entry: EntryId,
}

/// The input of the decision: modules with their statements, symbols, and entries.
///
/// A new graph has the runtime as its first module and nothing else. Parts are added by methods that give typed ids, and
/// then set by `graph[id].field = value`. What a graph has to fulfil is checked by the engine when it is asked
/// ([`decide`](crate::decide), [`Graph::check_here`]), and a refusal names the field.
///
/// ```
/// use lizdakk::Graph;
///
/// let mut graph = Graph::new();
/// let main = graph.module("main.js");
/// let hello = graph.statement(main);
/// graph[hello].has_side_effect = true;
/// graph.entry(main);
///
/// let kept = lizdakk::decide(&graph)?;
/// assert!(kept.is_kept(main));
/// assert_eq!(kept.statements(main).collect::<Vec<_>>(), [hello]);
/// # Ok::<(), lizdakk::Refused>(())
/// ```
///
/// [`constructs`](crate::constructs) shows how the common constructs of JavaScript are told to it.
///
/// # Panics
/// An id that the graph does not have panics, as for a slice, where a method or an index has to look it up. Where an id is
/// only noted, the engine refuses it later. An id of another graph that this one has too is taken for its own.
#[derive(Clone, Debug, PartialEq, Eq)]
pub struct Graph {
    /// The options that the decision depends on.
    pub options: Options,
    pub(crate) runtime: ModuleId,
    pub(crate) helpers: Vec<SymbolId>,
    pub(crate) modules: Vec<Module>,
    pub(crate) symbols: Vec<Symbol>,
    pub(crate) entries: Vec<Entry>,
    names: BTreeMap<String, Name>,
    /// The last one that was given to a text.
    last_name: Name,
    /// The names that came with the numbers of a file.
    pub(crate) taken_names: BTreeSet<Name>,
}

impl Default for Graph {
    fn default() -> Graph {
        Graph::new()
    }
}

impl Graph {
    /// A graph with the runtime module alone.
    ///
    /// ```
    /// let graph = lizdakk::Graph::new();
    /// assert_eq!(graph.modules().count(), 1);
    /// ```
    pub fn new() -> Graph {
        let mut graph = Graph::empty(Options::default(), ModuleId::new(0), Vec::new());
        graph.module("runtime");
        graph
    }

    /// The graph without a module.
    pub(crate) fn empty(options: Options, runtime: ModuleId, helpers: Vec<SymbolId>) -> Graph {
        Graph {
            options,
            runtime,
            helpers,
            modules: Vec::new(),
            symbols: Vec::new(),
            entries: Vec::new(),
            names: BTreeMap::from([("default".to_owned(), Name::DEFAULT)]),
            last_name: Name::DEFAULT,
            taken_names: BTreeSet::new(),
        }
    }

    /// Adds a normal module, with a namespace of its own and that namespace's statement, statement 0. The label is for
    /// people: messages tell it beside the number.
    ///
    /// ```
    /// let mut graph = lizdakk::Graph::new();
    /// let main = graph.module("main.js");
    /// let namespace = graph[main].namespace.expect("a normal module has one");
    /// assert_eq!(graph[namespace].owner, main);
    /// assert_eq!(graph.statements(main).count(), 1);
    /// ```
    pub fn module(&mut self, label: &str) -> ModuleId {
        let module = self.push_module(Module::new(label, true));
        let namespace = self.symbol(module, "*");
        self[module].namespace = Some(namespace);
        self.statement(module);
        module
    }

    /// Adds a CommonJS module: as [`module`](Graph::module), and with a wrapper, the function that evaluates it.
    ///
    /// ```
    /// use lizdakk::{ExportsKind, WrapKind};
    ///
    /// let mut graph = lizdakk::Graph::new();
    /// let legacy = graph.commonjs("legacy.cjs");
    /// assert_eq!((graph[legacy].exports_kind, graph[legacy].wrap_kind), (ExportsKind::CommonJs, WrapKind::Cjs));
    /// assert!(graph[legacy].wrapper.is_some());
    /// ```
    pub fn commonjs(&mut self, label: &str) -> ModuleId {
        let module = self.module(label);
        let wrapper = self.symbol(module, &format!("require_{label}"));
        self[module].exports_kind = ExportsKind::CommonJs;
        self[module].wrap_kind = WrapKind::Cjs;
        self[module].wrapper = Some(wrapper);
        module
    }

    /// Adds an external module, with side effects unless you say otherwise: one that the bundle refers to and does not have.
    ///
    /// ```
    /// let mut graph = lizdakk::Graph::new();
    /// let react = graph.external("react");
    /// let hook = graph.symbol(react, "useState");
    /// assert_eq!(graph[hook].owner, react);
    /// ```
    pub fn external(&mut self, label: &str) -> ModuleId {
        self.push_module(Module::new(label, false))
    }

    fn push_module(&mut self, module: Module) -> ModuleId {
        self.modules.push(module);
        ModuleId::new(last(self.modules.len()))
    }

    /// The runtime module. It is the first one unless [`set_runtime`](Graph::set_runtime) said otherwise.
    ///
    /// ```
    /// let graph = lizdakk::Graph::new();
    /// assert_eq!(graph[graph.runtime()].label(), "runtime");
    /// ```
    pub fn runtime(&self) -> ModuleId {
        self.runtime
    }

    /// Says which module is the runtime; it has to be a normal one.
    ///
    /// ```
    /// let mut graph = lizdakk::Graph::new();
    /// let other = graph.module("other runtime");
    /// graph.set_runtime(other);
    /// assert_eq!(graph.runtime(), other);
    /// ```
    pub fn set_runtime(&mut self, module: ModuleId) {
        self.runtime = module;
    }

    /// The number of a name. The same text has the same number; "default" has 0. A graph that was read from a file does
    /// not know the texts of the names in it; a new text gets a number that none of them has. Names that you make by
    /// [`Name::new`] are not known to the graph: use one way or the other.
    ///
    /// ```
    /// let mut graph = lizdakk::Graph::new();
    /// let red = graph.name("Red");
    /// assert_eq!(graph.name("Red"), red);
    /// assert_ne!(graph.name("Green"), red);
    /// ```
    pub fn name(&mut self, text: &str) -> Name {
        if let Some(&known) = self.names.get(text) {
            return known;
        }
        let mut new = (self.last_name.index() + 1..=u32::MAX).map(Name::new);
        let name = new.find(|name| !self.taken_names.contains(name)).expect("there are more names than texts");
        self.last_name = name;
        self.names.insert(text.to_owned(), name);
        name
    }

    /// Adds a symbol, which is its own root and which nothing declares yet.
    ///
    /// ```
    /// let mut graph = lizdakk::Graph::new();
    /// let tools = graph.module("tools.js");
    /// let tool = graph.symbol(tools, "tool");
    /// assert_eq!(graph[tool].owner, tools);
    /// ```
    pub fn symbol(&mut self, owner: ModuleId, name: &str) -> SymbolId {
        let symbol = SymbolId::new(self.symbols.len() as u32);
        let number = self.name(name);
        self.symbols.push(Symbol::new(name, owner, number, symbol));
        symbol
    }

    /// Adds a statement to a module: no side effect, no import, no reference.
    ///
    /// ```
    /// let mut graph = lizdakk::Graph::new();
    /// let main = graph.module("main.js");
    /// let statement = graph.statement(main);
    /// assert_eq!(statement.index(), 1);
    /// ```
    pub fn statement(&mut self, module: ModuleId) -> StatementId {
        let statements = &mut self[module].statements;
        statements.push(Statement::default());
        StatementId::new(module, last(statements.len()))
    }

    /// Says that a statement declares a symbol of its module.
    ///
    /// ```
    /// let mut graph = lizdakk::Graph::new();
    /// let tools = graph.module("tools.js");
    /// let (tool, statement) = (graph.symbol(tools, "tool"), graph.statement(tools));
    /// graph.declare(statement, tool);
    /// assert_eq!(graph[tool].declared_by, [statement]);
    /// assert!(graph[statement].declares);
    /// ```
    pub fn declare(&mut self, statement: StatementId, symbol: SymbolId) {
        self[statement].declares = true;
        self[symbol].declared_by.push(statement);
    }

    /// Says that a statement refers to a symbol.
    ///
    /// ```
    /// let mut graph = lizdakk::Graph::new();
    /// let (main, tools) = (graph.module("main.js"), graph.module("tools.js"));
    /// let (tool, call) = (graph.symbol(tools, "tool"), graph.statement(main));
    /// graph.refer(call, tool);
    /// assert_eq!(graph[call].references, [lizdakk::Reference::Symbol(tool)]);
    /// ```
    pub fn refer(&mut self, statement: StatementId, symbol: SymbolId) {
        self[statement].references.push(Reference::Symbol(symbol));
    }

    /// Adds an import record to a statement and to its module, and nothing else.
    ///
    /// ```
    /// use lizdakk::{Graph, ImportKind};
    ///
    /// let mut graph = Graph::new();
    /// let main = graph.module("main.js");
    /// let statement = graph.statement(main);
    /// let record = graph.import_record(statement, ImportKind::Import, None);
    /// assert_eq!(graph[statement].import_records, [record]);
    /// ```
    pub fn import_record(
        &mut self,
        statement: StatementId,
        kind: ImportKind,
        target: Option<ModuleId>,
    ) -> ImportRecordId {
        let module = statement.module();
        let records = &mut self[module].import_records;
        records.push(ImportRecord { target, kind, is_export_star: false, is_top_level_pure: false });
        let record = ImportRecordId::new(module, last(records.len()));
        self[statement].import_records.push(record);
        record
    }

    /// Adds `import .. from ..`: the import record, and the target as a dependency of the statement's module.
    ///
    /// ```
    /// let mut graph = lizdakk::Graph::new();
    /// let (main, tools) = (graph.module("main.js"), graph.module("tools.js"));
    /// let statement = graph.statement(main);
    /// graph.import(statement, tools);
    /// assert_eq!(graph[main].dependencies, [tools]);
    /// ```
    pub fn import(&mut self, statement: StatementId, target: ModuleId) -> ImportRecordId {
        let record = self.import_record(statement, ImportKind::Import, Some(target));
        let dependencies = &mut self[statement.module()].dependencies;
        if !dependencies.contains(&target) {
            dependencies.push(target);
        }
        record
    }

    /// Adds `import { .. } from ..` of one symbol: [`import`](Graph::import) of its owner, and a symbol of the statement's
    /// module that is declared by the statement and linked to it. The new symbol is the one to refer to there. Use it as
    /// often as the statement imports symbols; the import record is added once.
    ///
    /// ```
    /// let mut graph = lizdakk::Graph::new();
    /// let (main, tools) = (graph.module("main.js"), graph.module("tools.js"));
    /// let (hammer, statement) = (graph.symbol(tools, "hammer"), graph.statement(main));
    /// let imported = graph.import_symbol(statement, hammer);
    /// assert_eq!((graph[imported].owner, graph[imported].root), (main, hammer));
    /// assert_eq!(graph[main].named_imports, [imported]);
    /// ```
    pub fn import_symbol(&mut self, statement: StatementId, symbol: SymbolId) -> SymbolId {
        let (module, Symbol { owner, root, label, .. }) = (statement.module(), self[symbol].clone());
        let is_its_record = |record: &ImportRecordId| self[*record].target == Some(owner);
        if !self[statement].import_records.iter().any(is_its_record) {
            self.import(statement, owner);
        }
        let imported = self.symbol(module, &label);
        self[imported].root = root;
        self.declare(statement, imported);
        self[module].named_imports.push(imported);
        imported
    }

    /// Says that a module exports a symbol under a name: among its resolved exports, among its own exports if the symbol
    /// is its own, and, for the case that the module is an entry, among the entry references. It counts as an export from
    /// CommonJS if the symbol's owner is a CommonJS module by now: set `exports_kind` first.
    ///
    /// ```
    /// let mut graph = lizdakk::Graph::new();
    /// let (tools, barrel) = (graph.module("tools.js"), graph.module("index.js"));
    /// let hammer = graph.symbol(tools, "hammer");
    /// graph.export(tools, "hammer", hammer);
    /// graph.export(barrel, "hammer", hammer);
    /// assert_eq!(graph[tools].own_exports, [hammer]);
    /// assert_eq!((graph[barrel].own_exports.len(), graph[barrel].resolved_exports[0].symbol), (0, hammer));
    /// ```
    pub fn export(&mut self, module: ModuleId, name: &str, symbol: SymbolId) {
        let (name, own) = (self.name(name), self[symbol].owner == module);
        let from_commonjs = self[self[symbol].owner].exports_kind == ExportsKind::CommonJs;
        self[module].resolved_exports.push(ResolvedExport { name, symbol, from_commonjs });
        self[module].entry_references.push(symbol);
        if own {
            self[module].own_exports.push(symbol);
        }
    }

    /// Adds `require(..)`: the import record, and a reference to the wrapper of the target if it has one, as a CommonJS
    /// module of [`commonjs`](Graph::commonjs) has.
    ///
    /// ```
    /// let mut graph = lizdakk::Graph::new();
    /// let (main, legacy) = (graph.module("main.js"), graph.commonjs("legacy.cjs"));
    /// let statement = graph.statement(main);
    /// graph[statement].has_side_effect = true;
    /// graph.require(statement, legacy);
    /// graph.entry(main);
    /// assert!(lizdakk::decide(&graph)?.is_kept(legacy));
    /// # Ok::<(), lizdakk::Refused>(())
    /// ```
    pub fn require(&mut self, statement: StatementId, target: ModuleId) -> ImportRecordId {
        if let Some(wrapper) = self[target].wrapper {
            self.refer(statement, wrapper);
        }
        self.import_record(statement, ImportKind::Require, Some(target))
    }

    /// Adds `import(..)`: the import record, and the statement as related to the dynamic entry of the target. The entry
    /// is added if the target has none.
    ///
    /// ```
    /// use lizdakk::{EntryKind, Graph};
    ///
    /// let mut graph = Graph::new();
    /// let (main, lazy) = (graph.module("main.js"), graph.module("lazy.js"));
    /// let statement = graph.statement(main);
    /// let import = graph.dynamic_import(statement, lazy);
    /// assert_eq!(graph[import.entry].kind, EntryKind::DynamicImport);
    /// assert_eq!(graph[import.entry].related[0].statement, statement);
    /// ```
    pub fn dynamic_import(&mut self, statement: StatementId, target: ModuleId) -> DynamicImport {
        let record = self.import_record(statement, ImportKind::Dynamic, Some(target));
        let is_its_entry = |entry: &Entry| entry.module == target && entry.kind == EntryKind::DynamicImport;
        let known = self.entries.iter().position(is_its_entry).map(|index| EntryId::new(index as u32));
        let entry = known.unwrap_or_else(|| self.push_entry(target, EntryKind::DynamicImport));
        self[entry].related.push(RelatedStatement { statement, record, is_unreachable: false });
        DynamicImport { record, entry }
    }

    /// Adds a user-defined entry.
    ///
    /// ```
    /// let mut graph = lizdakk::Graph::new();
    /// let main = graph.module("main.js");
    /// let entry = graph.entry(main);
    /// assert_eq!(graph.entries().collect::<Vec<_>>(), [entry]);
    /// ```
    pub fn entry(&mut self, module: ModuleId) -> EntryId {
        self.push_entry(module, EntryKind::UserDefined)
    }

    fn push_entry(&mut self, module: ModuleId, kind: EntryKind) -> EntryId {
        self.entries.push(Entry { module, kind, related: Vec::new() });
        EntryId::new(last(self.entries.len()))
    }

    /// Adds a helper of the runtime, given by its symbol.
    ///
    /// ```
    /// let mut graph = lizdakk::Graph::new();
    /// let symbol = graph.symbol(graph.runtime(), "__export");
    /// let helper = graph.helper(symbol);
    /// assert_eq!(graph.helper_symbol(helper), symbol);
    /// ```
    pub fn helper(&mut self, symbol: SymbolId) -> HelperId {
        self.helpers.push(symbol);
        HelperId::new(last(self.helpers.len()))
    }

    /// The symbol of a helper.
    ///
    /// ```
    /// let mut graph = lizdakk::Graph::new();
    /// let symbol = graph.symbol(graph.runtime(), "__export");
    /// let helper = graph.helper(symbol);
    /// assert_eq!(graph.helper_symbol(helper), symbol);
    /// ```
    pub fn helper_symbol(&self, helper: HelperId) -> SymbolId {
        self.helpers[helper.at()]
    }

    /// The modules, in the order of adding.
    ///
    /// ```
    /// let mut graph = lizdakk::Graph::new();
    /// let main = graph.module("main.js");
    /// assert_eq!(graph.modules().collect::<Vec<_>>(), [graph.runtime(), main]);
    /// ```
    pub fn modules(&self) -> impl Iterator<Item = ModuleId> {
        (0..self.modules.len() as u32).map(ModuleId::new)
    }

    /// The symbols, in the order of adding.
    ///
    /// ```
    /// let graph = lizdakk::Graph::new();
    /// assert_eq!(graph.symbols().collect::<Vec<_>>(), [graph[graph.runtime()].namespace.unwrap()]);
    /// ```
    pub fn symbols(&self) -> impl Iterator<Item = SymbolId> {
        (0..self.symbols.len() as u32).map(SymbolId::new)
    }

    /// The entries, in the order of adding.
    ///
    /// ```
    /// assert_eq!(lizdakk::Graph::new().entries().count(), 0);
    /// ```
    pub fn entries(&self) -> impl Iterator<Item = EntryId> {
        (0..self.entries.len() as u32).map(EntryId::new)
    }

    /// The helpers of the runtime, in the order of adding.
    ///
    /// ```
    /// assert_eq!(lizdakk::Graph::new().helpers().count(), 0);
    /// ```
    pub fn helpers(&self) -> impl Iterator<Item = HelperId> {
        (0..self.helpers.len() as u32).map(HelperId::new)
    }

    /// The statements of a module, in order; none if the graph has no such module.
    ///
    /// ```
    /// let mut graph = lizdakk::Graph::new();
    /// let main = graph.module("main.js");
    /// graph.statement(main);
    /// assert_eq!(graph.statements(main).count(), 2);
    /// ```
    pub fn statements(&self, module: ModuleId) -> impl Iterator<Item = StatementId> {
        let count = self.modules.get(module.at()).map_or(0, |module| module.statements.len() as u32);
        (0..count).map(move |index| StatementId::new(module, index))
    }

    /// The import records of a module, in order; none if the graph has no such module.
    ///
    /// ```
    /// let mut graph = lizdakk::Graph::new();
    /// let (main, tools) = (graph.module("main.js"), graph.module("tools.js"));
    /// let statement = graph.statement(main);
    /// let record = graph.import(statement, tools);
    /// assert_eq!(graph.import_records(main).collect::<Vec<_>>(), [record]);
    /// ```
    pub fn import_records(&self, module: ModuleId) -> impl Iterator<Item = ImportRecordId> {
        let count = self.modules.get(module.at()).map_or(0, |module| module.import_records.len() as u32);
        (0..count).map(move |index| ImportRecordId::new(module, index))
    }

    /// A module, symbol, statement, import record, entry or helper in words: its number and, if it has one, its label.
    ///
    /// ```
    /// let mut graph = lizdakk::Graph::new();
    /// let main = graph.module("main.js");
    /// let statement = graph.statement(main);
    /// assert_eq!(graph.tell(statement).to_string(), "statement 1 of module 1 (main.js)");
    /// ```
    pub fn tell<'a>(&'a self, part: impl Into<Part>) -> impl fmt::Display + 'a {
        Told { graph: self, part: part.into() }
    }
}

/// The index of the last of so many.
fn last(count: usize) -> u32 {
    (count - 1) as u32
}

/// A part of a graph, for [`Graph::tell`].
///
/// ```
/// use lizdakk::{ModuleId, Part};
///
/// assert_eq!(Part::from(ModuleId::new(2)), Part::Module(ModuleId::new(2)));
/// ```
#[derive(Clone, Copy, Debug, PartialEq, Eq, Hash)]
#[non_exhaustive]
pub enum Part {
    /// What is said of the graph as a whole: options, runtime, counts, helpers.
    Header,
    /// A module.
    Module(ModuleId),
    /// A symbol.
    Symbol(SymbolId),
    /// A statement.
    Statement(StatementId),
    /// An import record.
    ImportRecord(ImportRecordId),
    /// An entry.
    Entry(EntryId),
    /// A helper.
    Helper(HelperId),
}

macro_rules! part_from {
    ($($id:ident $part:ident),*) => {
        $(impl From<$id> for Part {
            fn from(id: $id) -> Part {
                Part::$part(id)
            }
        })*
    };
}

part_from!(ModuleId Module, SymbolId Symbol, StatementId Statement, ImportRecordId ImportRecord, EntryId Entry, HelperId Helper);

/// A part with its label.
struct Told<'a> {
    graph: &'a Graph,
    part: Part,
}

impl Told<'_> {
    fn module(&self, f: &mut fmt::Formatter, module: ModuleId) -> fmt::Result {
        match self.graph.modules.get(module.at()).map_or("", Module::label) {
            "" => write!(f, "{module}"),
            label => write!(f, "{module} ({label})"),
        }
    }

    /// A symbol with its label and that of its owner.
    fn symbol(&self, f: &mut fmt::Formatter, symbol: SymbolId) -> fmt::Result {
        let known = self.graph.symbols.get(symbol.at()).filter(|symbol| !symbol.label.is_empty());
        let Some(Symbol { label, owner, .. }) = known else { return write!(f, "{symbol}") };
        match self.graph.modules.get(owner.at()).map_or("", Module::label) {
            "" => write!(f, "{symbol} ({label})"),
            owner => write!(f, "{symbol} ({label} of {owner})"),
        }
    }
}

impl fmt::Display for Told<'_> {
    fn fmt(&self, f: &mut fmt::Formatter) -> fmt::Result {
        match self.part {
            Part::Header => f.write_str("the graph"),
            Part::Module(module) => self.module(f, module),
            Part::Symbol(symbol) => self.symbol(f, symbol),
            Part::Statement(statement) => {
                write!(f, "statement {} of ", statement.index())?;
                self.module(f, statement.module())
            }
            Part::ImportRecord(record) => {
                write!(f, "import record {} of ", record.index())?;
                self.module(f, record.module())
            }
            Part::Entry(entry) => match self.graph.entries.get(entry.at()) {
                None => write!(f, "{entry}"),
                Some(known) => {
                    write!(f, "{entry}, ")?;
                    self.module(f, known.module)
                }
            },
            Part::Helper(helper) => match self.graph.helpers.get(helper.at()) {
                None => write!(f, "{helper}"),
                Some(&symbol) => {
                    write!(f, "{helper}, ")?;
                    self.symbol(f, symbol)
                }
            },
        }
    }
}

/// Reaches parts by their ids.
macro_rules! reached_by {
    ($id:ident, $part:ident, |$at:ident| $($path:tt)+) => {
        impl Index<$id> for Graph {
            type Output = $part;

            fn index(&self, $at: $id) -> &$part {
                &self.$($path)+
            }
        }

        impl IndexMut<$id> for Graph {
            fn index_mut(&mut self, $at: $id) -> &mut $part {
                &mut self.$($path)+
            }
        }
    };
}

reached_by!(ModuleId, Module, |id| modules[id.at()]);
reached_by!(SymbolId, Symbol, |id| symbols[id.at()]);
reached_by!(StatementId, Statement, |id| modules[id.module().at()].statements[id.at()]);
reached_by!(ImportRecordId, ImportRecord, |id| modules[id.module().at()].import_records[id.at()]);
reached_by!(EntryId, Entry, |id| entries[id.at()]);
