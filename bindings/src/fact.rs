//! What can be kept: facts, the reasons of uses, and the rules by which one fact follows from others.

use crate::ids::{ModuleId, StatementId, SymbolId};
use core::fmt;

/// Why a symbol is used: one or more of five reasons.
///
/// ```
/// use lizdakk::Reason;
///
/// let both = Reason::NORMAL | Reason::JSON_DEFAULT_EXPORT_SELF_REFERENCE;
/// assert!(both.contains(Reason::NORMAL));
/// assert_eq!(both.to_string(), "Normal and JsonDefaultExportSelfReference");
/// ```
#[derive(Clone, Copy, Debug, PartialEq, Eq, PartialOrd, Ord, Hash)]
pub struct Reason(u32);

impl Reason {
    /// A reference.
    pub const NORMAL: Reason = Reason(1);
    /// An entry exports it.
    pub const ENTRY_EXPORT: Reason = Reason(2);
    /// A statement re-exports what another module has only when it runs.
    pub const RE_EXPORT_DYNAMIC_EXPORTS: Reason = Reason(4);
    /// A JSON module refers to itself by its default export.
    pub const JSON_DEFAULT_EXPORT_SELF_REFERENCE: Reason = Reason(8);
    /// A chunk that stands for a module needs it. No run starts such a use.
    pub const SIMULATED_FACADE_CHUNK: Reason = Reason(16);

    const NAMED: [(Reason, &'static str); 5] = [
        (Reason::NORMAL, "Normal"),
        (Reason::ENTRY_EXPORT, "EntryExport"),
        (Reason::RE_EXPORT_DYNAMIC_EXPORTS, "ReExportDynamicExports"),
        (Reason::JSON_DEFAULT_EXPORT_SELF_REFERENCE, "JsonDefaultExportSelfReference"),
        (Reason::SIMULATED_FACADE_CHUNK, "SimulatedFacadeChunk"),
    ];

    /// The reason of a number, 1 to 31.
    ///
    /// ```
    /// use lizdakk::Reason;
    ///
    /// assert_eq!(Reason::new(2), Some(Reason::ENTRY_EXPORT));
    /// assert_eq!(Reason::new(32), None);
    /// ```
    pub const fn new(bits: u32) -> Option<Reason> {
        match bits {
            1..=31 => Some(Reason(bits)),
            _ => None,
        }
    }

    /// Its number: the sum of its reasons.
    ///
    /// ```
    /// assert_eq!(lizdakk::Reason::ENTRY_EXPORT.bits(), 2);
    /// ```
    pub const fn bits(self) -> u32 {
        self.0
    }

    /// Whether all of another's reasons are among its own.
    ///
    /// ```
    /// use lizdakk::Reason;
    ///
    /// assert!(!Reason::NORMAL.contains(Reason::ENTRY_EXPORT));
    /// ```
    pub const fn contains(self, other: Reason) -> bool {
        self.0 & other.0 == other.0
    }
}

impl core::ops::BitOr for Reason {
    type Output = Reason;

    fn bitor(self, other: Reason) -> Reason {
        Reason(self.0 | other.0)
    }
}

impl fmt::Display for Reason {
    fn fmt(&self, f: &mut fmt::Formatter) -> fmt::Result {
        let own = Reason::NAMED.iter().filter(|(reason, _)| self.contains(*reason));
        for (place, (_, name)) in own.enumerate() {
            write!(f, "{}{name}", if place == 0 { "" } else { " and " })?;
        }
        Ok(())
    }
}

/// One thing that the engine decides (docs/RULES.md, "Facts").
///
/// ```
/// use lizdakk::{Fact, ModuleId, StatementId};
///
/// let module = ModuleId::new(7);
/// assert_eq!(Fact::Module(module).to_string(), "module 7 is kept");
/// assert_eq!(Fact::Statement(StatementId::new(module, 3)).numbers(), [2, 7, 3]);
/// ```
#[derive(Clone, Copy, Debug, PartialEq, Eq, PartialOrd, Ord, Hash)]
pub enum Fact {
    /// 1: a module is kept.
    Module(ModuleId),
    /// 2: a statement is kept.
    Statement(StatementId),
    /// 3: a symbol is used.
    Use(SymbolId, Reason),
    /// 4: a symbol is used, and it is looked at whether it stands for a whole module.
    CheckedUse(SymbolId, Reason),
    /// 5: a symbol is forwarded: what declares it is kept as soon as its owner is kept.
    Forward(SymbolId),
    /// 6: a module is bailed out: it may be read as a whole. The next round of a run, if there is one, uses its exports from
    /// CommonJS; with [`settle`](crate::Options::settle) there is one.
    Bailout(ModuleId),
}

impl Fact {
    /// Its three numbers in starts and records: kind and two parts, 0 for an unused one.
    ///
    /// ```
    /// use lizdakk::{Fact, ModuleId};
    ///
    /// assert_eq!(Fact::Bailout(ModuleId::new(4)).numbers(), [6, 4, 0]);
    /// ```
    pub const fn numbers(self) -> [u32; 3] {
        match self {
            Fact::Module(module) => [1, module.index(), 0],
            Fact::Statement(statement) => [2, statement.module().index(), statement.index()],
            Fact::Use(symbol, reason) => [3, symbol.index(), reason.0],
            Fact::CheckedUse(symbol, reason) => [4, symbol.index(), reason.0],
            Fact::Forward(symbol) => [5, symbol.index(), 0],
            Fact::Bailout(module) => [6, module.index(), 0],
        }
    }

    /// The fact of three numbers; none if they are no fact's.
    ///
    /// ```
    /// use lizdakk::{Fact, ModuleId};
    ///
    /// assert_eq!(Fact::of([1, 3, 0]), Some(Fact::Module(ModuleId::new(3))));
    /// assert_eq!(Fact::of([1, 3, 5]), None);
    /// assert_eq!(Fact::of([7, 0, 0]), None);
    /// ```
    pub const fn of([kind, first, second]: [u32; 3]) -> Option<Fact> {
        let (module, symbol) = (ModuleId::new(first), SymbolId::new(first));
        match (kind, second, Reason::new(second)) {
            (1, 0, _) => Some(Fact::Module(module)),
            (2, index, _) => Some(Fact::Statement(StatementId::new(module, index))),
            (3, _, Some(reason)) => Some(Fact::Use(symbol, reason)),
            (4, _, Some(reason)) => Some(Fact::CheckedUse(symbol, reason)),
            (5, 0, _) => Some(Fact::Forward(symbol)),
            (6, 0, _) => Some(Fact::Bailout(module)),
            _ => None,
        }
    }

    /// What the fact says of its module, statement or symbol.
    pub(crate) const fn verb(self) -> &'static str {
        match self {
            Fact::Module(_) | Fact::Statement(_) => "kept",
            Fact::Use(..) | Fact::CheckedUse(..) => "used",
            Fact::Forward(_) => "forwarded",
            Fact::Bailout(_) => "bailed out",
        }
    }

    /// The module, statement or symbol.
    pub(crate) fn part(self) -> crate::Part {
        match self {
            Fact::Module(module) | Fact::Bailout(module) => module.into(),
            Fact::Statement(statement) => statement.into(),
            Fact::Use(symbol, _) | Fact::CheckedUse(symbol, _) | Fact::Forward(symbol) => symbol.into(),
        }
    }
}

impl fmt::Display for Fact {
    fn fmt(&self, f: &mut fmt::Formatter) -> fmt::Result {
        match self {
            Fact::Module(module) => write!(f, "{module} is kept"),
            Fact::Statement(statement) => write!(f, "{statement} is kept"),
            Fact::Use(symbol, reason) => write!(f, "{symbol} is used ({reason})"),
            Fact::CheckedUse(symbol, reason) => write!(f, "{symbol} is used and checked ({reason})"),
            Fact::Forward(symbol) => write!(f, "{symbol} is forwarded"),
            Fact::Bailout(module) => write!(f, "{module} is bailed out"),
        }
    }
}

/// How a fact follows from others (docs/RULES.md, "Keep rules").
///
/// ```
/// use lizdakk::Rule;
///
/// assert_eq!(Rule::Declaration.number(), 13);
/// assert_eq!(Rule::Declaration.to_string(), "K13");
/// assert_eq!(Rule::Start.to_string(), "start");
/// ```
#[derive(Clone, Copy, Debug, PartialEq, Eq, PartialOrd, Ord, Hash)]
pub enum Rule {
    /// It follows from nothing: an entry, a round or the runtime began with it.
    Start,
    /// K1: a symbol is forwarded and its owner is kept: so are the statements that declare it.
    ForwardedDeclaration,
    /// K2: a module is kept: so are its statements with side effects.
    SideEffect,
    /// K3: a module is kept: so are its dependencies with side effects.
    Dependency,
    /// K4: a module with `eval` is kept: its named imports are used.
    EvalNamedImport,
    /// K5: a module is kept: the CommonJS exports that go with it are used.
    CommonJsExport,
    /// K6: an ES module is kept in dev mode: so is the statement of its namespace.
    DevMode,
    /// K7: a statement is kept: CommonJS modules that it requires, or imports by `import()`, are bailed out.
    ImportRecordBailout,
    /// K8: a statement is kept: what it refers to is used and forwarded.
    Reference,
    /// K9: a checked use is a use; where the symbol stands for a whole CommonJS module, that is bailed out.
    CheckedUse,
    /// K10: a use demands the body of a module: so its gated statements are kept.
    DemandedBody,
    /// K11: a use of an alias of a CommonJS export is a use of that export.
    CommonJsAlias,
    /// K12: a use of a symbol of a wrapped ES module is a use of its wrapper.
    Wrapper,
    /// K13: a symbol is used: so the statements that declare it and its module are kept.
    Declaration,
    /// K14: a symbol is used: so the statements that write a property of it are kept.
    PropertyWrite,
}

impl Rule {
    const ALL: [Rule; 15] = [
        Rule::Start,
        Rule::ForwardedDeclaration,
        Rule::SideEffect,
        Rule::Dependency,
        Rule::EvalNamedImport,
        Rule::CommonJsExport,
        Rule::DevMode,
        Rule::ImportRecordBailout,
        Rule::Reference,
        Rule::CheckedUse,
        Rule::DemandedBody,
        Rule::CommonJsAlias,
        Rule::Wrapper,
        Rule::Declaration,
        Rule::PropertyWrite,
    ];

    /// The rule of a number: 0 a start, 1 to 14 the rules K1 to K14.
    ///
    /// ```
    /// use lizdakk::Rule;
    ///
    /// assert_eq!(Rule::of(8), Some(Rule::Reference));
    /// assert_eq!(Rule::of(15), None);
    /// ```
    pub fn of(number: u32) -> Option<Rule> {
        Rule::ALL.get(number as usize).copied()
    }

    /// Its number.
    ///
    /// ```
    /// assert_eq!(lizdakk::Rule::Start.number(), 0);
    /// ```
    pub const fn number(self) -> u32 {
        self as u32
    }
}

impl fmt::Display for Rule {
    fn fmt(&self, f: &mut fmt::Formatter) -> fmt::Result {
        match self {
            Rule::Start => f.write_str("start"),
            rule => write!(f, "K{}", rule.number()),
        }
    }
}
