//! Typed indexes: which module, symbol, statement, import record, entry or helper is meant.

use core::fmt;

/// An index of its own type: `new`, `index`, and a `Display` with the word in front.
macro_rules! id {
    ($(#[$doc:meta])* $name:ident, $word:literal, $example:literal) => {
        $(#[$doc])*
        ///
        /// ```
        #[doc = $example]
        /// ```
        #[derive(Clone, Copy, Debug, PartialEq, Eq, PartialOrd, Ord, Hash)]
        pub struct $name(u32);

        impl $name {
            /// The one with this index. A [`Graph`](crate::Graph) gives indexes from 0 in the order of adding.
            ///
            /// ```
            #[doc = $example]
            /// ```
            pub const fn new(index: u32) -> $name {
                $name(index)
            }

            /// Its index.
            ///
            /// ```
            #[doc = $example]
            /// ```
            pub const fn index(self) -> u32 {
                self.0
            }

            /// Its index into a slice. Nothing is stored by name.
            #[allow(dead_code)]
            pub(crate) const fn at(self) -> usize {
                self.0 as usize
            }
        }

        impl fmt::Display for $name {
            fn fmt(&self, f: &mut fmt::Formatter) -> fmt::Result {
                write!(f, concat!($word, " {}"), self.0)
            }
        }
    };
}

id! {
    /// A module of a graph.
    ModuleId, "module", "let id = lizdakk::ModuleId::new(3);\nassert_eq!(id.index(), 3);\nassert_eq!(id.to_string(), \"module 3\");"
}
id! {
    /// A symbol of a graph. Symbols of all modules are counted together.
    SymbolId, "symbol", "let id = lizdakk::SymbolId::new(12);\nassert_eq!(id.index(), 12);\nassert_eq!(id.to_string(), \"symbol 12\");"
}
id! {
    /// An entry of a graph: a module that a user or a dynamic import begins with.
    EntryId, "entry", "let id = lizdakk::EntryId::new(1);\nassert_eq!(id.index(), 1);\nassert_eq!(id.to_string(), \"entry 1\");"
}
id! {
    /// A helper of the runtime, such as the one that wraps a CommonJS module.
    HelperId, "helper", "let id = lizdakk::HelperId::new(4);\nassert_eq!(id.index(), 4);\nassert_eq!(id.to_string(), \"helper 4\");"
}
id! {
    /// A name: an export's, a symbol's, a property's. Only whether two are the same matters; `new(0)` is "default".
    /// [`Graph::name`](crate::Graph::name) gives each text its own.
    Name, "name", "let id = lizdakk::Name::new(7);\nassert_eq!(id.index(), 7);\nassert_eq!(id.to_string(), \"name 7\");"
}

impl Name {
    /// The name "default".
    ///
    /// ```
    /// assert_eq!(lizdakk::Graph::new().name("default"), lizdakk::Name::DEFAULT);
    /// ```
    pub const DEFAULT: Name = Name(0);
}

/// An index within a module: `new`, `module`, `index`, and a `Display` with the word in front.
macro_rules! id_in_module {
    ($(#[$doc:meta])* $name:ident, $word:literal, $example:literal) => {
        $(#[$doc])*
        ///
        /// ```
        #[doc = $example]
        /// ```
        #[derive(Clone, Copy, Debug, PartialEq, Eq, PartialOrd, Ord, Hash)]
        pub struct $name {
            module: ModuleId,
            index: u32,
        }

        impl $name {
            /// The one of a module with this index, counted from 0.
            ///
            /// ```
            #[doc = $example]
            /// ```
            pub const fn new(module: ModuleId, index: u32) -> $name {
                $name { module, index }
            }

            /// The module that it belongs to.
            ///
            /// ```
            #[doc = $example]
            /// ```
            pub const fn module(self) -> ModuleId {
                self.module
            }

            /// Its index in that module.
            ///
            /// ```
            #[doc = $example]
            /// ```
            pub const fn index(self) -> u32 {
                self.index
            }

            /// Its index into a slice.
            pub(crate) const fn at(self) -> usize {
                self.index as usize
            }
        }

        impl fmt::Display for $name {
            fn fmt(&self, f: &mut fmt::Formatter) -> fmt::Result {
                write!(f, concat!($word, " {} of {}"), self.index, self.module)
            }
        }
    };
}

id_in_module! {
    /// A statement of a module. Statement 0 of a normal module is the one of its namespace.
    StatementId, "statement", "use lizdakk::{ModuleId, StatementId};\n\nlet id = StatementId::new(ModuleId::new(7), 3);\nassert_eq!((id.module(), id.index()), (ModuleId::new(7), 3));\nassert_eq!(id.to_string(), \"statement 3 of module 7\");"
}
id_in_module! {
    /// An import record of a module: an `import`, a `require` or an `import()`.
    ImportRecordId, "import record", "use lizdakk::{ImportRecordId, ModuleId};\n\nlet id = ImportRecordId::new(ModuleId::new(2), 0);\nassert_eq!((id.module(), id.index()), (ModuleId::new(2), 0));\nassert_eq!(id.to_string(), \"import record 0 of module 2\");"
}
