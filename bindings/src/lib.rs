//! What a bundle keeps, and why: tree shaking for bundlers, by a verified engine.
//!
//! The engine is a port of rolldown 1.2.16's `tree_shaking` in which every function is proved. This crate builds its
//! graphs, calls it, and tells its answers:
//!
//! - [`Graph`]: modules, symbols, statements, imports and entries, with typed ids. [`constructs`] shows how JavaScript is
//!   told to it. [`Graph::read`] and [`Graph::write`] take and make graph files.
//! - [`decide`]: what the entries keep. [`Kept`] has the kept modules and statements, the used symbols, dead imports,
//!   helpers. [`decide_from`]: what starts of your own keep.
//! - [`Kept::why`]: the chain from an entry to a kept thing. [`Kept::why_not`]: why a dynamic entry is dead.
//! - [`judge`]: whether a [`Record`], whoever wrote it, justifies what is kept, and nothing else.
//! - [`Refused`]: a graph that is not in order is refused, with the field in the words above; so are starts and records.
//!
//! ```
//! use lizdakk::{decide, Graph};
//!
//! // tools.js:  export function hammer() { .. }
//! //            export function saw() { .. }
//! // main.js:   import { hammer } from './tools.js';
//! //            hammer();
//! let mut graph = Graph::new();
//! let tools = graph.module("tools.js");
//! let (hammer, saw) = (graph.symbol(tools, "hammer"), graph.symbol(tools, "saw"));
//! for (name, symbol) in [("hammer", hammer), ("saw", saw)] {
//!     let function = graph.statement(tools);
//!     graph.declare(function, symbol);
//!     graph.export(tools, name, symbol);
//! }
//! let main = graph.module("main.js");
//! let import = graph.statement(main);
//! let imported = graph.import_symbol(import, hammer);
//! let call = graph.statement(main);
//! graph[call].has_side_effect = true;
//! graph.refer(call, imported);
//! graph.entry(main);
//!
//! let kept = decide(&graph)?;
//! assert!(kept.is_used(hammer) && !kept.is_used(saw));
//! assert_eq!(
//!     kept.why(tools).expect("it is kept").to_string(),
//!     "module 1 (tools.js) is kept because it owns symbol 2 (hammer of tools.js), \
//!      meant by symbol 5 (hammer of main.js) (K13), \
//!      which is used because it is referred to by statement 2 of module 2 (main.js) (K8, K9), \
//!      which is kept because it has a side effect in module 2 (main.js) (K2), \
//!      which is kept because it is user-defined entry 0 (start)."
//! );
//! # Ok::<(), lizdakk::Refused>(())
//! ```
//!
//! The numbers K1 to K14 are the keep rules, [`Rule`]; docs/RULES.md says what each gives, and docs/GRAPH.md what each
//! field means.
//!
//! # Stack
//! The engine takes no memory from the heap. A call uses at most [`STACK`] bytes (4 MiB) of stack. [`decide`],
//! [`decide_from`], [`judge`], [`effects`], [`own_starts`], [`Graph::read`] and [`Graph::check`] run on a thread of their
//! own that has enough. Their twins whose names end in `_here`, and the functions of [`boundary`], run on the caller's stack.
//!
//! # Features
//! `std`, on by default: the functions that start a thread. Without it the crate is `no_std`, with `alloc`.
//!
//! # Linking
//! The crate links the static library of the engine, for x86-64 Linux: `libhost.a` or `libhost_c.a` in the folder that
//! `KEEP_LIB_DIR` names, else `crates/host_c/out/libhost_c.a` of the repository, where `rt lib` leaves it, else the built
//! one in the crate's folder `lib`.
#![no_std]
#![warn(missing_docs)]

extern crate alloc;
#[cfg(feature = "std")]
extern crate std;

pub mod boundary;
pub mod constructs;
mod cycle;
mod decode;
mod encode;
mod engine;
mod fact;
mod graph;
mod ids;
mod index;
mod kept;
mod layout;
mod leb128;
mod record;
mod refused;
mod rows;
mod stack;
mod why;
mod why_not;

#[cfg(feature = "std")]
pub use engine::{decide, decide_from, effects, judge, own_starts};
pub use engine::{decide_from_here, decide_here, effects_here, judge_here, own_starts_here};
pub use fact::{Fact, Reason, Rule};
pub use graph::{
    CommonJsNamespace, Constant, DynamicImport, Entry, EntryKind, EnumMember, ExportsKind, Graph, HelperUse,
    ImportKind, ImportRecord, Module, ModuleType, Options, Part, Reference, RelatedStatement, ResolvedExport, Scan,
    SideEffects, Statement, Symbol, WrapKind,
};
pub use ids::{EntryId, HelperId, ImportRecordId, ModuleId, Name, StatementId, SymbolId};
pub use kept::{Kept, NamespaceReason};
pub use record::{Line, Record};
pub use refused::{Field, Refused};
#[cfg(feature = "std")]
pub use stack::with_stack;
pub use stack::STACK;
pub use why::{Asked, Cause, Origin, Step, Why};
pub use why_not::{Lacks, WhyNot};
