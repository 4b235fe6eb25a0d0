//! How the constructs of JavaScript are told to the builder, each with what is kept then.
//!
//! The engine decides from what it is told, and from nothing else: a reference, an export or a side effect that is not in
//! the graph is lost without a word. Each example runs.
//!
//! # A statement with a side effect
//! ```
//! # use lizdakk::Graph;
//! # let mut graph = Graph::new();
//! // setup.js:  globalThis.ready = true;
//! let setup = graph.module("setup.js");
//! let assignment = graph.statement(setup);
//! graph[assignment].has_side_effect = true;
//!
//! // main.js:   import './setup.js';
//! let main = graph.module("main.js");
//! let import = graph.statement(main);
//! graph.import(import, setup);
//! graph.entry(main);
//!
//! let kept = lizdakk::decide(&graph)?;
//! assert!(kept.is_statement_kept(assignment));
//! # Ok::<(), lizdakk::Refused>(())
//! ```
//! A package that says `"sideEffects": false` is `graph[setup].side_effects = Some(SideEffects::UserDefined(false))`; then
//! `setup.js` is dropped here.
//!
//! # Exports and named imports
//! ```
//! # use lizdakk::Graph;
//! # let mut graph = Graph::new();
//! // tools.js:  export function hammer() { .. }
//! let tools = graph.module("tools.js");
//! let (hammer, function) = (graph.symbol(tools, "hammer"), graph.statement(tools));
//! graph.declare(function, hammer);
//! graph.export(tools, "hammer", hammer);
//!
//! // main.js:   import { hammer } from './tools.js';
//! //            hammer();
//! let main = graph.module("main.js");
//! let import = graph.statement(main);
//! let imported = graph.import_symbol(import, hammer);
//! let call = graph.statement(main);
//! graph[call].has_side_effect = true;
//! graph.refer(call, imported);
//! graph.entry(main);
//!
//! let kept = lizdakk::decide(&graph)?;
//! assert!(kept.is_statement_kept(function) && kept.is_statement_kept(import));
//! # Ok::<(), lizdakk::Refused>(())
//! ```
//!
//! # What an entry exports
//! ```
//! # use lizdakk::Graph;
//! # let mut graph = Graph::new();
//! // library.js:  export const version = '1';
//! let library = graph.module("library.js");
//! let (version, constant) = (graph.symbol(library, "version"), graph.statement(library));
//! graph.declare(constant, version);
//! graph.export(library, "version", version);
//! graph.entry(library);
//!
//! let kept = lizdakk::decide(&graph)?;
//! assert!(kept.is_statement_kept(constant));
//! # Ok::<(), lizdakk::Refused>(())
//! ```
//!
//! # A re-export through a barrel
//! ```
//! # use lizdakk::{Graph, SideEffects};
//! # let mut graph = Graph::new();
//! # let tools = graph.module("tools.js");
//! # let (hammer, function) = (graph.symbol(tools, "hammer"), graph.statement(tools));
//! # graph.declare(function, hammer);
//! # graph.export(tools, "hammer", hammer);
//! // index.js, in a package with "sideEffects": false:  export { hammer } from './tools.js';
//! let barrel = graph.module("index.js");
//! graph[barrel].side_effects = Some(SideEffects::UserDefined(false));
//! let re_export = graph.statement(barrel);
//! let forwarded = graph.import_symbol(re_export, hammer);
//! graph.export(barrel, "hammer", forwarded);
//!
//! // main.js:   import { hammer } from './index.js';
//! //            hammer();
//! let main = graph.module("main.js");
//! let import = graph.statement(main);
//! let imported = graph.import_symbol(import, forwarded);
//! graph[imported].export_chain.push(forwarded);
//! let call = graph.statement(main);
//! graph[call].has_side_effect = true;
//! graph.refer(call, imported);
//! graph.entry(main);
//!
//! let kept = lizdakk::decide(&graph)?;
//! assert!(kept.is_kept(tools), "the symbol is linked to it");
//! assert!(!kept.is_kept(barrel), "nothing of it is needed");
//! # Ok::<(), lizdakk::Refused>(())
//! ```
//!
//! # `require`
//! ```
//! # use lizdakk::Graph;
//! # let mut graph = Graph::new();
//! // legacy.cjs:  exports.run = function () { .. };
//! let legacy = graph.commonjs("legacy.cjs");
//! let assignment = graph.statement(legacy);
//! graph[assignment].has_side_effect = true;
//!
//! // main.js:     require('./legacy.cjs').run();
//! let main = graph.module("main.js");
//! let call = graph.statement(main);
//! graph[call].has_side_effect = true;
//! graph.require(call, legacy);
//! graph.entry(main);
//!
//! let kept = lizdakk::decide(&graph)?;
//! assert!(kept.is_statement_kept(assignment));
//! # Ok::<(), lizdakk::Refused>(())
//! ```
//! The import record alone keeps nothing of `legacy.cjs`: what evaluates it is its wrapper, to which
//! [`Graph::require`](crate::Graph::require) refers.
//!
//! # Names of an ES import from a CommonJS module
//! ```
//! # use lizdakk::{CommonJsNamespace, Graph};
//! # let mut graph = Graph::new();
//! # let legacy = graph.commonjs("legacy.cjs");
//! // legacy.cjs:  exports.run = function () { .. };
//! let (run, assignment) = (graph.symbol(legacy, "run"), graph.statement(legacy));
//! graph.declare(assignment, run);
//! graph.export(legacy, "run", run);
//!
//! // main.js:     import { run } from './legacy.cjs';    that is, import_legacy.run
//! //              run();
//! let main = graph.module("main.js");
//! let import = graph.statement(main);
//! graph.import(import, legacy);
//! let wrapper = graph[legacy].wrapper.expect("a CommonJS module has one");
//! graph.refer(import, wrapper);
//! let namespace = graph.symbol(main, "import_legacy");
//! graph.declare(import, namespace);
//! graph[main].commonjs_namespaces.push(CommonJsNamespace { symbol: namespace, module: legacy });
//! let imported = graph.symbol(main, "run");
//! graph[imported].alias_namespace = Some(namespace);
//! graph[imported].alias_name = graph.name("run");
//! graph[main].named_imports.push(imported);
//! let call = graph.statement(main);
//! graph[call].has_side_effect = true;
//! graph.refer(call, imported);
//! graph.entry(main);
//!
//! let kept = lizdakk::decide(&graph)?;
//! assert!(kept.is_used(run) && kept.is_kept(legacy));
//! # Ok::<(), lizdakk::Refused>(())
//! ```
//!
//! # JSON
//! ```
//! # use lizdakk::{Graph, ModuleType};
//! # let mut graph = Graph::new();
//! // package.json:  { "version": "1" }
//! let package = graph.module("package.json");
//! graph[package].module_type = ModuleType::Json;
//! let (version, member) = (graph.symbol(package, "version"), graph.statement(package));
//! graph.declare(member, version);
//! graph.export(package, "version", version);
//!
//! // main.js:       import { version } from './package.json';
//! //                console.log(version);
//! let main = graph.module("main.js");
//! let import = graph.statement(main);
//! let imported = graph.import_symbol(import, version);
//! let log = graph.statement(main);
//! graph[log].has_side_effect = true;
//! graph.refer(log, imported);
//! graph.entry(main);
//!
//! let kept = lizdakk::decide(&graph)?;
//! assert_eq!(kept.json().collect::<Vec<_>>(), [version]);
//! # Ok::<(), lizdakk::Refused>(())
//! ```
//!
//! # An external module
//! ```
//! # use lizdakk::Graph;
//! # let mut graph = Graph::new();
//! // main.js:  import { useState } from 'react';
//! //           useState();
//! let react = graph.external("react");
//! let hook = graph.symbol(react, "useState");
//! let main = graph.module("main.js");
//! let import = graph.statement(main);
//! let imported = graph.import_symbol(import, hook);
//! let call = graph.statement(main);
//! graph[call].has_side_effect = true;
//! graph.refer(call, imported);
//! graph.entry(main);
//!
//! let kept = lizdakk::decide(&graph)?;
//! assert_eq!(kept.external().collect::<Vec<_>>(), [hook]);
//! # Ok::<(), lizdakk::Refused>(())
//! ```
//! An external module has side effects unless its `side_effects` say otherwise, and so has what imports it.
//!
//! # `import()`
//! ```
//! # use lizdakk::Graph;
//! # let mut graph = Graph::new();
//! // main.js:  const page = await import('./page.js');
//! let (main, page) = (graph.module("main.js"), graph.module("page.js"));
//! let statement = graph.statement(main);
//! graph[statement].has_side_effect = true;
//! let import = graph.dynamic_import(statement, page);
//! graph.entry(main);
//!
//! let kept = lizdakk::decide(&graph)?;
//! assert!(kept.is_live(import.entry) && kept.is_kept(page));
//! # Ok::<(), lizdakk::Refused>(())
//! ```
//! It is judged dead if no statement that has it is kept, if it is never reached, or if nothing could notice:
//! `graph[import.record].is_top_level_pure`, `graph[page].dynamic_imports_use_no_export`, and no side effects in
//! `page.js`. [`Lacks`](crate::Lacks) has the cases. If a later round keeps the statement, a pure import stays dead unless
//! `graph.options.dead_imports_at_end` is on. An entry that only one more round would find live stays dead unless
//! `graph.options.settle` is on.
//!
//! # A helper of the runtime
//! ```
//! # use lizdakk::{Graph, HelperUse};
//! # let mut graph = Graph::new();
//! // The runtime declares __export; a statement of main.js needs it.
//! let runtime = graph.runtime();
//! let (symbol, function) = (graph.symbol(runtime, "__export"), graph.statement(runtime));
//! graph.declare(function, symbol);
//! let helper = graph.helper(symbol);
//! let main = graph.module("main.js");
//! let statement = graph.statement(main);
//! graph[statement].has_side_effect = true;
//! graph[main].helpers.push(HelperUse { helper, statement });
//! graph.entry(main);
//!
//! let kept = lizdakk::decide(&graph)?;
//! assert!(kept.is_statement_kept(function));
//! # Ok::<(), lizdakk::Refused>(())
//! ```
