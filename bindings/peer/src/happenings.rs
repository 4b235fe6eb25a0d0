//! What happens in a run, by name: so that tests can count how often each step occurs, and cases can show all of them.

pub mod at_end;
pub mod settled;

use crate::listing::{first_records, is_set};
use crate::model::{Entry, Graph, Module};
use crate::reference::drain::Line;
use crate::reference::dynamic_entries::OrderingGraph;
use crate::reference::entries::{is_dynamic, parted};
use crate::reference::rows::Answer;
use crate::reference::rules::{Fact, Rules};
use crate::reference::run::Run;
use std::cell::RefCell;
use std::collections::{BTreeSet, HashSet};

/// The names of what happens, each once.
pub type Happenings = BTreeSet<&'static str>;

/// All names that [`happenings`] can give.
pub const ALL: [&str; 58] = [
    "1 round",
    "2 rounds",
    "3 rounds",
    "4 rounds or more",
    "a bailout of an external whose exports are used",
    "a bailout that is gathered in the last round and whose exports are not used",
    "a cycle",
    "a dead entry",
    "a dead import",
    "a dead import of an entry that is live in the end",
    "a dynamic import of the module that edges go from",
    "a dynamic import that no entry is behind",
    "a helper of a kept module",
    "a helper of a module that is not kept",
    "a live entry of an external",
    "a lone entry that imports itself",
    "a record without a target",
    "a related statement that is kept but of a pure import with no export used",
    "a related statement that is unreachable though kept",
    "a repeated start",
    "a runtime that is not kept, with helpers",
    "a start that is a fact already",
    "a user-defined entry of an external",
    "an emitted entry",
    "an edge over a static import",
    "an entry that is dead first and live later",
    "an entry that is live by its cycle alone",
    "an entry that is not in the ordering graph",
    "an entry reference of an external",
    "an entry without related statements",
    "an external with records",
    "entries of one module, user-defined and dynamic",
    "entries of one module, dynamic, one dead and one live",
    "exports from CommonJS are used in round 1",
    "exports from CommonJS are used in a later round",
    "grouping moves a dynamic entry",
    "grouping moves a user-defined entry",
    "grouping moves a live entry to a user-defined one",
    "no dynamic entry",
    "no entry",
    "no line",
    "no runtime stage",
    "runtime stage: K1 with a module kept before",
    "runtime stage: a bailout",
    "runtime stage: a fact of the main stage again",
    "runtime stage: a forward of the main stage is not joined",
    "runtime stage: a module",
    "runtime stage: a statement",
    "runtime stage: external grows",
    "runtime stage: json does not grow",
    "runtime stage: REASON does not grow",
    "runtime stage: the runtime for its effects",
    "runtime stage: the runtime for its effects, kept before",
    "runtime stage: two helpers or more",
    "runtime stage: used grows",
    "sorting moves an entry",
    "splitting is off and an entry is live",
    "two components in falling order",
];

/// What happens in the run of a graph.
pub fn happenings(graph: &Graph, run: &Run) -> Happenings {
    let rules = Rules::new(graph);
    let found = Found { graph, run, names: RefCell::default() };
    found.rounds();
    found.bailouts(&rules);
    found.references(&rules);
    found.entries();
    found.entries_of_one_module();
    found.ordering();
    found.imports();
    found.liveness();
    found.related(&rules);
    found.grouping();
    found.helpers(&rules);
    found.runtime_starts(&rules);
    found.runtime_lines(&rules);
    found.runtime_rows(&rules);
    found.names.into_inner()
}

struct Found<'a> {
    graph: &'a Graph,
    run: &'a Run,
    names: RefCell<Happenings>,
}

/// Whether the import of a related statement is pure and its module has no effects.
fn is_pure(rules: &Rules, row: &[u32; 4]) -> bool {
    let record = &rules.module(row[0]).records[row[2] as usize];
    record.bits & 2 != 0 && !rules.effectful(record.target - 1)
}

fn facts(lines: &[Line]) -> HashSet<Fact> {
    lines.iter().map(|line| line.fact).collect()
}

/// The facts that have a line as starts.
fn started(lines: &[Line]) -> HashSet<Fact> {
    lines.iter().filter(|line| line.rule == 0).map(|line| line.fact).collect()
}

impl<'a> Found<'a> {
    fn note(&self, name: &'static str, happens: bool) {
        assert!(ALL.contains(&name), "{name} is not listed");
        if happens {
            self.names.borrow_mut().insert(name);
        }
    }

    fn module(&self, index: u32) -> &'a Module {
        &self.graph.modules[index as usize]
    }

    fn dynamic(&self) -> impl Iterator<Item = (usize, &'a Entry)> {
        self.graph.entries.iter().enumerate().filter(|(_, entry)| is_dynamic(entry))
    }

    fn is_live(&self, entry: &Entry) -> bool {
        self.run.course.live[entry.module as usize]
    }

    fn rounds(&self) {
        let Run { rounds, lines, starts, .. } = self.run;
        self.note("1 round", *rounds == 1);
        self.note("2 rounds", *rounds == 2);
        self.note("3 rounds", *rounds == 3);
        self.note("4 rounds or more", *rounds >= 4);
        self.note("no line", lines.is_empty());
        let written = started(lines);
        self.note("a start that is a fact already", starts.iter().any(|start| !written.contains(start)));
    }

    fn bailouts(&self, rules: &Rules) {
        let Run { lines, course, .. } = self.run;
        let (all, written) = (facts(lines), started(lines));
        let last = course.begins[course.begins.len() - 1];
        let exports = |line: &Line| {
            let Fact::Bailout(module) = line.fact else { return Vec::new() };
            let rows = rules.module(module).resolved_exports.iter().filter(|row| row[2] == 1);
            rows.map(|row| Fact::CheckedUse(row[1], 1)).collect()
        };
        let dropped = lines[last..].iter().flat_map(exports).any(|fact| !all.contains(&fact));
        self.note("a bailout that is gathered in the last round and whose exports are not used", dropped);
        let external = |line: &&Line| matches!(line.fact, Fact::Bailout(module) if !rules.module(module).normal);
        let used = lines[..last].iter().filter(external).flat_map(exports).any(|fact| written.contains(&fact));
        self.note("a bailout of an external whose exports are used", used);
        let uses = |lines: &[Line]| started(lines).iter().any(|fact| matches!(fact, Fact::CheckedUse(_, 1)));
        let second = course.begins.get(1).copied().unwrap_or(lines.len());
        self.note("exports from CommonJS are used in round 1", uses(&lines[..second]));
        self.note("exports from CommonJS are used in a later round", uses(&lines[second..]));
    }

    fn references(&self, rules: &Rules) {
        let entries = self.graph.entries.iter();
        let references = entries.flat_map(|entry| &self.module(entry.module).entry_references);
        let external = references.clone().any(|&symbol| !rules.module(rules.symbol(symbol).owner).normal);
        self.note("an entry reference of an external", external);
        let mut seen = HashSet::new();
        self.note("a repeated start", !references.clone().all(|&symbol| seen.insert(symbol)));
    }

    fn entries(&self) {
        let entries = &self.graph.entries;
        self.note("no entry", entries.is_empty());
        self.note("no dynamic entry", self.dynamic().next().is_none());
        let external = |entry: &Entry| !self.module(entry.module).normal;
        let user = entries.iter().any(|entry| !is_dynamic(entry) && external(entry));
        self.note("a user-defined entry of an external", user);
        self.note("an emitted entry", entries.iter().any(|entry| entry.kind == 1));
        let live = self.dynamic().any(|(_, entry)| external(entry) && self.is_live(entry));
        self.note("a live entry of an external", live);
        self.note("an entry without related statements", self.dynamic().any(|(_, entry)| entry.related.is_empty()));
    }

    fn entries_of_one_module(&self) {
        let entries = &self.graph.entries;
        let also_dynamic = |entry: &Entry| self.dynamic().any(|(_, other)| other.module == entry.module);
        let both = entries.iter().any(|entry| !is_dynamic(entry) && also_dynamic(entry));
        self.note("entries of one module, user-defined and dynamic", both);
        let parted = self.dynamic().any(|(index, entry)| {
            let found_dead = self.run.course.found_dead[index];
            let mut others = self.dynamic().filter(|&(other, of)| other != index && of.module == entry.module);
            found_dead && others.any(|(other, _)| !self.run.course.found_dead[other]) && self.is_live(entry)
        });
        self.note("entries of one module, dynamic, one dead and one live", parted);
        let off = self.graph.options & 32 != 0 && self.dynamic().any(|(_, entry)| self.is_live(entry));
        self.note("splitting is off and an entry is live", off);
    }

    fn ordering(&self) {
        let (_, dynamic) = parted(self.graph);
        let ordering = OrderingGraph::new(self.graph, &dynamic);
        let components = ordering.components();
        self.note("a cycle", components.iter().any(|component| component.len() > 1));
        self.note("sorting moves an entry", self.run.course.order != dynamic);
        let modules: HashSet<u32> = self.dynamic().map(|(_, entry)| entry.module).collect();
        let outside = modules.iter().any(|module| !ordering.nodes.contains(module));
        self.note("an entry that is not in the ordering graph", outside);
        let alone = components.iter().filter(|component| component.len() == 1);
        let alone = alone.filter(|component| modules.contains(&ordering.nodes[component[0]])).count();
        self.note("two components in falling order", alone > 1);
        let behind = ordering.nodes.iter().any(|node| !modules.contains(node));
        self.note("a dynamic import that no entry is behind", behind);
        let node = |place: usize| ordering.nodes[place];
        let over =
            |from: usize| ordering.successors[from].iter().any(|&to| !self.imports_dynamically(node(from), node(to)));
        self.note("an edge over a static import", (0..ordering.nodes.len()).any(over));
    }

    fn imports_dynamically(&self, from: u32, to: u32) -> bool {
        let Module { normal, records, .. } = self.module(from);
        *normal && records.iter().any(|record| record.kind == 2 && record.target == to + 1)
    }

    fn imports(&self) {
        let mut selves = self.dynamic().map(|(_, entry)| entry.module);
        let mut selves = selves.by_ref().filter(|&module| self.imports_dynamically(module, module)).peekable();
        self.note("a dynamic import of the module that edges go from", selves.peek().is_some());
        let lone = selves.any(|module| !self.run.course.on_cycle[module as usize]);
        self.note("a lone entry that imports itself", lone);
        let records = |module: &Module| module.records.iter().any(|record| record.target == 0);
        self.note("a record without a target", self.graph.modules.iter().any(records));
        let external = |module: &Module| !module.normal && !module.records.is_empty();
        self.note("an external with records", self.graph.modules.iter().any(external));
    }

    fn liveness(&self) {
        let course = &self.run.course;
        self.note("a dead entry", self.dynamic().any(|(_, entry)| !self.is_live(entry)));
        self.note("a dead import", self.run.dead.iter().any(|&byte| byte != 0));
        let later = self.dynamic().any(|(index, entry)| course.found_dead[index] && self.is_live(entry));
        self.note("an entry that is dead first and live later", later);
        let firsts = first_records(self.graph);
        let dead = |&[module, _, record, unreachable]: &[u32; 4]| {
            unreachable == 0 && is_set(&self.run.dead, firsts[module as usize] + record as usize)
        };
        let marked = self.dynamic().any(|(_, entry)| self.is_live(entry) && entry.related.iter().any(dead));
        self.note("a dead import of an entry that is live in the end", marked);
    }

    fn related(&self, rules: &Rules) {
        let kept = facts(&self.run.lines);
        let is_kept = |row: &[u32; 4]| kept.contains(&Fact::Statement(row[0], row[1]));
        let some = |entry: &Entry, is: &dyn Fn(&[u32; 4]) -> bool| entry.related.iter().any(is);
        let of_dead =
            |is: &dyn Fn(&[u32; 4]) -> bool| self.dynamic().any(|(_, entry)| !self.is_live(entry) && some(entry, is));
        let unreachable = of_dead(&|row| row[3] == 1 && is_kept(row));
        self.note("a related statement that is unreachable though kept", unreachable);
        let unused = of_dead(&|row| row[3] == 0 && is_kept(row) && is_pure(rules, row));
        self.note("a related statement that is kept but of a pure import with no export used", unused);
        let cycled = self.dynamic().any(|(_, entry)| {
            self.run.course.on_cycle[entry.module as usize] && !some(entry, &|row| row[3] == 0 && is_kept(row))
        });
        self.note("an entry that is live by its cycle alone", cycled);
    }

    fn grouping(&self) {
        let (user_defined, dynamic) = parted(self.graph);
        self.note("grouping moves a user-defined entry", !user_defined.is_sorted());
        self.note("grouping moves a dynamic entry", !dynamic.is_sorted());
        let live = |entry: &&u32| self.is_live(&self.graph.entries[**entry as usize]);
        let splits = self.graph.options & 32 == 0;
        let lived = self.run.course.order.iter().filter(|entry| splits && live(entry));
        let plain: Vec<u32> = user_defined.iter().chain(lived).copied().collect();
        self.note("grouping moves a live entry to a user-defined one", plain != self.run.entries);
    }

    fn helpers(&self, rules: &Rules) {
        let kept = facts(&self.run.lines);
        for (index, &word) in (0..).zip(&self.run.helpers) {
            let is_kept = kept.contains(&Fact::Module(index));
            self.note("a helper of a kept module", word != 0 && is_kept);
            self.note("a helper of a module that is not kept", word != 0 && !is_kept);
            let runtime = index == self.graph.runtime && !is_kept && !rules.module(index).helpers.is_empty();
            self.note("a runtime that is not kept, with helpers", runtime);
        }
    }

    fn runtime_starts(&self, rules: &Rules) {
        let Run { lines, runtime_lines, .. } = self.run;
        let (starts, runtime) = (started(runtime_lines), self.graph.runtime);
        self.note("no runtime stage", runtime_lines.is_empty());
        let effects = starts.iter().any(|start| matches!(start, Fact::Module(_)));
        self.note("runtime stage: the runtime for its effects", effects);
        let kept = rules.effectful(runtime) && facts(lines).contains(&Fact::Module(runtime));
        self.note("runtime stage: the runtime for its effects, kept before", kept && runtime_lines.is_empty());
        self.note("runtime stage: two helpers or more", starts.len() > 1);
    }

    fn runtime_lines(&self, rules: &Rules) {
        let (main, runtime) = (facts(&self.run.lines), facts(&self.run.runtime_lines));
        let joined = self.run.runtime_lines.iter().any(|line| line.rule == 1 && line.names[1] == 0);
        self.note("runtime stage: K1 with a module kept before", joined);
        self.note("runtime stage: a fact of the main stage again", runtime.intersection(&main).next().is_some());
        let has = |is: fn(&Fact) -> bool| runtime.iter().any(is);
        self.note("runtime stage: a module", has(|fact| matches!(fact, Fact::Module(_))));
        self.note("runtime stage: a statement", has(|fact| matches!(fact, Fact::Statement(..))));
        self.note("runtime stage: a bailout", has(|fact| matches!(fact, Fact::Bailout(_))));
        let is_new = |fact: &Fact| !main.contains(fact) && !runtime.contains(fact);
        let waits = |fact: &Fact| match *fact {
            Fact::Forward(symbol) => {
                let owner = Fact::Module(rules.symbol(symbol).owner);
                runtime.contains(&owner) && !runtime.contains(fact) && rules.declaring(symbol).any(|fact| is_new(&fact))
            }
            _ => false,
        };
        self.note("runtime stage: a forward of the main stage is not joined", main.iter().any(waits));
    }

    fn runtime_rows(&self, rules: &Rules) {
        let [first, second] = [&self.run.lines, &self.run.runtime_lines].map(|lines| Answer::new(rules, lines.clone()));
        let grows = |first: &[u8], second: &[u8]| first.iter().zip(second).any(|(first, second)| second & !first != 0);
        self.note("runtime stage: used grows", grows(&first.used, &second.used));
        self.note("runtime stage: external grows", grows(&first.external, &second.external));
        self.note("runtime stage: json does not grow", grows(&first.json, &second.json));
        self.note("runtime stage: REASON does not grow", grows(&first.reason, &second.reason));
    }
}
