/*
 * Tree shaking for bundlers: what a bundle keeps, and why. The C interface of the static library libhost.a.
 *
 * Usual order of calls: keep_read (file to numbers), keep_check (are the numbers a graph?), keep_count (what the
 * lengths of the rows follow from), keep_run_with (what is kept). After a run, keep_starts and keep_judge check its
 * record.
 *
 * Words:
 *   graph   the modules, symbols, statements and entries of a bundle, written as numbers: docs/GRAPH.md
 *   fact    that something is kept or used: enum keep_fact
 *   start   a fact that is given; every other fact follows from earlier ones by a rule: enum keep_rule, docs/RULES.md
 *   record  a line for each fact: the fact, its rule and the lines that it follows from: struct keep_line
 *   row     memory that the caller lends: a pointer, then a length in elements (not in bytes)
 *
 * Rows. A pointer has to be aligned for its elements and valid for the whole length. With length 0 it may be NULL:
 * nothing is read or written through it. A row that is written may not overlap another row. Any length is answered: a
 * row that is too short is refused, and a longer answer row keeps what is behind the answer. Bits are counted from the
 * lowest bit of byte 0 (keep_bit); spare bits of an answer's last byte are 0.
 *
 * Refusals. Each answer has a `number` (enum keep_refusal_number; KEEP_PASSED is 0) and a `place` (where the fault is;
 * 0 if nothing is refused). After a refusal the answer rows are as they were lent.
 *
 * Calls take no memory from the heap, keep nothing between them and may run on several threads at once, each with rows
 * of its own to write. A call uses at most KEEP_STACK bytes of stack: a thread that calls needs more than that.
 *
 * The functions of the library come first. What follows them is `static inline` and optional: it only counts, fills
 * structs and reads bits. docs/OPERATIONS.md says exactly what each function answers.
 */
#ifndef KEEP_H
#define KEEP_H

#include <stddef.h>
#include <stdint.h>

#ifdef __cplusplus
extern "C" {
#endif

/* The most stack that a call uses, in bytes: 4 MiB. */
#define KEEP_STACK 4194304

/* ---- Constants of answers ---- */

/* Why a call is refused. */
enum keep_refusal_number {
    KEEP_PASSED = 0,                /* not refused */
    KEEP_REFUSED_FAULTY_NUMBER = 1, /* a malformed number in a file; place: its first byte */
    KEEP_REFUSED_OVER_LIMIT = 2,    /* a count above its limit; place: index of the number */
    KEEP_REFUSED_OUT_OF_RANGE = 3,  /* a value or an index that is not allowed there; place: index of the number */
    KEEP_REFUSED_LENGTH = 4,        /* numbers missing (place: the length) or left over (place: the first of them) */
    KEEP_REFUSED_TOO_SHORT = 5,     /* a lent row is too short; place: 0 */
    /* A record that is no justification; place: its first bad line, or the number of its lines if a fact is absent. */
    KEEP_REFUSED_UNJUSTIFIED = 6
};

/* The kind of a fact, and its two parts. */
enum keep_fact {
    KEEP_FACT_MODULE = 1,      /* a module is kept: module, 0 */
    KEEP_FACT_STATEMENT = 2,   /* a statement is kept: module, statement */
    KEEP_FACT_USE = 3,         /* a symbol is used: symbol, reason (bits of enum keep_reason) */
    KEEP_FACT_CHECKED_USE = 4, /* a symbol is used and checked for CommonJS bailouts: symbol, reason */
    KEEP_FACT_FORWARD = 5,     /* what declares a symbol is kept as soon as its module is: symbol, 0 */
    /* A module may be read as a whole; the next round, if there is one, uses its CommonJS exports: module, 0. */
    KEEP_FACT_BAILOUT = 6
};

/* Why a symbol is used: bits. A reason is 1 to 31. */
enum keep_reason {
    KEEP_REASON_NORMAL = 1,
    KEEP_REASON_ENTRY_EXPORT = 2,
    KEEP_REASON_RE_EXPORT_DYNAMIC_EXPORTS = 4,
    KEEP_REASON_JSON_DEFAULT_EXPORT_SELF_REFERENCE = 8,
    KEEP_REASON_SIMULATED_FACADE_CHUNK = 16
};

/* The rule by which a fact has its line: K1 to K14 of docs/RULES.md. */
enum keep_rule {
    KEEP_RULE_START = 0,
    KEEP_RULE_FORWARDED_DECLARATION = 1,
    KEEP_RULE_SIDE_EFFECT = 2,
    KEEP_RULE_DEPENDENCY = 3,
    KEEP_RULE_EVAL_NAMED_IMPORT = 4,
    KEEP_RULE_COMMONJS_EXPORT = 5,
    KEEP_RULE_DEV_MODE = 6,
    KEEP_RULE_IMPORT_RECORD_BAILOUT = 7,
    KEEP_RULE_REFERENCE = 8,
    KEEP_RULE_CHECKED_USE = 9,
    KEEP_RULE_DEMANDED_BODY = 10,
    KEEP_RULE_COMMONJS_ALIAS = 11,
    KEEP_RULE_WRAPPER = 12,
    KEEP_RULE_DECLARATION = 13,
    KEEP_RULE_PROPERTY_WRITE = 14
};

/* Why a module's namespace object is used (the row `reason`): bits; 0: no use of it was noted. */
enum keep_namespace_reason {
    KEEP_NAMESPACE_UNKNOWN = 1,
    KEEP_NAMESPACE_RE_EXPORT_DYNAMIC_EXPORTS = 2
};

/* ---- Constants of a graph: docs/GRAPH.md says where each number stands ---- */

/* The largest counts that a graph may have. */
enum keep_limit {
    KEEP_MAX_MODULES = 1024,
    KEEP_MAX_SYMBOLS = 16384,
    KEEP_MAX_STATEMENTS = 16384, /* of all modules together */
    KEEP_MAX_ENTRIES = 1024,
    KEEP_MAX_HELPERS = 32,
    KEEP_MAX_LIST = 16384 /* elements of any list */
};

/* Options: bits. */
enum keep_option {
    KEEP_OPTION_TREESHAKE = 1,
    KEEP_OPTION_INLINE_CONST_SMART = 2,
    KEEP_OPTION_COMMONJS = 4,                          /* treeshake.commonjs */
    KEEP_OPTION_PROPERTY_WRITE_SIDE_EFFECTS_FALSE = 8, /* treeshake.propertyWriteSideEffects: false */
    KEEP_OPTION_DEV_MODE = 16,
    KEEP_OPTION_CODE_SPLITTING_DISABLED = 32,
    /* The row `dead` is worked out after the last round. If not, it has all that some round marked, also where the
       entry came alive in a later one. */
    KEEP_OPTION_DEAD_IMPORTS_AT_END = 64,
    /* Rounds go on until one gives no new fact, finds no further dynamic entry live and leaves no bailout untaken. If
       not, they end with the first one that keeps no further module, and an entry can stay dead that one more round
       would find live. */
    KEEP_OPTION_SETTLE = 128
};

/* The kind of a module. */
enum keep_module_kind {
    KEEP_MODULE_EXTERNAL = 0,
    KEEP_MODULE_NORMAL = 1
};

/* Whether a module has side effects: in a graph, and in the answer of keep_effects. */
enum keep_side_effects {
    KEEP_SIDE_EFFECTS_ANALYZED_FALSE = 0,
    KEEP_SIDE_EFFECTS_ANALYZED_TRUE = 1,
    KEEP_SIDE_EFFECTS_USER_DEFINED_FALSE = 2,
    KEEP_SIDE_EFFECTS_USER_DEFINED_TRUE = 3,
    KEEP_SIDE_EFFECTS_NO_TREESHAKE = 4
};

/* A module's exports kind. */
enum keep_exports_kind {
    KEEP_EXPORTS_ESM = 0,
    KEEP_EXPORTS_COMMONJS = 1,
    KEEP_EXPORTS_OTHER = 2
};

/* A module's type. */
enum keep_module_type {
    KEEP_TYPE_JS = 0,
    KEEP_TYPE_JSX = 1,
    KEEP_TYPE_JSON = 2,
    KEEP_TYPE_OTHER = 3
};

/* A module's flags: bits. */
enum keep_module_flag {
    KEEP_MODULE_FLAG_EVAL = 1,
    KEEP_MODULE_FLAG_SAFELY_TREESHAKE_COMMONJS = 2,
    KEEP_MODULE_FLAG_IS_CJS_REEXPORT = 4,
    KEEP_MODULE_FLAG_DYNAMIC_EXPORTS = 8,
    KEEP_MODULE_FLAG_DYNAMIC_IMPORTS_USE_NO_EXPORT = 16,
    KEEP_MODULE_FLAG_RELAXED_SIDE_EFFECTS = 32
};

/* How a module is wrapped. */
enum keep_wrap_kind {
    KEEP_WRAP_NONE = 0,
    KEEP_WRAP_CJS = 1,
    KEEP_WRAP_ESM = 2
};

/* The kind of an import record. */
enum keep_import_kind {
    KEEP_IMPORT_IMPORT = 0,
    KEEP_IMPORT_REQUIRE = 1, /* require, or any other kind */
    KEEP_IMPORT_DYNAMIC = 2
};

/* An import record's bits. */
enum keep_import_record_bit {
    KEEP_IMPORT_RECORD_IS_EXPORT_STAR = 1,
    KEEP_IMPORT_RECORD_TOP_LEVEL_PURE_DYNAMIC_IMPORT = 2
};

/* A symbol's constant bits. */
enum keep_constant_bit {
    KEEP_CONSTANT_KNOWN = 1,
    KEEP_CONSTANT_SAFE_TO_INLINE = 2,
    KEEP_CONSTANT_COMMONJS_EXPORT = 4
};

/* A statement's bits. */
enum keep_statement_bit {
    KEEP_STATEMENT_SIDE_EFFECT = 1,
    KEEP_STATEMENT_UNKNOWN_SIDE_EFFECT = 2,
    KEEP_STATEMENT_FORCE_TREE_SHAKING = 4,
    KEEP_STATEMENT_RE_EXPORT_DYNAMIC_EXPORTS = 8,
    KEEP_STATEMENT_DECLARES = 16
};

/* The kind of a statement's reference, and the numbers behind it. */
enum keep_reference_kind {
    KEEP_REFERENCE_SYMBOL = 0,           /* symbol */
    KEEP_REFERENCE_RESOLVED_TO_NOTHING = 1, /* member expression, resolved to no symbol: none */
    KEEP_REFERENCE_RESOLVED = 2,  /* member expression, resolved: symbol, CommonJS target 0/1, list of symbols */
    KEEP_REFERENCE_MEMBER = 3       /* member expression, not resolved: object, write 0/1, properties, first */
};

/* The kind of an entry. */
enum keep_entry_kind {
    KEEP_ENTRY_USER_DEFINED = 0,
    KEEP_ENTRY_EMITTED_USER_DEFINED = 1,
    KEEP_ENTRY_DYNAMIC_IMPORT = 2
};

/* How many numbers a start has, and how many a record line has. */
enum keep_width {
    KEEP_START_NUMBERS = 3,
    KEEP_LINE_NUMBERS = 6
};

/* ---- Answers ---- */

/* Of keep_check, keep_effects and keep_judge. */
struct keep_refusal {
    uint32_t number; /* enum keep_refusal_number */
    uint64_t place;
};

/* Of keep_read and keep_starts. */
struct keep_read_answer {
    uint32_t number;
    uint64_t place;
    uint64_t count; /* how many numbers were written; 0 if refused */
};

/* Of keep_drain. */
struct keep_drain_answer {
    uint32_t number;
    uint64_t place;
    uint64_t lines; /* how many record lines were written; 0 if refused */
};

/* Of keep_run. What follows `place` is 0 if refused. */
struct keep_run_answer {
    uint32_t number;
    uint64_t place;
    uint64_t rounds;        /* how many rounds over the dynamic entries were made (KEEP_OPTION_SETTLE) */
    uint64_t lines;         /* how many record lines the main stage wrote */
    uint64_t runtime_lines; /* how many record lines the runtime stage wrote behind them */
    uint64_t entries;       /* how many final entries were written */
};

/* ---- The library ---- */

/*
 * Reads the numbers of a file: unsigned LEB128, each below 2^32 and in its shortest form.
 *
 * `numbers` begins with the `count` numbers of the file. A row as long as the file always suffices.
 *
 * Refused, number by number from the front: KEEP_REFUSED_FAULTY_NUMBER if the number has more than five bytes, is 2^32
 * or more, is not in its shortest form or is cut off by the end of the file; else KEEP_REFUSED_TOO_SHORT if `numbers`
 * is full.
 */
struct keep_read_answer keep_read(const uint8_t *file, size_t file_length, uint32_t *numbers, size_t numbers_length);

/*
 * Says whether numbers are a graph. Nothing is written.
 *
 * Refused at the first fault from the front: KEEP_REFUSED_LENGTH (a number is missing), KEEP_REFUSED_OVER_LIMIT or
 * KEEP_REFUSED_OUT_OF_RANGE. Then KEEP_REFUSED_OUT_OF_RANGE if the runtime module is not normal, a module does not own
 * its namespace or the root of a symbol is not its own root; place: the number that names the module or symbol, the
 * first of several. Last KEEP_REFUSED_LENGTH if numbers are left over.
 */
struct keep_refusal keep_check(const uint32_t *numbers, size_t numbers_length);

/*
 * Writes for each module of a graph whether it has side effects (enum keep_side_effects), after they have spread along
 * the imports.
 *
 * Refused as by keep_check; then KEEP_REFUSED_TOO_SHORT if `verdicts` has less than a number for each module.
 */
struct keep_refusal keep_effects(const uint32_t *numbers, size_t numbers_length, uint32_t *verdicts,
                                 size_t verdicts_length);

/*
 * Works out what follows from given starts: the smallest set of facts that holds them and is closed under the rules.
 *
 * A start is three numbers, the kind of a fact and its two parts; a KEEP_FACT_FORWARD is no start. keep_drain_with
 * takes the rows as a struct; struct keep_drain_rows says what each row is. Marks and record are cleared whole, then
 * written from the front.
 *
 * Refused as by keep_check; then, about the starts, KEEP_REFUSED_LENGTH (their length is no multiple of 3; place: the
 * length) or KEEP_REFUSED_OUT_OF_RANGE (place: index in the starts); then KEEP_REFUSED_TOO_SHORT, the record last. If
 * the record was found too short during the work, marks and record are all zero; after any other refusal they are as
 * lent.
 */
struct keep_drain_answer keep_drain(const uint32_t *numbers, size_t numbers_length, const uint32_t *starts,
                                    size_t starts_length, uint8_t *marks, size_t marks_length, uint32_t *record,
                                    size_t record_length, uint8_t *modules, size_t modules_length,
                                    uint8_t *statements, size_t statements_length, uint8_t *used, size_t used_length,
                                    uint8_t *external, size_t external_length, uint8_t *json, size_t json_length,
                                    uint8_t *reason, size_t reason_length);

/*
 * Works out what the entries of a graph keep, which dynamic entries are live, and what the runtime helpers add.
 *
 * keep_run_with takes the rows as a struct; struct keep_run_rows says what each row is. The main stage works out what
 * the entries keep. The runtime stage adds the runtime helpers that kept modules need; its record lines stand behind
 * those of the main stage, and their numbers go on. Marks and record are cleared whole, then written from the front.
 *
 * Refused as by keep_check; then KEEP_REFUSED_TOO_SHORT, the record last. If the record was found too short during the
 * work, marks and record are all zero; after any other refusal they are as lent.
 */
struct keep_run_answer keep_run(const uint32_t *numbers, size_t numbers_length, uint8_t *marks, size_t marks_length,
                                uint32_t *record, size_t record_length, uint8_t *modules, size_t modules_length,
                                uint8_t *statements, size_t statements_length, uint8_t *used, size_t used_length,
                                uint8_t *external, size_t external_length, uint8_t *json, size_t json_length,
                                uint8_t *reason, size_t reason_length, uint8_t *dead, size_t dead_length,
                                uint32_t *helpers, size_t helpers_length, uint32_t *entries, size_t entries_length);

/*
 * Says whether a record justifies what follows from given starts. Nothing is written.
 *
 * It does if no fact has two lines, each line is a start or follows by its rule from the earlier lines that it names,
 * and together the lines are the smallest set of facts that holds the starts and is closed under the rules. Order and
 * repeats of the starts do not matter. Any record may be judged, not only one of keep_drain. Of a run's record, judge
 * the lines of the main stage, with the starts of keep_starts.
 *
 * Refused as by keep_check; then for the starts as by keep_drain; then KEEP_REFUSED_LENGTH if the record's length is no
 * multiple of 6 (place: the length); then KEEP_REFUSED_UNJUSTIFIED.
 */
struct keep_refusal keep_judge(const uint32_t *numbers, size_t numbers_length, const uint32_t *starts,
                               size_t starts_length, const uint32_t *record, size_t record_length);

/*
 * Writes the starts of a graph's run, as keep_drain and keep_judge take them: each fact that the main stage starts,
 * once. First what the user-defined entries start, in their order; then the exports of bailouts, by record line; then
 * what live dynamic entries start, by module. The main stage is worked out anew for this, the runtime stage is not.
 *
 * `starts` begins with `count` numbers, three for each start. The record is left with the lines of the main stage and
 * zeros behind them, the marks with the bits of their facts.
 *
 * Refused as by keep_check; then KEEP_REFUSED_TOO_SHORT for marks, record or starts. The record needs room for the lines
 * of the main stage alone. If record or starts were found too short during the work, marks and record are all zero;
 * after any other refusal they are as lent.
 */
struct keep_read_answer keep_starts(const uint32_t *numbers, size_t numbers_length, uint8_t *marks,
                                    size_t marks_length, uint32_t *record, size_t record_length, uint32_t *starts,
                                    size_t starts_length);

/* ---- The modules of a graph, one by one ---- */

/* A module of a graph, and where its answers stand. */
struct keep_module {
    size_t index;          /* which module it is */
    uint32_t kind;         /* enum keep_module_kind */
    size_t statements;     /* how many statements it has */
    size_t import_records; /* how many import records it has */
    size_t first_byte;     /* where its part of the row `statements` begins */
    size_t first_bit;      /* the bit of its import record 0 in the row `dead` */
    size_t place;          /* where its numbers begin in the graph */
    size_t end;            /* where they end */
};

/* Steps over a list with `width` numbers for each element: 1, or 0 if it is not there whole. */
static inline int keep_skip_list(const uint32_t *numbers, size_t numbers_length, size_t width, size_t *place) {
    size_t count;
    if (*place >= numbers_length) return 0;
    count = numbers[*place];
    if (count > KEEP_MAX_LIST || width * count > numbers_length - *place - 1) return 0;
    *place += 1 + width * count;
    return 1;
}

/* Fills in what stands at `place` and leaves the other fields: 1, or 0 if there is no whole module. */
static inline int keep_module_at(const uint32_t *numbers, size_t numbers_length, size_t place,
                                 struct keep_module *module) {
    /* The lists of a module, from import records to helpers: how many numbers an element has. */
    static const uint8_t widths[10] = {3, 1, 1, 1, 1, 1, 3, 2, 2, 2};
    size_t end = place + 12, list;
    for (list = 0; list < 10; list++) {
        if (!keep_skip_list(numbers, numbers_length, widths[list], &end)) return 0;
    }
    if (numbers[place + 9] > KEEP_MAX_STATEMENTS) return 0;
    module->kind = numbers[place];
    module->statements = numbers[place + 9];
    module->import_records = numbers[place + 12];
    module->place = place;
    module->end = end;
    return 1;
}

/* Gives module 0: 1, or 0 if the numbers are no graph. */
static inline int keep_first_module(const uint32_t *numbers, size_t numbers_length, struct keep_module *module) {
    if (numbers_length < 7 || numbers[2] < 1 || numbers[6] > KEEP_MAX_HELPERS) return 0;
    module->index = 0;
    module->first_byte = 0;
    module->first_bit = 0;
    return keep_module_at(numbers, numbers_length, 7 + numbers[6], module);
}

/* Gives the module behind the one that `module` holds: 1, or 0 if that was the last. */
static inline int keep_next_module(const uint32_t *numbers, size_t numbers_length, struct keep_module *module) {
    size_t statements = module->statements, import_records = module->import_records;
    if (module->index + 1 >= numbers[2]) return 0;
    if (!keep_module_at(numbers, numbers_length, module->end, module)) return 0;
    module->index += 1;
    module->first_byte += (statements + 7) / 8;
    module->first_bit += import_records;
    return 1;
}

/* ---- Lengths of rows ---- */

/* What the lengths of rows follow from. */
struct keep_counts {
    size_t modules;
    size_t symbols;
    size_t statements;      /* of all modules */
    size_t statement_bytes; /* bytes of the row `statements`: each module's part begins at a whole byte */
    size_t import_records;  /* of all modules */
    size_t entries;
};

/*
 * Counts a graph: call it after keep_check has passed. 1: counted; 0: the numbers are no graph, and `counts` is not to
 * be used. Whatever the numbers are, nothing is read past their length, and what is counted is within the limits.
 */
static inline int keep_count(const uint32_t *numbers, size_t numbers_length, struct keep_counts *counts) {
    struct keep_module module;
    size_t statements = 0;
    if (!keep_first_module(numbers, numbers_length, &module)) return 0;
    counts->modules = numbers[2];
    counts->symbols = numbers[3];
    counts->statements = numbers[4];
    counts->entries = numbers[5];
    if (counts->modules > KEEP_MAX_MODULES || counts->symbols > KEEP_MAX_SYMBOLS) return 0;
    if (counts->statements > KEEP_MAX_STATEMENTS || counts->entries > KEEP_MAX_ENTRIES) return 0;
    do {
        statements += module.statements;
        counts->statement_bytes = module.first_byte + (module.statements + 7) / 8;
        counts->import_records = module.first_bit + module.import_records;
    } while (keep_next_module(numbers, numbers_length, &module));
    return module.index + 1 == counts->modules && statements == counts->statements;
}

/* The row `marks`, in bytes: a bit for each fact that a graph can have. */
static inline size_t keep_marks_length(const struct keep_counts *counts) {
    return (2 * counts->modules + counts->statements + 63 * counts->symbols + 7) / 8;
}

/* The row `modules`, in bytes. */
static inline size_t keep_modules_length(const struct keep_counts *counts) {
    return (counts->modules + 7) / 8;
}

/* The row `statements`, in bytes. */
static inline size_t keep_statements_length(const struct keep_counts *counts) {
    return counts->statement_bytes;
}

/* Each of the rows `used`, `external` and `json`, in bytes. */
static inline size_t keep_symbols_length(const struct keep_counts *counts) {
    return (counts->symbols + 7) / 8;
}

/* The row `reason`, in bytes. */
static inline size_t keep_reason_length(const struct keep_counts *counts) {
    return counts->modules;
}

/* The row `dead`, in bytes. */
static inline size_t keep_dead_length(const struct keep_counts *counts) {
    return (counts->import_records + 7) / 8;
}

/* The row `helpers`, in numbers. */
static inline size_t keep_helpers_length(const struct keep_counts *counts) {
    return counts->modules;
}

/* The row `entries`, in numbers. */
static inline size_t keep_entries_length(const struct keep_counts *counts) {
    return counts->entries;
}

/* The row `verdicts` of keep_effects, in numbers. */
static inline size_t keep_verdicts_length(const struct keep_counts *counts) {
    return counts->modules;
}

/* A record that always suffices for a drain, in numbers: a line for each mark. */
static inline size_t keep_drain_record_length(const struct keep_counts *counts) {
    return KEEP_LINE_NUMBERS * (2 * counts->modules + counts->statements + 63 * counts->symbols);
}

/*
 * A record that suffices for a run, in numbers. That was compared on many graphs, not proved; twice
 * keep_drain_record_length is proved to suffice. A record that is too short is refused, not overrun. The same length
 * suffices for keep_starts, which writes the lines of the main stage alone: `lines` of a run's answer.
 */
static inline size_t keep_run_record_length(const struct keep_counts *counts) {
    return KEEP_LINE_NUMBERS * (3 * counts->modules + counts->statements + 20 * counts->symbols);
}

/*
 * Starts that suffice for keep_starts, in numbers: modules, bailouts, statements, checked uses with two reasons.
 * Compared on many graphs, not proved.
 */
static inline size_t keep_starts_length(const struct keep_counts *counts) {
    return KEEP_START_NUMBERS * (2 * counts->modules + counts->statements + 2 * counts->symbols);
}

/* ---- Rows as structs ---- */

/* The rows of keep_drain. */
struct keep_drain_rows {
    uint8_t *marks; /* working row: a bit for each fact, in the order of docs/OPERATIONS.md */
    size_t marks_length;
    uint32_t *record; /* working row: lines of KEEP_LINE_NUMBERS numbers, struct keep_line */
    size_t record_length;
    uint8_t *modules; /* a bit for each module: it is kept */
    size_t modules_length;
    uint8_t *statements; /* a bit for each statement: it is kept; each module's part begins at a whole byte */
    size_t statements_length;
    uint8_t *used; /* a bit for each symbol: it is used */
    size_t used_length;
    uint8_t *external; /* a bit for each symbol: it is used, and of an external module */
    size_t external_length;
    /* A bit for each symbol: it is of a Json module and has a use whose reason lacks
       KEEP_REASON_JSON_DEFAULT_EXPORT_SELF_REFERENCE, which uses by statements of Json modules have. */
    uint8_t *json;
    size_t json_length;
    uint8_t *reason; /* a byte for each module: enum keep_namespace_reason */
    size_t reason_length;
};

/*
 * The rows of keep_run. `modules`, `statements`, `used` and `external` are as after the runtime stage; `json`,
 * `reason`, `dead` and `helpers` as before it.
 */
struct keep_run_rows {
    uint8_t *marks; /* working row: a bit for each fact, in the order of docs/OPERATIONS.md */
    size_t marks_length;
    uint32_t *record; /* working row: lines of KEEP_LINE_NUMBERS numbers, struct keep_line */
    size_t record_length;
    uint8_t *modules; /* a bit for each module: it is kept */
    size_t modules_length;
    uint8_t *statements; /* a bit for each statement: it is kept; each module's part begins at a whole byte */
    size_t statements_length;
    uint8_t *used; /* a bit for each symbol: it is used */
    size_t used_length;
    uint8_t *external; /* a bit for each symbol: it is used, and of an external module */
    size_t external_length;
    /* A bit for each symbol: it is of a Json module and has a use whose reason lacks
       KEEP_REASON_JSON_DEFAULT_EXPORT_SELF_REFERENCE, which uses by statements of Json modules have. */
    uint8_t *json;
    size_t json_length;
    uint8_t *reason; /* a byte for each module: enum keep_namespace_reason */
    size_t reason_length;
    /* A bit for each import record, those of all modules in one row: a dead dynamic import
       (KEEP_OPTION_DEAD_IMPORTS_AT_END). */
    uint8_t *dead;
    size_t dead_length;
    uint32_t *helpers; /* a number for each module: bit h if it needs runtime helper h */
    size_t helpers_length;
    uint32_t *entries; /* the final entries in their order, by index in the graph; as many as the answer says */
    size_t entries_length;
};

/* keep_drain with its rows in a struct. */
static inline struct keep_drain_answer keep_drain_with(const uint32_t *numbers, size_t numbers_length,
                                                       const uint32_t *starts, size_t starts_length,
                                                       const struct keep_drain_rows *rows) {
    return keep_drain(numbers, numbers_length, starts, starts_length, rows->marks, rows->marks_length, rows->record,
                      rows->record_length, rows->modules, rows->modules_length, rows->statements,
                      rows->statements_length, rows->used, rows->used_length, rows->external, rows->external_length,
                      rows->json, rows->json_length, rows->reason, rows->reason_length);
}

/* keep_run with its rows in a struct. */
static inline struct keep_run_answer keep_run_with(const uint32_t *numbers, size_t numbers_length,
                                                   const struct keep_run_rows *rows) {
    return keep_run(numbers, numbers_length, rows->marks, rows->marks_length, rows->record, rows->record_length,
                    rows->modules, rows->modules_length, rows->statements, rows->statements_length, rows->used,
                    rows->used_length, rows->external, rows->external_length, rows->json, rows->json_length,
                    rows->reason, rows->reason_length, rows->dead, rows->dead_length, rows->helpers,
                    rows->helpers_length, rows->entries, rows->entries_length);
}

/* ---- All rows out of two blocks ---- */

/* The sizes of two blocks that all rows of a call fit into. */
struct keep_size {
    size_t bytes; /* a block of uint8_t */
    size_t words; /* a block of uint32_t */
};

/* The next `length` bytes of a block. */
static inline uint8_t *keep_cut(uint8_t **block, size_t length) {
    uint8_t *row = *block;
    *block += length;
    return row;
}

/* How large the blocks for keep_drain_rows_in have to be. */
static inline struct keep_size keep_drain_rows_size(const struct keep_counts *counts) {
    struct keep_size size;
    size.bytes = keep_marks_length(counts) + keep_modules_length(counts) + keep_statements_length(counts) +
                 3 * keep_symbols_length(counts) + keep_reason_length(counts);
    size.words = keep_drain_record_length(counts);
    return size;
}

/* Makes the rows of a drain out of blocks of that size. */
static inline void keep_drain_rows_in(const struct keep_counts *counts, uint8_t *bytes, uint32_t *words,
                                      struct keep_drain_rows *rows) {
    rows->marks = keep_cut(&bytes, rows->marks_length = keep_marks_length(counts));
    rows->modules = keep_cut(&bytes, rows->modules_length = keep_modules_length(counts));
    rows->statements = keep_cut(&bytes, rows->statements_length = keep_statements_length(counts));
    rows->used = keep_cut(&bytes, rows->used_length = keep_symbols_length(counts));
    rows->external = keep_cut(&bytes, rows->external_length = keep_symbols_length(counts));
    rows->json = keep_cut(&bytes, rows->json_length = keep_symbols_length(counts));
    rows->reason = keep_cut(&bytes, rows->reason_length = keep_reason_length(counts));
    rows->record = words;
    rows->record_length = keep_drain_record_length(counts);
}

/* How large the blocks for keep_run_rows_in have to be. */
static inline struct keep_size keep_run_rows_size(const struct keep_counts *counts) {
    struct keep_size size = keep_drain_rows_size(counts);
    size.bytes += keep_dead_length(counts);
    size.words = keep_run_record_length(counts) + keep_helpers_length(counts) + keep_entries_length(counts);
    return size;
}

/* Makes the rows of a run out of blocks of that size. */
static inline void keep_run_rows_in(const struct keep_counts *counts, uint8_t *bytes, uint32_t *words,
                                    struct keep_run_rows *rows) {
    rows->marks = keep_cut(&bytes, rows->marks_length = keep_marks_length(counts));
    rows->modules = keep_cut(&bytes, rows->modules_length = keep_modules_length(counts));
    rows->statements = keep_cut(&bytes, rows->statements_length = keep_statements_length(counts));
    rows->used = keep_cut(&bytes, rows->used_length = keep_symbols_length(counts));
    rows->external = keep_cut(&bytes, rows->external_length = keep_symbols_length(counts));
    rows->json = keep_cut(&bytes, rows->json_length = keep_symbols_length(counts));
    rows->reason = keep_cut(&bytes, rows->reason_length = keep_reason_length(counts));
    rows->dead = keep_cut(&bytes, rows->dead_length = keep_dead_length(counts));
    rows->record = words;
    rows->record_length = keep_run_record_length(counts);
    rows->helpers = rows->record + rows->record_length;
    rows->helpers_length = keep_helpers_length(counts);
    rows->entries = rows->helpers + rows->helpers_length;
    rows->entries_length = keep_entries_length(counts);
}

/* ---- Reading rows ---- */

/* Bit `index` of a row: 0 or 1. */
static inline int keep_bit(const uint8_t *row, size_t index) {
    return row[index / 8] >> index % 8 & 1;
}

/* Whether a statement of a module is kept, from the row `statements`: 0 or 1. */
static inline int keep_statement_is_kept(const uint8_t *statements, const struct keep_module *module,
                                         size_t statement) {
    return keep_bit(statements + module->first_byte, statement);
}

/* Whether an import record of a module is a dead dynamic import, from the row `dead`: 0 or 1. */
static inline int keep_import_record_is_dead(const uint8_t *dead, const struct keep_module *module,
                                             size_t import_record) {
    return keep_bit(dead, module->first_bit + import_record);
}

/*
 * A line of a record: a fact, its rule, and the lines that it follows from, each as its number plus 1; 0: none.
 *
 * KEEP_RULE_START names no line, KEEP_RULE_FORWARDED_DECLARATION the line of a module and that of a forward (keep_judge
 * takes either first), any other rule one line, as `because`. A module that the main stage kept has no line in the
 * runtime stage: a KEEP_RULE_FORWARDED_DECLARATION there names the forward and 0.
 */
struct keep_line {
    uint32_t kind;        /* enum keep_fact */
    uint32_t first;       /* the fact's first part */
    uint32_t second;      /* the fact's second part */
    uint32_t rule;        /* enum keep_rule */
    uint32_t because;     /* a line plus 1 */
    uint32_t because_too; /* a line plus 1 */
};

/* Line `index` of a record, counted from 0. */
static inline struct keep_line keep_line_at(const uint32_t *record, size_t index) {
    const uint32_t *numbers = record + KEEP_LINE_NUMBERS * index;
    struct keep_line line;
    line.kind = numbers[0];
    line.first = numbers[1];
    line.second = numbers[2];
    line.rule = numbers[3];
    line.because = numbers[4];
    line.because_too = numbers[5];
    return line;
}

#ifdef __cplusplus
}
#endif

#endif
