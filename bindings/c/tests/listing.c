/*
 * Prints, for each graph that is named, what the program `keep` prints. Where the runtime stage adds nothing, expects
 * that a drain of the run's starts gives the same rows.
 */
#include "common.h"

/* Where a graph's tables begin. */
struct tables {
    size_t symbols;
    size_t entries;
};

static void skip_lists(const struct graph *graph, size_t lists, size_t *place) {
    while (lists-- > 0) EXPECT(keep_skip_list(graph->numbers, graph->length, 1, place));
}

static void skip_reference(const struct graph *graph, size_t *place) {
    switch (graph->numbers[(*place)++]) {
    case KEEP_REFERENCE_SYMBOL:
        *place += 1;
        break;
    case KEEP_REFERENCE_RESOLVED_TO_NOTHING:
        break;
    case KEEP_REFERENCE_RESOLVED:
        *place += 2;
        skip_lists(graph, 1, place);
        break;
    default:
        *place += 4;
    }
}

static void skip_symbol(const struct graph *graph, size_t *place) {
    *place += 6;
    skip_lists(graph, 3, place);
}

static void skip_statement(const struct graph *graph, size_t *place) {
    uint32_t references;
    *place += 1;
    skip_lists(graph, 1, place);
    references = graph->numbers[(*place)++];
    while (references-- > 0) skip_reference(graph, place);
}

static struct tables tables_of(const struct graph *graph) {
    struct tables tables;
    struct keep_module module;
    size_t index, place;
    EXPECT(keep_first_module(graph->numbers, graph->length, &module));
    while (keep_next_module(graph->numbers, graph->length, &module)) continue;
    tables.symbols = place = module.end;
    for (index = 0; index < graph->counts.symbols; index++) skip_symbol(graph, &place);
    for (index = 0; index < graph->counts.statements; index++) skip_statement(graph, &place);
    tables.entries = place;
    for (index = 0; index < graph->counts.entries; index++) {
        place += 2;
        EXPECT(keep_skip_list(graph->numbers, graph->length, 4, &place));
    }
    EXPECT(place == graph->length);
    return tables;
}

static void print_entry(const struct graph *graph, size_t place, uint32_t entry) {
    while (entry-- > 0) {
        place += 2;
        EXPECT(keep_skip_list(graph->numbers, graph->length, 4, &place));
    }
    printf("entry %u %u\n", (unsigned)graph->numbers[place], (unsigned)graph->numbers[place + 1]);
}

static void print_modules(const struct graph *graph, const struct keep_run_rows *rows) {
    uint32_t *verdicts = fenced_words(graph->counts.modules);
    struct keep_module module;
    int more = keep_first_module(graph->numbers, graph->length, &module);
    EXPECT(keep_effects(graph->numbers, graph->length, verdicts, graph->counts.modules).number == KEEP_PASSED);
    for (; more; more = keep_next_module(graph->numbers, graph->length, &module)) {
        size_t index = module.index;
        if (module.kind != KEEP_MODULE_NORMAL) continue;
        printf("module %u %d %u ", (unsigned)index, keep_bit(rows->modules, index), (unsigned)verdicts[index]);
        printf("%u %u\n", (unsigned)rows->reason[index], (unsigned)rows->helpers[index]);
    }
}

static void print_statements(const struct graph *graph, const struct keep_run_rows *rows) {
    struct keep_module module;
    int more = keep_first_module(graph->numbers, graph->length, &module);
    for (; more; more = keep_next_module(graph->numbers, graph->length, &module)) {
        size_t index;
        for (index = 0; index < module.statements; index++) {
            if (!keep_statement_is_kept(rows->statements, &module, index)) continue;
            printf("statement %u %u\n", (unsigned)module.index, (unsigned)index);
        }
    }
}

static void print_symbols(const struct graph *graph, const char *word, const uint8_t *row) {
    size_t index;
    for (index = 0; index < graph->counts.symbols; index++) {
        if (keep_bit(row, index)) printf("%s %u\n", word, (unsigned)index);
    }
}

/* The Json symbols of one module after the other. */
static void print_json(const struct graph *graph, size_t symbols, const uint8_t *row) {
    size_t module, index;
    for (module = 0; module < graph->counts.modules; module++) {
        size_t place = symbols;
        for (index = 0; index < graph->counts.symbols; index++) {
            int owned = graph->numbers[place] == module;
            skip_symbol(graph, &place);
            if (owned && keep_bit(row, index)) printf("json %u %u\n", (unsigned)module, (unsigned)index);
        }
    }
}

static void print_dead(const struct graph *graph, const struct keep_run_rows *rows) {
    struct keep_module module;
    int more = keep_first_module(graph->numbers, graph->length, &module);
    for (; more; more = keep_next_module(graph->numbers, graph->length, &module)) {
        size_t index;
        for (index = 0; index < module.import_records; index++) {
            if (!keep_import_record_is_dead(rows->dead, &module, index)) continue;
            printf("dead %u %u\n", (unsigned)module.index, (unsigned)index);
        }
    }
}

/* A drain of the run's starts gives the rows of its main stage. */
static void drain_alike(const struct graph *graph, const struct keep_run_rows *run) {
    size_t count;
    uint32_t *starts = own_starts(graph, &count);
    struct keep_drain_rows rows = fenced_drain_rows(&graph->counts, keep_drain_record_length(&graph->counts));
    EXPECT(keep_drain_with(graph->numbers, graph->length, starts, count, &rows).number == KEEP_PASSED);
    EXPECT(memcmp(rows.modules, run->modules, rows.modules_length) == 0);
    EXPECT(memcmp(rows.statements, run->statements, rows.statements_length) == 0);
    EXPECT(memcmp(rows.used, run->used, rows.used_length) == 0);
    EXPECT(memcmp(rows.external, run->external, rows.external_length) == 0);
    EXPECT(memcmp(rows.json, run->json, rows.json_length) == 0);
    EXPECT(memcmp(rows.reason, run->reason, rows.reason_length) == 0);
}

static void print_listing(const struct graph *graph) {
    struct keep_run_rows rows = fenced_run_rows(&graph->counts, keep_run_record_length(&graph->counts));
    struct keep_run_answer answer = keep_run_with(graph->numbers, graph->length, &rows);
    struct tables tables = tables_of(graph);
    uint64_t entry;
    EXPECT(answer.number == KEEP_PASSED);
    printf("rounds %u\n", (unsigned)answer.rounds);
    for (entry = 0; entry < answer.entries; entry++) print_entry(graph, tables.entries, rows.entries[entry]);
    print_modules(graph, &rows);
    print_statements(graph, &rows);
    print_symbols(graph, "used", rows.used);
    print_symbols(graph, "external", rows.external);
    print_json(graph, tables.symbols, rows.json);
    print_dead(graph, &rows);
    if (answer.runtime_lines == 0) drain_alike(graph, &rows);
}

int main(int count, char **names) {
    int index;
    for (index = 1; index < count; index++) {
        struct graph graph = load(names[index]);
        print_listing(&graph);
    }
    return 0;
}
