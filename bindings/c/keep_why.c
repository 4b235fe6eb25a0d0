/*
 * What a bundle keeps, and why: reads the graph file that the command line names, runs, and prints for each kept module
 * the record lines by which it is kept, back to a start. Last it has the record judged.
 *
 *   cc -std=c99 -Iinclude c/keep_why.c lib/libhost.a -o target/keep_why        (in bindings/)
 *   target/keep_why ../examples/live_import.graph
 */
#include "keep.h"

#include <stdio.h>
#include <stdlib.h>

/* A graph and the rows of its run. */
struct bundle {
    uint32_t *numbers;
    size_t length;
    struct keep_counts counts;
    uint8_t *bytes;
    uint32_t *words;
    struct keep_run_rows rows;
    struct keep_run_answer answer;
};

static const char *const refusals[] = {"passed", "faulty number", "over limit",  "out of range",
                                       "length", "too short",     "unjustified"};

static const char *const facts[] = {"", "module", "statement", "use", "checked use", "forward", "bailout"};

static const char *const rules[] = {
    "start",
    "forwarded declaration",
    "side effect",
    "dependency",
    "eval named import",
    "CommonJS export",
    "dev mode",
    "import record bailout",
    "reference",
    "checked use",
    "demanded body",
    "CommonJS alias",
    "wrapper",
    "declaration",
    "property write",
};

/* Says why a call was refused, and gives whether it passed. */
static int passed(const char *call, uint32_t number, uint64_t place) {
    if (number == KEEP_PASSED) return 1;
    printf("%s refused %u (%s) at %lu\n", call, (unsigned)number, refusals[number], (unsigned long)place);
    return 0;
}

/* Memory for `count` elements. NULL if there is none, or if none are asked for: an empty row may be NULL. */
static void *memory(size_t count, size_t size) {
    void *block = count == 0 ? NULL : malloc(count * size);
    if (count != 0 && block == NULL) {
        fprintf(stderr, "no memory\n");
        exit(2);
    }
    return block;
}

/* All bytes of a file. */
static uint8_t *file_bytes(const char *name, size_t *length) {
    FILE *file = fopen(name, "rb");
    uint8_t *bytes = NULL;
    long end = -1;
    if (file != NULL && fseek(file, 0, SEEK_END) == 0) end = ftell(file);
    if (end >= 0) {
        *length = (size_t)end;
        bytes = (uint8_t *)memory(*length, 1);
        rewind(file);
        if (*length != 0 && fread(bytes, 1, *length, file) != *length) end = -1;
    }
    if (file != NULL) fclose(file);
    if (end < 0) {
        fprintf(stderr, "%s cannot be read\n", name);
        exit(2);
    }
    return bytes;
}

/* Reads and checks the graph of a file. */
static int read_graph(const char *name, struct bundle *bundle) {
    size_t file_length;
    uint8_t *file = file_bytes(name, &file_length);
    struct keep_read_answer read;
    struct keep_refusal check;
    bundle->numbers = (uint32_t *)memory(file_length, sizeof(uint32_t));
    read = keep_read(file, file_length, bundle->numbers, file_length);
    free(file);
    if (!passed("keep_read", read.number, read.place)) return 0;
    bundle->length = (size_t)read.count;
    check = keep_check(bundle->numbers, bundle->length);
    return passed("keep_check", check.number, check.place);
}

/* Makes the rows of a run and runs. */
static int run(struct bundle *bundle) {
    struct keep_size size;
    if (!keep_count(bundle->numbers, bundle->length, &bundle->counts)) return 0;
    size = keep_run_rows_size(&bundle->counts);
    bundle->bytes = (uint8_t *)memory(size.bytes, sizeof(uint8_t));
    bundle->words = (uint32_t *)memory(size.words, sizeof(uint32_t));
    keep_run_rows_in(&bundle->counts, bundle->bytes, bundle->words, &bundle->rows);
    bundle->answer = keep_run_with(bundle->numbers, bundle->length, &bundle->rows);
    return passed("keep_run", bundle->answer.number, bundle->answer.place);
}

/* Prints what is kept of a module, and its dead import records. */
static void print_module(const struct bundle *bundle, const struct keep_module *module) {
    size_t index;
    if (!keep_bit(bundle->rows.modules, module->index)) return;
    printf("kept: module %lu\n", (unsigned long)module->index);
    for (index = 0; index < module->statements; index++) {
        if (!keep_statement_is_kept(bundle->rows.statements, module, index)) continue;
        printf("kept: statement %lu of module %lu\n", (unsigned long)index, (unsigned long)module->index);
    }
    for (index = 0; index < module->import_records; index++) {
        if (!keep_import_record_is_dead(bundle->rows.dead, module, index)) continue;
        printf("dead: import record %lu of module %lu\n", (unsigned long)index, (unsigned long)module->index);
    }
}

/* Prints what the run answered. */
static void print_kept(const struct bundle *bundle) {
    struct keep_module module;
    uint64_t entry;
    int more = keep_first_module(bundle->numbers, bundle->length, &module);
    for (; more; more = keep_next_module(bundle->numbers, bundle->length, &module)) print_module(bundle, &module);
    for (entry = 0; entry < bundle->answer.entries; entry++) {
        printf("final: entry %lu\n", (unsigned long)bundle->rows.entries[entry]);
    }
    printf("rounds: %lu\n", (unsigned long)bundle->answer.rounds);
}

/* Prints a fact. */
static void print_fact(const struct keep_line *line) {
    printf("%s", facts[line->kind]);
    switch (line->kind) {
    case KEEP_FACT_STATEMENT:
        printf(" %u of module %u", (unsigned)line->second, (unsigned)line->first);
        break;
    case KEEP_FACT_USE:
    case KEEP_FACT_CHECKED_USE:
        printf(" of symbol %u, reason %u", (unsigned)line->first, (unsigned)line->second);
        break;
    case KEEP_FACT_FORWARD:
        printf(" of symbol %u", (unsigned)line->first);
        break;
    case KEEP_FACT_BAILOUT:
        printf(" of module %u", (unsigned)line->first);
        break;
    default:
        printf(" %u", (unsigned)line->first);
    }
}

/* Prints a record line, then the line that it follows from, and so on to a start. */
static void print_chain(const uint32_t *record, size_t index) {
    struct keep_line line;
    for (;;) {
        line = keep_line_at(record, index);
        printf("  line %lu: ", (unsigned long)index);
        print_fact(&line);
        printf(line.rule == KEEP_RULE_START ? ", a %s" : ", by %s", rules[line.rule]);
        if (line.because_too != 0) printf(", with line %u", (unsigned)line.because_too - 1);
        printf("\n");
        if (line.because == 0) return;
        index = line.because - 1;
    }
}

/* Prints why each kept module is kept: the line of the module, and its chain. */
static void print_why(const struct bundle *bundle) {
    size_t lines = (size_t)(bundle->answer.lines + bundle->answer.runtime_lines), index;
    for (index = 0; index < lines; index++) {
        struct keep_line line = keep_line_at(bundle->rows.record, index);
        if (line.kind != KEEP_FACT_MODULE) continue;
        printf("why module %u:\n", (unsigned)line.first);
        print_chain(bundle->rows.record, index);
    }
}

/* Has the record of the main stage judged beside the starts of the run. */
static int judge(const struct bundle *bundle) {
    const struct keep_run_rows *rows = &bundle->rows;
    size_t length = keep_starts_length(&bundle->counts), lines = (size_t)bundle->answer.lines;
    uint32_t *starts = (uint32_t *)memory(length, sizeof(uint32_t));
    struct keep_read_answer own;
    struct keep_refusal judged;
    int good = 0;
    own = keep_starts(bundle->numbers, bundle->length, rows->marks, rows->marks_length, rows->record,
                      rows->record_length, starts, length);
    if (passed("keep_starts", own.number, own.place)) {
        judged = keep_judge(bundle->numbers, bundle->length, starts, (size_t)own.count, rows->record,
                            KEEP_LINE_NUMBERS * lines);
        good = passed("keep_judge", judged.number, judged.place);
    }
    if (good) printf("judged: %lu starts, %lu lines, passed\n", (unsigned long)own.count / 3, (unsigned long)lines);
    free(starts);
    return good;
}

int main(int count, char **arguments) {
    struct bundle bundle;
    int good;
    if (count != 2) {
        fprintf(stderr, "usage: keep_why GRAPH\n");
        return 2;
    }
    bundle.bytes = NULL;
    bundle.words = NULL;
    good = read_graph(arguments[1], &bundle) && run(&bundle);
    if (good) {
        print_kept(&bundle);
        print_why(&bundle);
        good = judge(&bundle);
    }
    free(bundle.numbers);
    free(bundle.bytes);
    free(bundle.words);
    return good ? 0 : 1;
}
