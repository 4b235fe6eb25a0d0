/* What the test programs share: memory in front of a forbidden page, graphs from files, expectations. */
#ifndef COMMON_H
#define COMMON_H

#define _DEFAULT_SOURCE

#include "keep.h"

#include <stdio.h>
#include <stdlib.h>
#include <string.h>
#include <sys/mman.h>
#include <unistd.h>

#define EXPECT(condition) expect(condition, #condition, __FILE__, __LINE__)

/* What rows for answers are filled with before a call. */
#define LENT 0xA5

struct graph {
    uint32_t *numbers;
    size_t length;
    struct keep_counts counts;
};

static inline void expect(int condition, const char *text, const char *file, int line) {
    if (condition) return;
    fprintf(stderr, "%s:%d: not so: %s\n", file, line, text);
    exit(1);
}

/* Lent bytes that end where the next page begins, which can be neither read nor written. */
static inline void *fenced(size_t bytes) {
    size_t page = (size_t)sysconf(_SC_PAGESIZE), whole = (bytes + page - 1) / page * page;
    uint8_t *block =
        (uint8_t *)mmap(NULL, whole + page, PROT_READ | PROT_WRITE, MAP_PRIVATE | MAP_ANONYMOUS, -1, 0);
    EXPECT((void *)block != MAP_FAILED);
    EXPECT(mprotect(block + whole, page, PROT_NONE) == 0);
    memset(block, LENT, whole);
    return block + (whole - bytes);
}

static inline uint8_t *fenced_bytes(size_t length) {
    return (uint8_t *)fenced(length);
}

static inline uint32_t *fenced_words(size_t length) {
    return (uint32_t *)fenced(length * sizeof(uint32_t));
}

/* Whether a row is as it was lent. */
static inline int is_lent(const void *row, size_t bytes) {
    const uint8_t *byte = (const uint8_t *)row;
    while (bytes-- > 0) {
        if (*byte++ != LENT) return 0;
    }
    return 1;
}

/* The graph of a file, behind it a forbidden page. */
static inline struct graph load(const char *name) {
    static uint8_t file[65536];
    FILE *opened = fopen(name, "rb");
    size_t file_length;
    struct keep_read_answer read;
    struct graph graph;
    EXPECT(opened != NULL);
    file_length = fread(file, 1, sizeof file, opened);
    EXPECT(fclose(opened) == 0 && file_length < sizeof file);
    graph.numbers = fenced_words(file_length);
    read = keep_read(file, file_length, graph.numbers, file_length);
    EXPECT(read.number == KEEP_PASSED);
    graph.length = (size_t)read.count;
    if (graph.length < file_length) {
        uint32_t *numbers = fenced_words(graph.length);
        memcpy(numbers, graph.numbers, graph.length * sizeof *numbers);
        graph.numbers = numbers;
    }
    EXPECT(keep_check(graph.numbers, graph.length).number == KEEP_PASSED);
    EXPECT(keep_count(graph.numbers, graph.length, &graph.counts));
    return graph;
}

/* The rows of a run, each in front of a forbidden page, with a record of `record` numbers. */
static inline struct keep_run_rows fenced_run_rows(const struct keep_counts *counts, size_t record) {
    struct keep_run_rows rows;
    rows.marks = fenced_bytes(rows.marks_length = keep_marks_length(counts));
    rows.record = fenced_words(rows.record_length = record);
    rows.modules = fenced_bytes(rows.modules_length = keep_modules_length(counts));
    rows.statements = fenced_bytes(rows.statements_length = keep_statements_length(counts));
    rows.used = fenced_bytes(rows.used_length = keep_symbols_length(counts));
    rows.external = fenced_bytes(rows.external_length = keep_symbols_length(counts));
    rows.json = fenced_bytes(rows.json_length = keep_symbols_length(counts));
    rows.reason = fenced_bytes(rows.reason_length = keep_reason_length(counts));
    rows.dead = fenced_bytes(rows.dead_length = keep_dead_length(counts));
    rows.helpers = fenced_words(rows.helpers_length = keep_helpers_length(counts));
    rows.entries = fenced_words(rows.entries_length = keep_entries_length(counts));
    return rows;
}

/* The rows of a drain likewise. */
static inline struct keep_drain_rows fenced_drain_rows(const struct keep_counts *counts, size_t record) {
    struct keep_drain_rows rows;
    rows.marks = fenced_bytes(rows.marks_length = keep_marks_length(counts));
    rows.record = fenced_words(rows.record_length = record);
    rows.modules = fenced_bytes(rows.modules_length = keep_modules_length(counts));
    rows.statements = fenced_bytes(rows.statements_length = keep_statements_length(counts));
    rows.used = fenced_bytes(rows.used_length = keep_symbols_length(counts));
    rows.external = fenced_bytes(rows.external_length = keep_symbols_length(counts));
    rows.json = fenced_bytes(rows.json_length = keep_symbols_length(counts));
    rows.reason = fenced_bytes(rows.reason_length = keep_reason_length(counts));
    return rows;
}

/* The starts of a graph's run; `count` numbers. */
static inline uint32_t *own_starts(const struct graph *graph, size_t *count) {
    struct keep_run_rows rows = fenced_run_rows(&graph->counts, keep_run_record_length(&graph->counts));
    size_t length = keep_starts_length(&graph->counts);
    uint32_t *starts = fenced_words(length);
    struct keep_read_answer answer = keep_starts(graph->numbers, graph->length, rows.marks, rows.marks_length,
                                                 rows.record, rows.record_length, starts, length);
    EXPECT(answer.number == KEEP_PASSED);
    *count = (size_t)answer.count;
    return starts;
}

#endif
