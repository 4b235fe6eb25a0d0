/*
 * Rows of length 0 that are NULL, for every function and every row: refused where the graph needs the row, else passed.
 * The graphs that are named: one without import records, one without entries.
 */
#include "common.h"

/* No graph at all. */
static void no_numbers(void) {
    struct keep_read_answer read = keep_read(NULL, 0, NULL, 0);
    struct keep_drain_rows drain_rows;
    struct keep_run_rows run_rows;
    memset(&drain_rows, 0, sizeof drain_rows);
    memset(&run_rows, 0, sizeof run_rows);
    EXPECT(read.number == KEEP_PASSED && read.place == 0 && read.count == 0);
    EXPECT(keep_check(NULL, 0).number == KEEP_REFUSED_LENGTH && keep_check(NULL, 0).place == 0);
    EXPECT(keep_effects(NULL, 0, NULL, 0).number == KEEP_REFUSED_LENGTH);
    EXPECT(keep_drain_with(NULL, 0, NULL, 0, &drain_rows).number == KEEP_REFUSED_LENGTH);
    EXPECT(keep_run_with(NULL, 0, &run_rows).number == KEEP_REFUSED_LENGTH);
    EXPECT(keep_judge(NULL, 0, NULL, 0, NULL, 0).number == KEEP_REFUSED_LENGTH);
    EXPECT(keep_starts(NULL, 0, NULL, 0, NULL, 0, NULL, 0).number == KEEP_REFUSED_LENGTH);
}

/* A file, but no room for its numbers. */
static void no_room(void) {
    const uint8_t file[1] = {1};
    struct keep_read_answer read = keep_read(file, 1, NULL, 0);
    EXPECT(read.number == KEEP_REFUSED_TOO_SHORT && read.place == 0);
}

/* A graph, and rows that are all empty. */
static void no_rows(const struct graph *graph) {
    struct keep_drain_rows drain_rows;
    struct keep_run_rows run_rows;
    struct keep_read_answer starts;
    memset(&drain_rows, 0, sizeof drain_rows);
    memset(&run_rows, 0, sizeof run_rows);
    EXPECT(keep_effects(graph->numbers, graph->length, NULL, 0).number == KEEP_REFUSED_TOO_SHORT);
    EXPECT(keep_drain_with(graph->numbers, graph->length, NULL, 0, &drain_rows).number == KEEP_REFUSED_TOO_SHORT);
    EXPECT(keep_run_with(graph->numbers, graph->length, &run_rows).number == KEEP_REFUSED_TOO_SHORT);
    starts = keep_starts(graph->numbers, graph->length, NULL, 0, NULL, 0, NULL, 0);
    EXPECT(starts.number == KEEP_REFUSED_TOO_SHORT);
}

/* What a run answers. */
static struct keep_run_answer run_of(const struct graph *graph) {
    struct keep_run_rows rows = fenced_run_rows(&graph->counts, keep_run_record_length(&graph->counts));
    struct keep_run_answer answer = keep_run_with(graph->numbers, graph->length, &rows);
    EXPECT(answer.number == KEEP_PASSED);
    return answer;
}

/* One empty row of a run at a time: refused if the graph needs it. */
static void run_row(const struct graph *graph, size_t row) {
    struct keep_run_rows rows = fenced_run_rows(&graph->counts, keep_run_record_length(&graph->counts));
    struct keep_run_answer whole = run_of(graph), answer;
    int needed = 1;
    switch (row) {
    case 0: rows.marks = NULL, rows.marks_length = 0; break;
    case 1: rows.record = NULL, rows.record_length = 0; break;
    case 2: rows.modules = NULL, rows.modules_length = 0; break;
    case 3: rows.statements = NULL, rows.statements_length = 0; break;
    case 4: rows.used = NULL, rows.used_length = 0; break;
    case 5: rows.external = NULL, rows.external_length = 0; break;
    case 6: rows.json = NULL, rows.json_length = 0; break;
    case 7: rows.reason = NULL, rows.reason_length = 0; break;
    case 8: rows.dead = NULL, rows.dead_length = 0; break;
    case 9: rows.helpers = NULL, rows.helpers_length = 0; break;
    default: rows.entries = NULL, rows.entries_length = 0;
    }
    if (row == 1) needed = whole.lines + whole.runtime_lines > 0;
    if (row == 8) needed = graph->counts.import_records > 0;
    if (row == 10) needed = graph->counts.entries > 0;
    answer = keep_run_with(graph->numbers, graph->length, &rows);
    EXPECT(answer.number == (uint32_t)(needed ? KEEP_REFUSED_TOO_SHORT : KEEP_PASSED));
}

/* One empty row of a drain at a time; its starts are empty, so that the record may be. */
static void drain_row(const struct graph *graph, size_t row) {
    struct keep_drain_rows rows = fenced_drain_rows(&graph->counts, keep_drain_record_length(&graph->counts));
    struct keep_drain_answer answer;
    switch (row) {
    case 0: rows.marks = NULL, rows.marks_length = 0; break;
    case 1: rows.record = NULL, rows.record_length = 0; break;
    case 2: rows.modules = NULL, rows.modules_length = 0; break;
    case 3: rows.statements = NULL, rows.statements_length = 0; break;
    case 4: rows.used = NULL, rows.used_length = 0; break;
    case 5: rows.external = NULL, rows.external_length = 0; break;
    case 6: rows.json = NULL, rows.json_length = 0; break;
    default: rows.reason = NULL, rows.reason_length = 0;
    }
    answer = keep_drain_with(graph->numbers, graph->length, NULL, 0, &rows);
    EXPECT(answer.number == (uint32_t)(row == 1 ? KEEP_PASSED : KEEP_REFUSED_TOO_SHORT) && answer.lines == 0);
}

/* One empty row of the starts at a time. */
static void starts_row(const struct graph *graph, size_t row) {
    size_t marks_length = keep_marks_length(&graph->counts), record_length = keep_run_record_length(&graph->counts);
    size_t starts_length = keep_starts_length(&graph->counts), count;
    uint8_t *marks = fenced_bytes(marks_length);
    uint32_t *record = fenced_words(record_length), *starts = fenced_words(starts_length);
    struct keep_read_answer answer;
    int needed = 1;
    own_starts(graph, &count);
    if (row == 1) needed = run_of(graph).lines > 0;
    if (row == 2) needed = count > 0;
    if (row == 0) marks = NULL, marks_length = 0;
    if (row == 1) record = NULL, record_length = 0;
    if (row == 2) starts = NULL, starts_length = 0;
    answer = keep_starts(graph->numbers, graph->length, marks, marks_length, record, record_length, starts,
                         starts_length);
    EXPECT(answer.number == (uint32_t)(needed ? KEEP_REFUSED_TOO_SHORT : KEEP_PASSED) && answer.count == 0);
}

/* A judge without starts or without a record. */
static void judge(const struct graph *graph) {
    size_t count;
    uint32_t *starts = own_starts(graph, &count);
    struct keep_refusal judged = keep_judge(graph->numbers, graph->length, NULL, 0, NULL, 0);
    EXPECT(judged.number == KEEP_PASSED && judged.place == 0);
    judged = keep_judge(graph->numbers, graph->length, starts, count, NULL, 0);
    EXPECT(judged.number == (uint32_t)(count == 0 ? KEEP_PASSED : KEEP_REFUSED_UNJUSTIFIED) && judged.place == 0);
    if (count == 0) return;
    {
        /* A line for the first start, which is none here. */
        uint32_t record[KEEP_LINE_NUMBERS] = {0, 0, 0, 0, 0, 0};
        memcpy(record, starts, KEEP_START_NUMBERS * sizeof *starts);
        judged = keep_judge(graph->numbers, graph->length, NULL, 0, record, KEEP_LINE_NUMBERS);
        EXPECT(judged.number == KEEP_REFUSED_UNJUSTIFIED && judged.place == 0);
    }
}

int main(int count, char **names) {
    struct graph graphs[2];
    size_t index, row;
    EXPECT(count == 3);
    no_numbers();
    no_room();
    graphs[0] = load(names[1]);
    graphs[1] = load(names[2]);
    EXPECT(graphs[0].counts.import_records == 0 && graphs[0].counts.entries > 0 && graphs[1].counts.entries == 0);
    for (index = 0; index < 2; index++) {
        no_rows(&graphs[index]);
        for (row = 0; row < 11; row++) run_row(&graphs[index], row);
        for (row = 0; row < 8; row++) drain_row(&graphs[index], row);
        for (row = 0; row < 3; row++) starts_row(&graphs[index], row);
        judge(&graphs[index]);
    }
    return 0;
}
