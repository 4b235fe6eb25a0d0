/*
 * Prints the lengths of all rows for each graph that is named, and expects of every call that rows which are just long
 * enough pass and that a row which is one shorter is refused, with the answer rows as they were lent.
 */
#include "common.h"

static void print_lengths(const struct keep_counts *counts) {
    printf("%lu ", (unsigned long)keep_marks_length(counts));
    printf("%lu ", (unsigned long)keep_modules_length(counts));
    printf("%lu ", (unsigned long)keep_statements_length(counts));
    printf("%lu ", (unsigned long)keep_symbols_length(counts));
    printf("%lu ", (unsigned long)keep_reason_length(counts));
    printf("%lu ", (unsigned long)keep_dead_length(counts));
    printf("%lu ", (unsigned long)keep_helpers_length(counts));
    printf("%lu ", (unsigned long)keep_entries_length(counts));
    printf("%lu ", (unsigned long)keep_verdicts_length(counts));
    printf("%lu ", (unsigned long)keep_drain_record_length(counts));
    printf("%lu ", (unsigned long)keep_run_record_length(counts));
    printf("%lu\n", (unsigned long)keep_starts_length(counts));
}

static void effects(const struct graph *graph) {
    size_t length = keep_verdicts_length(&graph->counts);
    uint32_t *verdicts = fenced_words(length);
    struct keep_refusal refused = keep_effects(graph->numbers, graph->length, verdicts, length - 1);
    EXPECT(refused.number == KEEP_REFUSED_TOO_SHORT && refused.place == 0);
    EXPECT(is_lent(verdicts, length * sizeof *verdicts));
    EXPECT(keep_effects(graph->numbers, graph->length, verdicts, length).number == KEEP_PASSED);
    while (length-- > 0) EXPECT(verdicts[length] <= KEEP_SIDE_EFFECTS_NO_TREESHAKE);
}

static int run_rows_are_lent(const struct keep_run_rows *rows) {
    return is_lent(rows->modules, rows->modules_length) && is_lent(rows->statements, rows->statements_length) &&
           is_lent(rows->used, rows->used_length) && is_lent(rows->external, rows->external_length) &&
           is_lent(rows->json, rows->json_length) && is_lent(rows->reason, rows->reason_length) &&
           is_lent(rows->dead, rows->dead_length) && is_lent(rows->helpers, rows->helpers_length * sizeof(uint32_t)) &&
           is_lent(rows->entries, rows->entries_length * sizeof(uint32_t));
}

/* A run with a record of `record` numbers passes; with any row one shorter it is refused. */
static void run_exactly(const struct graph *graph, size_t record) {
    struct keep_run_rows rows = fenced_run_rows(&graph->counts, record);
    size_t *lengths[11], row;
    lengths[0] = &rows.marks_length;
    lengths[1] = &rows.record_length;
    lengths[2] = &rows.modules_length;
    lengths[3] = &rows.statements_length;
    lengths[4] = &rows.used_length;
    lengths[5] = &rows.external_length;
    lengths[6] = &rows.json_length;
    lengths[7] = &rows.reason_length;
    lengths[8] = &rows.dead_length;
    lengths[9] = &rows.helpers_length;
    lengths[10] = &rows.entries_length;
    for (row = 0; row < 11; row++) {
        struct keep_run_answer refused;
        if (*lengths[row] == 0) continue;
        *lengths[row] -= 1;
        refused = keep_run_with(graph->numbers, graph->length, &rows);
        *lengths[row] += 1;
        EXPECT(refused.number == KEEP_REFUSED_TOO_SHORT && refused.place == 0 && refused.lines == 0);
        EXPECT(run_rows_are_lent(&rows));
    }
    EXPECT(keep_run_with(graph->numbers, graph->length, &rows).number == KEEP_PASSED);
}

/* How many numbers the record of the main stage has. */
static size_t run(const struct graph *graph) {
    struct keep_size size = keep_run_rows_size(&graph->counts);
    struct keep_run_rows rows;
    struct keep_run_answer answer;
    size_t record;
    keep_run_rows_in(&graph->counts, fenced_bytes(size.bytes), fenced_words(size.words), &rows);
    EXPECT(rows.dead + rows.dead_length == rows.marks + size.bytes);
    EXPECT(rows.entries + rows.entries_length == rows.record + size.words);
    answer = keep_run_with(graph->numbers, graph->length, &rows);
    EXPECT(answer.number == KEEP_PASSED);
    record = KEEP_LINE_NUMBERS * (size_t)(answer.lines + answer.runtime_lines);
    EXPECT(record <= keep_run_record_length(&graph->counts));
    run_exactly(graph, record);
    return KEEP_LINE_NUMBERS * (size_t)answer.lines;
}

static int drain_rows_are_lent(const struct keep_drain_rows *rows) {
    return is_lent(rows->modules, rows->modules_length) && is_lent(rows->statements, rows->statements_length) &&
           is_lent(rows->used, rows->used_length) && is_lent(rows->external, rows->external_length) &&
           is_lent(rows->json, rows->json_length) && is_lent(rows->reason, rows->reason_length);
}

/* A drain with a record of `record` numbers passes; with any row one shorter it is refused. */
static void drain_exactly(const struct graph *graph, const uint32_t *starts, size_t count, size_t record) {
    struct keep_drain_rows rows = fenced_drain_rows(&graph->counts, record);
    size_t *lengths[8], row;
    lengths[0] = &rows.marks_length;
    lengths[1] = &rows.record_length;
    lengths[2] = &rows.modules_length;
    lengths[3] = &rows.statements_length;
    lengths[4] = &rows.used_length;
    lengths[5] = &rows.external_length;
    lengths[6] = &rows.json_length;
    lengths[7] = &rows.reason_length;
    for (row = 0; row < 8; row++) {
        struct keep_drain_answer refused;
        if (*lengths[row] == 0) continue;
        *lengths[row] -= 1;
        refused = keep_drain_with(graph->numbers, graph->length, starts, count, &rows);
        *lengths[row] += 1;
        EXPECT(refused.number == KEEP_REFUSED_TOO_SHORT && refused.place == 0 && refused.lines == 0);
        EXPECT(drain_rows_are_lent(&rows));
    }
    EXPECT(keep_drain_with(graph->numbers, graph->length, starts, count, &rows).number == KEEP_PASSED);
}

static void drain(const struct graph *graph) {
    struct keep_size size = keep_drain_rows_size(&graph->counts);
    struct keep_drain_rows rows;
    struct keep_drain_answer answer;
    size_t count;
    uint32_t *starts = own_starts(graph, &count);
    keep_drain_rows_in(&graph->counts, fenced_bytes(size.bytes), fenced_words(size.words), &rows);
    EXPECT(rows.reason + rows.reason_length == rows.marks + size.bytes && rows.record_length == size.words);
    answer = keep_drain_with(graph->numbers, graph->length, starts, count, &rows);
    EXPECT(answer.number == KEEP_PASSED);
    drain_exactly(graph, starts, count, KEEP_LINE_NUMBERS * (size_t)answer.lines);
    if (count == 0) return;
    answer = keep_drain_with(graph->numbers, graph->length, starts, count - 1, &rows);
    EXPECT(answer.number == KEEP_REFUSED_LENGTH && answer.place == count - 1);
}

/*
 * The starts with marks, a record of the main stage and starts that are just long enough; with any of them one shorter
 * they are refused.
 */
static void starts(const struct graph *graph, size_t record_length) {
    size_t lengths[3], row, count;
    uint8_t *marks = fenced_bytes(keep_marks_length(&graph->counts));
    uint32_t *record = fenced_words(record_length), *own;
    struct keep_read_answer answer;
    own_starts(graph, &count);
    EXPECT(count <= keep_starts_length(&graph->counts));
    own = fenced_words(count);
    lengths[0] = keep_marks_length(&graph->counts);
    lengths[1] = record_length;
    lengths[2] = count;
    for (row = 0; row < 3; row++) {
        if (lengths[row] == 0) continue;
        lengths[row] -= 1;
        answer = keep_starts(graph->numbers, graph->length, marks, lengths[0], record, lengths[1], own, lengths[2]);
        lengths[row] += 1;
        EXPECT(answer.number == KEEP_REFUSED_TOO_SHORT && answer.place == 0 && answer.count == 0);
        EXPECT(is_lent(own, count * sizeof *own));
    }
    answer = keep_starts(graph->numbers, graph->length, marks, lengths[0], record, lengths[1], own, lengths[2]);
    EXPECT(answer.number == KEEP_PASSED && answer.count == count);
}

int main(int count, char **names) {
    int index;
    for (index = 1; index < count; index++) {
        struct graph graph = load(names[index]);
        print_lengths(&graph.counts);
        effects(&graph);
        starts(&graph, run(&graph));
        drain(&graph);
    }
    return 0;
}
