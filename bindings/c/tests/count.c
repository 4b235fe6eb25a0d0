/*
 * keep_count on numbers that are cut off or changed, with a forbidden page behind them: it never reads past the length,
 * and counts nothing where the modules are not whole, a count is above its limit or the header's counts are not theirs.
 */
#include "common.h"

static const uint32_t values[] = {0, 1, 2, 7, 33, 1024, 1025, 16384, 16385, 0x7FFFFFFF, 0xFFFFFFF8, 0xFFFFFFFF};

/* Where the modules end. */
static size_t modules_end(const struct graph *graph) {
    struct keep_module module;
    int more = keep_first_module(graph->numbers, graph->length, &module);
    EXPECT(more);
    while (keep_next_module(graph->numbers, graph->length, &module)) continue;
    EXPECT(module.index + 1 == graph->counts.modules);
    return module.end;
}

static void cut_off(const struct graph *graph) {
    size_t length, end = modules_end(graph);
    struct keep_counts counts;
    for (length = 0; length <= graph->length; length++) {
        const uint32_t *numbers = graph->numbers + (graph->length - length);
        uint32_t *front = fenced_words(length);
        memcpy(front, graph->numbers, length * sizeof *front);
        EXPECT(keep_count(front, length, &counts) == (length >= end));
        keep_count(numbers, length, &counts);
    }
}

static void changed(const struct graph *graph) {
    size_t place, value;
    struct keep_counts counts;
    for (place = 0; place < graph->length; place++) {
        uint32_t before = graph->numbers[place];
        for (value = 0; value < sizeof values / sizeof *values; value++) {
            graph->numbers[place] = values[value];
            if (keep_count(graph->numbers, graph->length, &counts)) {
                EXPECT(counts.modules <= KEEP_MAX_MODULES && counts.symbols <= KEEP_MAX_SYMBOLS);
                EXPECT(counts.statements <= KEEP_MAX_STATEMENTS && counts.entries <= KEEP_MAX_ENTRIES);
                EXPECT(counts.statement_bytes <= KEEP_MAX_MODULES + KEEP_MAX_STATEMENTS / 8);
                EXPECT(counts.import_records <= graph->length);
            } else {
                EXPECT(keep_check(graph->numbers, graph->length).number != KEEP_PASSED);
            }
        }
        graph->numbers[place] = before;
    }
}

/* Modules that are alike, and what the header says of them. */
struct made {
    uint32_t header[7]; /* options, runtime, modules, symbols, statements, entries, helpers */
    uint32_t modules;
    uint32_t statements;   /* of each module */
    uint32_t dependencies; /* of each module */
};

static struct made made_of(uint32_t modules, uint32_t statements) {
    struct made made = {{0, 0, 0, 1, 0, 0, 0}, 0, 0, 0};
    made.header[2] = made.modules = modules;
    made.header[4] = modules * statements;
    made.statements = statements;
    return made;
}

/* Whether keep_count counts the header, the helper symbols and the modules. */
static int counted(struct made made) {
    size_t width = 12 + 10 + made.dependencies, length = 7 + made.header[6] + width * made.modules, module;
    uint32_t *numbers = (uint32_t *)calloc(length, sizeof(uint32_t));
    struct keep_counts counts;
    int answer;
    EXPECT(numbers != NULL);
    memcpy(numbers, made.header, sizeof made.header);
    for (module = 0; module < made.modules; module++) {
        uint32_t *place = numbers + 7 + made.header[6] + width * module;
        place[9] = made.statements;
        place[13] = made.dependencies;
    }
    answer = keep_count(numbers, length, &counts);
    free(numbers);
    return answer;
}

/* The same with one number of the header changed. */
static int counted_with(uint32_t place, uint32_t value) {
    struct made made = made_of(2, 3);
    made.header[place] = value;
    return counted(made);
}

static void limits(void) {
    struct made made = made_of(1, 1);
    EXPECT(counted(made_of(KEEP_MAX_MODULES, 16)) && !counted(made_of(KEEP_MAX_MODULES + 1, 1)));
    EXPECT(counted(made_of(1, KEEP_MAX_STATEMENTS)) && !counted(made_of(1, KEEP_MAX_STATEMENTS + 1)));
    EXPECT(!counted(made_of(2, KEEP_MAX_STATEMENTS)));
    made.dependencies = KEEP_MAX_LIST;
    EXPECT(counted(made));
    made.dependencies = KEEP_MAX_LIST + 1;
    EXPECT(!counted(made));
    EXPECT(counted_with(3, KEEP_MAX_SYMBOLS) && !counted_with(3, KEEP_MAX_SYMBOLS + 1));
    EXPECT(counted_with(5, KEEP_MAX_ENTRIES) && !counted_with(5, KEEP_MAX_ENTRIES + 1));
    EXPECT(counted_with(6, KEEP_MAX_HELPERS) && !counted_with(6, KEEP_MAX_HELPERS + 1));
}

/* No first module, or one with too many statements. */
static void first_module(void) {
    uint32_t numbers[7 + 22];
    struct keep_module module;
    memset(numbers, 0, sizeof numbers);
    EXPECT(!keep_first_module(numbers, 7 + 22, &module));
    numbers[2] = 1;
    numbers[7 + 9] = KEEP_MAX_STATEMENTS;
    EXPECT(keep_first_module(numbers, 7 + 22, &module) && module.end == 7 + 22);
    EXPECT(!keep_first_module(numbers, 7 + 21, &module));
    numbers[7 + 9] = KEEP_MAX_STATEMENTS + 1;
    EXPECT(!keep_first_module(numbers, 7 + 22, &module));
}

/* Counts in the header that are not those of the modules. */
static void header_counts(void) {
    struct made made = made_of(2, 0);
    EXPECT(counted(made));
    made.header[2] = 3;
    EXPECT(!counted(made));
    EXPECT(counted_with(4, 6) && !counted_with(4, 5) && !counted_with(4, 7));
    EXPECT(!counted_with(2, 0) && !counted_with(2, 1) && !counted_with(2, 3));
}

int main(int count, char **names) {
    struct keep_counts counts;
    int index;
    EXPECT(!keep_count(NULL, 0, &counts));
    limits();
    first_module();
    header_counts();
    for (index = 1; index < count; index++) {
        struct graph graph = load(names[index]);
        cut_off(&graph);
        changed(&graph);
    }
    return 0;
}
