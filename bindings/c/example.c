/* The check, the message and the run, called from C. `tests/run test` builds it as C99 and as C++, runs it at the
   repository's root and compares what it writes with example.stdout. */
#include "likunjavo.h"
#include <stdio.h>

/* One byte more than a table may have: a longer one is then refused too, with 1. */
static uint8_t table[32769];

static size_t read_table(const char *path) {
    size_t length;
    FILE *file = fopen(path, "rb");
    if (file == NULL) {
        perror(path);
        return 0;
    }
    length = fread(table, 1, sizeof table, file);
    fclose(file);
    return length;
}

/* What a gateway should log: number, place, the table's length, and the bytes shown. */
static void log_refusal(const char *name, const uint8_t *bytes, size_t length, struct likunjavo_verdict verdict) {
    struct likunjavo_part part = likunjavo_shown_part(bytes, length, NULL, 0, verdict.number, verdict.place);
    size_t i;
    printf("%s: refused %d at %zu of %zu bytes, shown:", name, verdict.number, verdict.place, length);
    for (i = 0; i < part.length && i < 16; i++) printf(" %02x", bytes[part.offset + i]);
    printf("\n");
}

static void check(const char *path) {
    size_t length = read_table(path);
    struct likunjavo_verdict verdict = likunjavo_check_table(table, length);
    if (verdict.number == LIKUNJAVO_PASSES) {
        printf("%s: accepted %zu functions %zu bytes\n", path, verdict.functions, length);
    } else {
        log_refusal(path, table, length, verdict);
    }
}

/* Document 01's marked case 4. */
static void run(const char *path) {
    size_t length = read_table(path), i;
    uint32_t registers[2] = {0, 1}, memory[4] = {3, 2, 9, 7};
    const uint8_t list[4] = {0x60, 0x60, 0x60, 0x60};
    uint8_t observations[24] = {0};
    struct likunjavo_outcome outcome = likunjavo_run_table(table, length, registers, 2, memory, 4, list, sizeof list,
                                                           observations, sizeof observations);
    printf("%s: number %d at %zu, %zu steps, misspeculating %d, masked %d\n", path, outcome.number, outcome.place,
           outcome.steps, outcome.misspeculating, outcome.masked);
    printf("registers %u %u, observed", (unsigned)registers[0], (unsigned)registers[1]);
    for (i = 0; i < 14; i++) printf(" %02x", observations[i]);
    printf(", then %02x\n", observations[14]);
}

/* Where a length is 0 the pointer may be NULL. */
static void run_with_nothing(const char *path) {
    size_t length = read_table(path);
    uint32_t registers[2] = {0, 1}, memory[4] = {3, 2, 9, 7};
    struct likunjavo_outcome outcome;
    log_refusal("no table", NULL, 0, likunjavo_check_table(NULL, 0));
    outcome = likunjavo_run_table(NULL, 0, NULL, 0, NULL, 0, NULL, 0, NULL, 0);
    printf("no table: number %d at %zu\n", outcome.number, outcome.place);
    outcome = likunjavo_run_table(table, length, NULL, 0, NULL, 0, NULL, 0, NULL, 0);
    printf("no words: number %d at %zu\n", outcome.number, outcome.place);
    outcome = likunjavo_run_table(table, length, registers, 2, memory, 4, NULL, 0, NULL, 0);
    printf("no list: number %d at %zu, %zu steps\n", outcome.number, outcome.place, outcome.steps);
}

/* The archive's own function, which fills an array of numbers. */
static void check_by_numbers(const char *path) {
    size_t length = read_table(path);
    uint64_t answer[3];
    likunjavo_check(table, length, answer);
    printf("%s: the numbers %d %d %d\n", path, (int)answer[0], (int)answer[1], (int)answer[2]);
}

int main(void) {
    check("tests/examples/passes.table");
    check("tests/examples/fault-10.table");
    run("tests/examples/passes.table");
    run_with_nothing("tests/examples/passes.table");
    check_by_numbers("tests/examples/fault-10.table");
    return 0;
}
