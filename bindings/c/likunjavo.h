/*
 * Likunjavo for C and C++: the check, the message and the run, out of the archive that
 *
 *     tools/archive
 *
 * writes to target/staticlib/liblikunjavo.a. It is x86-64 code that calls nothing, not even the C library. To link:
 *
 *     cc -I bindings/c program.c target/staticlib/liblikunjavo.a
 *
 * likunjavo_check_table, likunjavo_shown_part and likunjavo_run_table answer for whatever bytes and words they are
 * lent: there is nothing to test before a call. What C itself must hold to:
 *   - a pointer points at as many elements as the length beside it says; beside the length 0 it may be any, also NULL;
 *   - a pointer to words is aligned as C aligns a uint32_t;
 *   - what a function writes (registers, memory, observations) overlaps nothing else that it is lent.
 * Lengths count elements, not bytes: four registers are 4. No function keeps a pointer, or anything else, between two
 * calls, so several threads may call them at once. A call needs at most 16 KiB of stack (docs/PERFORMANCE.md).
 *
 * What a gateway should log of a table that is refused: the number, the place, the table's length, and the bytes that
 * likunjavo_shown_part names, in hexadecimal (of fault 9 these are all bytes to the table's end; the first sixteen will
 * do). bindings/c/example.c has such a line. With the table at hand they find the record, and without it they say what
 * kind of record it was. Registers, memory and observations do not belong in a log: they may hold secrets, or tell of
 * them.
 */
#ifndef LIKUNJAVO_H
#define LIKUNJAVO_H

#include <stddef.h>
#include <stdint.h>

#ifdef __cplusplus
extern "C" {
#endif

/* Why a table or a run is refused, by the numbers of document 01: a check answers with 1 to 14, a run with 1 to 9, 15
   and 16 (README.md, "The fault numbers"). */
enum likunjavo_fault {
    LIKUNJAVO_PASSES = 0,               /* no fault */
    LIKUNJAVO_TABLE_TOO_LONG = 1,       /* the table is longer than 32,768 bytes */
    LIKUNJAVO_TABLE_CUT = 2,            /* the table ends in the middle of a record, or where one should begin */
    LIKUNJAVO_WRONG_KIND = 3,           /* a record's kind is unknown, or may not stand here */
    LIKUNJAVO_OUT_OF_RANGE = 4,         /* a number in a record is out of range */
    LIKUNJAVO_WRONG_PLACE = 5,          /* a place that one record names is not where the other record stands */
    LIKUNJAVO_TOO_DEEP = 6,             /* blocks are nested more than 16 deep */
    LIKUNJAVO_CALL_NOT_LOWER = 7,       /* a CALL of the function itself or of a later one */
    LIKUNJAVO_ENTRY_UPDATED = 8,        /* the entry's signature starts with status updated */
    LIKUNJAVO_BYTES_AFTER_END = 9,      /* bytes stand after the last RETURN */
    LIKUNJAVO_NOT_PUBLIC = 10,          /* an index, or the register of an IF or WHILE, is not public */
    LIKUNJAVO_WRONG_STATUS = 11,        /* an UPDATE or PROTECT stands where the flag does not stand for it */
    LIKUNJAVO_LOOP_NOT_KEPT = 12,       /* what arrives at a WHILE or ENDWHILE does not fit the loop's environment */
    LIKUNJAVO_CALL_DOES_NOT_FIT = 13,   /* what arrives at a CALL does not fit what the function takes */
    LIKUNJAVO_RETURN_DOES_NOT_FIT = 14, /* what arrives at a RETURN does not fit what the signature promises */
    LIKUNJAVO_WRONG_LENGTH = 15,        /* the registers or the memory lent are not as many words as the table has */
    LIKUNJAVO_BAD_LIST = 16             /* the list is over 16,384 bytes, or a directive is unknown, cut or wrong */
};

/* Why a run ends. */
enum likunjavo_stop {
    LIKUNJAVO_LIST_USED_UP = 20,        /* the list is used up */
    LIKUNJAVO_RETURNED = 21,            /* the entry's RETURN is reached */
    LIKUNJAVO_WRONG_DIRECTIVE = 22,     /* the directive is of a wrong kind for the record */
    LIKUNJAVO_INIT_MISSPECULATING = 23, /* an INIT is reached while the run misspeculates */
    LIKUNJAVO_ACCESS_OUT_OF_RANGE = 24, /* an access is out of range while the run does not misspeculate */
    LIKUNJAVO_NO_SUCH_TARGET = 25,      /* the directive names a word or a return place that there is not */
    LIKUNJAVO_NO_ROOM = 26              /* there is no room left for the observation */
};

/*
 * The functions of the archive, as they are. They fill a lent array of numbers, and ask one thing more of a pointer
 * than the functions below: it is never NULL, not even beside the length 0. (They read and write nothing through such
 * a pointer. But what is proved of them is proved of slices, and a slice has an address.) The answer overlaps nothing
 * else that is lent.
 */

/* number, place, functions: as in struct likunjavo_verdict */
void likunjavo_check(const uint8_t *table, size_t table_length, uint64_t answer[3]);

/* in_list, offset, length: as in struct likunjavo_part */
void likunjavo_shown(const uint8_t *table, size_t table_length, const uint8_t *list, size_t list_length, uint8_t number,
                     size_t place, uint64_t answer[3]);

/* number, place, steps, misspeculating, masked: as in struct likunjavo_outcome */
void likunjavo_run(const uint8_t *table, size_t table_length, uint32_t *registers, size_t registers_length,
                   uint32_t *memory, size_t memory_length, const uint8_t *list, size_t list_length,
                   uint8_t *observations, size_t observations_length, uint64_t answer[5]);

/*
 * The same with named answers, and with any pointer beside the length 0.
 */

struct likunjavo_verdict {
    uint8_t number;   /* LIKUNJAVO_PASSES, or the first fault: 1 to 14 of enum likunjavo_fault */
    size_t place;     /* the fault's place, a byte offset from the table's start; 0 where the table passes */
    size_t functions; /* how many functions a table that passes has; 0 where it does not */
};

struct likunjavo_part {
    int in_list;   /* 0: the bytes lie in the table. 1: in the list */
    size_t offset; /* where they begin there */
    size_t length; /* how many they are */
};

struct likunjavo_outcome {
    uint8_t number;     /* refused: 1 to 9, 15 or 16 of enum likunjavo_fault; stopped: one of enum likunjavo_stop */
    size_t place;       /* the fault's place (for 16 in the list, else in the table), or where the run stands */
    size_t steps;       /* the steps taken; 0 where refused */
    int misspeculating; /* 1 where the run is misspeculating, else 0 */
    int masked;         /* 1 where the flag is masked, else 0 */
};

/* Checks a table. Only a table that passes may run on shared hardware. */
static inline struct likunjavo_verdict likunjavo_check_table(const uint8_t *table, size_t table_length) {
    static const uint8_t none = 0;
    uint64_t answer[3];
    struct likunjavo_verdict verdict;
    likunjavo_check(table_length == 0 ? &none : table, table_length, answer);
    verdict.number = (uint8_t)answer[0];
    verdict.place = (size_t)answer[1];
    verdict.functions = (size_t)answer[2];
    return verdict;
}

/*
 * Which bytes the message for a number at a place shows: the record at fault, or less of it (document 01, "Numbers
 * given back"). Give it what the check or the run answered, and the same table and list; after a check, any list
 * (NULL, 0). The bytes lie inside the table or list for every number and place, also for those that no call answered.
 */
static inline struct likunjavo_part likunjavo_shown_part(const uint8_t *table, size_t table_length, const uint8_t *list,
                                                         size_t list_length, uint8_t number, size_t place) {
    static const uint8_t none = 0;
    uint64_t answer[3];
    struct likunjavo_part part;
    likunjavo_shown(table_length == 0 ? &none : table, table_length, list_length == 0 ? &none : list, list_length,
                    number, place, answer);
    part.in_list = (int)answer[0];
    part.offset = (size_t)answer[1];
    part.length = (size_t)answer[2];
    return part;
}

/*
 * Runs a table from its entry under a list of directives. The table must read; it need not pass the check.
 *
 * registers and memory hold the words to start from, and afterwards the words that the run left; of a run that is
 * refused they are as they were. registers_length must be the table's count of registers, memory_length the words of
 * all its arrays together (the arrays lie one after another). Observations are written from observations[0] on; the
 * bytes after the last one written stay as they were. Six bytes for each byte of the list are always enough.
 */
static inline struct likunjavo_outcome likunjavo_run_table(const uint8_t *table, size_t table_length,
                                                           uint32_t *registers, size_t registers_length,
                                                           uint32_t *memory, size_t memory_length, const uint8_t *list,
                                                           size_t list_length, uint8_t *observations,
                                                           size_t observations_length) {
    uint32_t no_words[2] = {0, 0};
    uint8_t no_bytes[3] = {0, 0, 0};
    uint64_t answer[5];
    struct likunjavo_outcome outcome;
    likunjavo_run(table_length == 0 ? &no_bytes[0] : table, table_length,
                  registers_length == 0 ? &no_words[0] : registers, registers_length,
                  memory_length == 0 ? &no_words[1] : memory, memory_length,
                  list_length == 0 ? &no_bytes[1] : list, list_length,
                  observations_length == 0 ? &no_bytes[2] : observations, observations_length, answer);
    outcome.number = (uint8_t)answer[0];
    outcome.place = (size_t)answer[1];
    outcome.steps = (size_t)answer[2];
    outcome.misspeculating = (int)answer[3];
    outcome.masked = (int)answer[4];
    return outcome;
}

#ifdef __cplusplus
}
#endif

#endif
