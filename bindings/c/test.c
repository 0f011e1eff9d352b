/* Makes a store through include/sogvect.h, makes every call, serves a script, checks the answers and prints `ok`. C99 and C++17. */
#include <stdio.h>
#include <stdlib.h>
#include <string.h>

#include "sogvect.h"

/* Six different numbers: two of them swapped would be another geometry. */
#define SIX 2, 3, 5, 4, 7, 20
#define BLOCKS 6

static uint32_t tables[SOGVECT_TABLES_NUMBERS(4, BLOCKS)];
static uint8_t logged[SOGVECT_LOG_BYTES(20)];
static uint32_t out[SOGVECT_OUT_NUMBERS(BLOCKS)];

#define TABLES tables, sizeof tables / sizeof *tables
#define LOG logged, sizeof logged
#define OUT out, sizeof out / sizeof *out

static struct sogvect_store store = {{SIX}, TABLES, LOG, OUT, 0};

#define EXPECT(fact) expect((fact), #fact, __LINE__)

static void expect(int holds, const char *fact, int line) {
    if (!holds) {
        fprintf(stderr, "test.c:%d: not so: %s\n", line, fact);
        exit(1);
    }
}

/* The call was done, and its result is these numbers. */
static int gives(uint32_t code, size_t n, const uint32_t *numbers) {
    return code == SOGVECT_DONE && store.count == n && memcmp(out, numbers, n * sizeof *numbers) == 0;
}

#define GIVES(call, ...) \
    do { \
        const uint32_t numbers[] = {__VA_ARGS__}; \
        store.count = SIZE_MAX; \
        EXPECT(gives((call), sizeof numbers / sizeof *numbers, numbers)); \
    } while (0)

#define GIVES_NOTHING(call) \
    do { \
        store.count = SIZE_MAX; \
        EXPECT((call) == SOGVECT_DONE && store.count == 0); \
    } while (0)

#define REFUSES(call, number) \
    do { \
        store.count = SIZE_MAX - 1; \
        EXPECT((call) == (number) && store.count == SIZE_MAX - 1); \
    } while (0)

/* A block in a result is two numbers, the block and its birth. */
static void every_call(void) {
    EXPECT(sogvect_make_store(&store) == SOGVECT_DONE);
    GIVES(sogvect_begin(&store), 1);
    GIVES(sogvect_write(&store, 1, 4, SOGVECT_DATA), 0, 1);
    GIVES(sogvect_write(&store, 1, 3, SOGVECT_PIVOT), 3, 1);
    GIVES(sogvect_read(&store, 1, 4), 0, 1);
    GIVES_NOTHING(sogvect_read(&store, 1, 2));
    GIVES(sogvect_seal(&store, 1), 2);
    GIVES(sogvect_write(&store, 2, 4, SOGVECT_LEAF), 1, 2);
    GIVES(sogvect_write(&store, 2, 4, SOGVECT_LEAF), 2, 2, 1, 2);
    GIVES(sogvect_fork(&store, 1), 3);
    GIVES_NOTHING(sogvect_erase(&store, 3, 4));
    GIVES(sogvect_erase(&store, 2, 4), 2, 2);
    /* 1 and 2 wait until the barrier */
    GIVES(sogvect_free_list(&store), 4, 2);
    GIVES_NOTHING(sogvect_barrier(&store));
    GIVES(sogvect_free_list(&store), 1, 2, 4, 2);
    REFUSES(sogvect_estimate(&store, 1), SOGVECT_FORKED);
    GIVES(sogvect_estimate(&store, 3), 0, 0, 0);
    GIVES_NOTHING(sogvect_delete(&store, 3));
    GIVES_NOTHING(sogvect_reclaim(&store, SOGVECT_RECLAIM_MAX));
    GIVES(sogvect_estimate(&store, 1), 1, 0, 1);
    GIVES_NOTHING(sogvect_delete(&store, 1));
    /* 0 is queued, then it waits until the log is compressed */
    GIVES(sogvect_free_list(&store), 1, 2, 4, 2);
    GIVES(sogvect_reclaim(&store, 1), 0, 1);
    GIVES(sogvect_free_list(&store), 1, 2, 4, 2);
    GIVES(sogvect_compress(&store), 2);
    GIVES(sogvect_free_list(&store), 0, 3, 4, 2);
}

/* A line with a window: the seal of 2 deletes 1; that of 3 passes over 2, which is forked; once the fork is gone, that of 5 deletes 2 and 3. The blocks are
 * queued, and reclaimed in turns. */
static void windows(void) {
    EXPECT(sogvect_make_store(&store) == SOGVECT_DONE);
    GIVES(sogvect_begin(&store), 1);
    GIVES(sogvect_write(&store, 1, 0, SOGVECT_DATA), 0, 1);
    GIVES_NOTHING(sogvect_retain(&store, 1, SOGVECT_WINDOW_MAX));
    GIVES(sogvect_seal(&store, 1), 2);
    GIVES_NOTHING(sogvect_retain(&store, 2, 1));
    GIVES(sogvect_write(&store, 2, 0, SOGVECT_DATA), 1, 2);
    GIVES(sogvect_seal(&store, 2), 3);
    GIVES(sogvect_write(&store, 3, 0, SOGVECT_DATA), 2, 3);
    GIVES(sogvect_fork(&store, 2), 4);
    GIVES(sogvect_seal(&store, 3), 5);
    /* 15 comes before 8 and 9 */
    REFUSES(sogvect_retain(&store, 9, SOGVECT_WINDOW_MAX + 1), SOGVECT_NO_WINDOW);
    REFUSES(sogvect_retain(&store, 3, 0), SOGVECT_NO_WINDOW);
    REFUSES(sogvect_retain(&store, 9, 1), SOGVECT_NO_RECORD);
    REFUSES(sogvect_retain(&store, 3, 1), SOGVECT_WRONG_STATE);
    REFUSES(sogvect_seal(&store, 5), SOGVECT_TABLE_FULL);
    GIVES_NOTHING(sogvect_delete(&store, 4));
    GIVES(sogvect_write(&store, 5, 0, SOGVECT_DATA), 3, 5);
    /* the two deletes queue a block each, and the log has one word left */
    while (SOGVECT_LOG_USED(&store) < SOGVECT_LOG_BYTES(20 - 1))
        GIVES_NOTHING(sogvect_barrier(&store));
    GIVES(sogvect_seal(&store, 5), 6);
    /* 19 comes before 14 */
    REFUSES(sogvect_reclaim(&store, 0), SOGVECT_NO_AMOUNT);
    REFUSES(sogvect_reclaim(&store, SOGVECT_RECLAIM_MAX + 1), SOGVECT_NO_AMOUNT);
    REFUSES(sogvect_reclaim(&store, 2), SOGVECT_LOG_FULL);
    GIVES(sogvect_reclaim(&store, 1), 0, 1);
    REFUSES(sogvect_reclaim(&store, 1), SOGVECT_LOG_FULL);
    GIVES(sogvect_compress(&store), 4);
    GIVES(sogvect_free_list(&store), 0, 1, 4, 2);
    GIVES(sogvect_reclaim(&store, SOGVECT_RECLAIM_MAX), 1, 2, 2, 3);
    GIVES_NOTHING(sogvect_reclaim(&store, 1));
}

/* A name that is a string literal, as its bytes and their number. */
#define NAME(text) text, sizeof text - 1

static const char longest[] = "abcdefghijklmnopqrstuvwxyzabcdefg";

/* Names: of 1, which moves with the seal; two of a sealed record, which is then not deleted; bytes that are none, and names that may not be put there. */
static void names(void) {
    EXPECT(sogvect_make_store(&store) == SOGVECT_DONE);
    GIVES(sogvect_begin(&store), 1);
    GIVES_NOTHING(sogvect_name_store(&store, NAME("easter"), 1));
    REFUSES(sogvect_name_store(&store, NAME("christmas"), 1), SOGVECT_WRONG_NAME);
    GIVES(sogvect_seal(&store, 1), 2);
    GIVES(sogvect_resolve_store(&store, NAME("easter")), 2);
    GIVES_NOTHING(sogvect_name_store(&store, NAME("a"), 1));
    GIVES_NOTHING(sogvect_name_store(&store, longest, SOGVECT_LETTERS_MAX, 1));
    GIVES(sogvect_resolve_store(&store, longest, SOGVECT_LETTERS_MAX), 1);
    REFUSES(sogvect_resolve_store(&store, longest, SOGVECT_LETTERS_MAX - 1), SOGVECT_WRONG_NAME);
    REFUSES(sogvect_resolve_store(&store, longest, SOGVECT_LETTERS_MAX + 1), SOGVECT_NO_NAME);
    /* 16 comes before 8, and 8 before 17 */
    REFUSES(sogvect_name_store(&store, longest, SOGVECT_LETTERS_MAX + 1, 9), SOGVECT_NO_NAME);
    REFUSES(sogvect_name_store(&store, NULL, 0, 9), SOGVECT_NO_NAME);
    REFUSES(sogvect_name_store(&store, NAME("Easter"), 1), SOGVECT_NO_NAME);
    REFUSES(sogvect_name_store(&store, NAME("a\0"), 1), SOGVECT_NO_NAME);
    REFUSES(sogvect_unname_store(&store, NULL, 0), SOGVECT_NO_NAME);
    REFUSES(sogvect_resolve_store(&store, NULL, 0), SOGVECT_NO_NAME);
    REFUSES(sogvect_name_store(&store, NAME("easter"), 9), SOGVECT_NO_RECORD);
    REFUSES(sogvect_name_store(&store, NAME("easter"), 1), SOGVECT_WRONG_NAME);
    REFUSES(sogvect_name_store(&store, NAME("easter"), 2), SOGVECT_WRONG_NAME);
    REFUSES(sogvect_delete(&store, 1), SOGVECT_NAMED);
    REFUSES(sogvect_estimate(&store, 2), SOGVECT_NAMED);
    /* a fork has no name, and 10 comes before 18 */
    GIVES(sogvect_fork(&store, 1), 3);
    REFUSES(sogvect_delete(&store, 1), SOGVECT_FORKED);
    GIVES_NOTHING(sogvect_delete(&store, 3));
    GIVES_NOTHING(sogvect_unname_store(&store, NAME("a")));
    REFUSES(sogvect_unname_store(&store, NAME("a")), SOGVECT_WRONG_NAME);
    REFUSES(sogvect_delete(&store, 1), SOGVECT_NAMED);
    GIVES_NOTHING(sogvect_unname_store(&store, longest, SOGVECT_LETTERS_MAX));
    GIVES_NOTHING(sogvect_delete(&store, 1));
}

/* A window passes over a named record: the seal of 5 deletes 4 and leaves 2, which has a name. Then as many names as there can be. */
static void names_and_windows(void) {
    char name[] = "aa";
    int i;
    GIVES_NOTHING(sogvect_unname_store(&store, NAME("easter")));
    GIVES_NOTHING(sogvect_retain(&store, 2, 2));
    GIVES(sogvect_seal(&store, 2), 4);
    GIVES_NOTHING(sogvect_name_store(&store, NAME("kept"), 2));
    GIVES(sogvect_write(&store, 4, 0, SOGVECT_DATA), 0, 4);
    GIVES(sogvect_seal(&store, 4), 5);
    GIVES(sogvect_write(&store, 5, 0, SOGVECT_DATA), 1, 5);
    GIVES(sogvect_seal(&store, 5), 6);
    GIVES(sogvect_reclaim(&store, 2), 0, 4);
    GIVES(sogvect_resolve_store(&store, NAME("kept")), 2);
    REFUSES(sogvect_read(&store, 4, 0), SOGVECT_NO_RECORD);
    for (i = 1; i < SOGVECT_NAMES_MAX; i++) {
        name[0] = (char)('a' + i % 26);
        name[1] = (char)('a' + i / 26);
        GIVES_NOTHING(sogvect_name_store(&store, name, 2, 2));
    }
    REFUSES(sogvect_name_store(&store, NAME("more"), 2), SOGVECT_WRONG_NAME);
    REFUSES(sogvect_name_store(&store, NAME("more"), 6), SOGVECT_WRONG_NAME);
    GIVES_NOTHING(sogvect_unname_store(&store, NAME("kept")));
    GIVES_NOTHING(sogvect_name_store(&store, NAME("more"), 6));
    GIVES(sogvect_resolve_store(&store, NAME("more")), 6);
}

/* The calls with a name are refused as the others are by the six numbers, the lengths and the tables, before 16. */
static void names_refused(uint32_t number) {
    REFUSES(sogvect_name_store(&store, NAME("A"), 9), number);
    REFUSES(sogvect_unname_store(&store, NAME("A")), number);
    REFUSES(sogvect_resolve_store(&store, NAME("A")), number);
}

static void refusals(void) {
    uint32_t kept[sizeof tables / sizeof *tables];
    struct sogvect_store sound = store;
    memcpy(kept, tables, sizeof tables);
    store.geometry.arenas = 17;
    REFUSES(sogvect_begin(&store), SOGVECT_OUTSIDE_LIMITS);
    names_refused(SOGVECT_OUTSIDE_LIMITS);
    EXPECT(sogvect_make_store(&store) == SOGVECT_OUTSIDE_LIMITS);
    store = sound;
    store.tables_len -= 1;
    REFUSES(sogvect_begin(&store), SOGVECT_TOO_SHORT);
    names_refused(SOGVECT_TOO_SHORT);
    EXPECT(sogvect_make_store(&store) == SOGVECT_TOO_SHORT);
    store = sound;
    store.geometry.arenas = 3;
    store.geometry.per = 2;
    REFUSES(sogvect_begin(&store), SOGVECT_NOT_SOUND);
    names_refused(SOGVECT_NOT_SOUND);
    store = sound;
    names_refused(SOGVECT_NO_NAME);
    REFUSES(sogvect_write(&store, 2, 5, 0), SOGVECT_NO_PAGE);
    REFUSES(sogvect_write(&store, 2, 4, 3), SOGVECT_NO_KIND);
    REFUSES(sogvect_delete(&store, 9), SOGVECT_NO_RECORD);
    REFUSES(sogvect_estimate(&store, 9), SOGVECT_NO_RECORD);
    REFUSES(sogvect_fork(&store, 2), SOGVECT_WRONG_STATE);
    REFUSES(sogvect_reclaim(&store, UINT32_MAX), SOGVECT_NO_AMOUNT);
    EXPECT(memcmp(kept, tables, sizeof tables) == 0);
}

/* A letter that no call of numbers has is refused by 1, whatever else is wrong: N, U and M are none. */
static void letters(void) {
    static const char calls[] = "BWESFDRYCLQKT";
    uint32_t kept[sizeof tables / sizeof *tables], letter;
    struct sogvect_store sound = store;
    memcpy(kept, tables, sizeof tables);
    for (letter = 0; letter < 600; letter++) {
        if (letter == 0 || letter > 255 || strchr(calls, (int)letter) == NULL)
            REFUSES(sogvect_call_store(&store, letter, 2, 4, 0), SOGVECT_NO_CALL);
    }
    REFUSES(sogvect_call_store(&store, UINT32_MAX, 2, 4, 0), SOGVECT_NO_CALL);
    for (letter = 0; letter < 600; letter++) {
        if (letter != 'R' && letter != 'L' && letter != 'Q')
            REFUSES(sogvect_look_store(&store, letter, 2, 4), SOGVECT_NO_CALL);
    }
    store.geometry.arenas = 17;
    store.tables_len = 0;
    REFUSES(sogvect_call_store(&store, 'b', 2, 4, 0), SOGVECT_NO_CALL);
    REFUSES(sogvect_look_store(&store, 'B', 2, 4), SOGVECT_NO_CALL);
    store = sound;
    /* numbers that a call does not take are passed over */
    GIVES(sogvect_call_store(&store, 'L', 9, 9, 9), 0, 3, 4, 2);
    GIVES(sogvect_call_store(&store, 'Q', 2, UINT32_MAX, 9), 1, 0, 0);
    GIVES_NOTHING(sogvect_call_store(&store, 'T', 1, UINT32_MAX, 9));
    EXPECT(memcmp(kept, tables, sizeof tables) == 0);
}

/* Looks at memory that is const, with a buffer of their own, give what calls give; so does sogvect_resolve. */
static void looks(void) {
    static uint32_t mine[SOGVECT_OUT_NUMBERS(BLOCKS)];
    const uint32_t *const read_tables = tables;
    const uint8_t *const read_log = logged;
    uint32_t page;
    for (page = 0; page < 6; page++) {
        size_t n = SIZE_MAX;
        uint32_t code = sogvect_look(SIX, read_tables, sizeof tables / sizeof *tables, read_log, sizeof logged,
                                     mine, sizeof mine / sizeof *mine, 'R', 2, page, &n);
        store.count = SIZE_MAX;
        EXPECT(code == sogvect_call_store(&store, 'R', 2, page, 0) && n == store.count);
        EXPECT(n == SIZE_MAX || memcmp(mine, out, n * sizeof *out) == 0);
    }
    size_t n = SIZE_MAX;
    GIVES_NOTHING(sogvect_name_store(&store, NAME("easter"), 2));
    EXPECT(sogvect_resolve(SIX, read_tables, sizeof tables / sizeof *tables, read_log, sizeof logged, mine, sizeof mine / sizeof *mine,
                           (const uint8_t *)"easter", 6, &n) == SOGVECT_DONE);
    EXPECT(n == 1 && mine[0] == 2);
    GIVES_NOTHING(sogvect_unname_store(&store, NAME("easter")));
}

/* Each refusal has a reason of its own. */
static void reasons(void) {
    uint32_t i, j;
    for (i = SOGVECT_DONE; i <= SOGVECT_NO_AMOUNT + 1; i++) {
        for (j = SOGVECT_DONE; j < i; j++)
            EXPECT(strcmp(sogvect_reason(i), sogvect_reason(j)) != 0);
    }
    EXPECT(strcmp(sogvect_reason(SOGVECT_NO_RECORD), "the record is not in the store") == 0);
    EXPECT(sogvect_reason(UINT32_MAX) == sogvect_reason(SOGVECT_NO_AMOUNT + 1));
}

static void logs(void) {
    const uint8_t none[] = {0, 0, 0, 0, 0, 0, 0, 3};
    const uint8_t wrong[] = {0, 0, 0, 0, 0, 0, 0, 6, 0, 0, 0, 0, 0, 0, 0, 3};
    uint32_t alike = 9;
    GIVES(sogvect_log_read(SIX, logged, SOGVECT_LOG_USED(&store), OUT, &store.count), 3);
    /* cut in its barrier, and after it */
    GIVES_NOTHING(sogvect_log_read(SIX, logged, SOGVECT_LOG_USED(&store) - 1, OUT, &store.count));
    GIVES(sogvect_log_read(SIX, logged, SOGVECT_LOG_USED(&store) + 1, OUT, &store.count), 3);
    GIVES_NOTHING(sogvect_log_read(SIX, none, 8, OUT, &store.count));
    GIVES_NOTHING(sogvect_log_read(SIX, none, 7, OUT, &store.count));
    GIVES_NOTHING(sogvect_log_read(SIX, wrong, 15, OUT, &store.count));
    REFUSES(sogvect_log_read(SIX, wrong, 16, OUT, &store.count), SOGVECT_NO_LOG);
    EXPECT(sogvect_log_compare(SIX, none, 7, none, 8, &alike) == SOGVECT_NO_LOG && alike == 9);
    EXPECT(sogvect_log_compare(SIX, none, 0, none, 8, &alike) == SOGVECT_DONE && alike == 1);
    EXPECT(sogvect_log_compare(SIX, none, 8, logged, SOGVECT_LOG_USED(&store), &alike) == SOGVECT_DONE && alike == 0);
    uint8_t again[SOGVECT_LOG_BYTES(20)];
    store.count = 9;
    EXPECT(sogvect_log_compact(SIX, none, 0, again, sizeof again - 1, &store.count) == SOGVECT_TOO_SHORT && store.count == 9);
    EXPECT(sogvect_log_compact(SIX, none, 7, again, sizeof again, &store.count) == SOGVECT_NO_LOG && store.count == 9);
    EXPECT(sogvect_log_compact(SIX, none, 0, again, sizeof again, &store.count) == SOGVECT_DONE && store.count == 1);
    EXPECT(memcmp(again, none, sizeof none) == 0);
}

static void script(void) {
    static uint32_t its_tables[SOGVECT_TABLES_NUMBERS_MAX], its_out[SOGVECT_OUT_NUMBERS_MAX];
    static uint8_t its_log[SOGVECT_LOG_BYTES_MAX], replies[65536];
    const char *text = "store 2 3 5 4 7 20\nB\nW 1 4 0\nno call\nN a 1\nM a\nL\nU a\nD 1\nT 64";
    const char *said = "+\n+ 1\n+ 0:1\n- 1\n+\n+ 1\n+ 1 2 3 3\n+\n+\n+ 0:1\n";
    uint32_t run[SOGVECT_SCRIPT_RUN] = {0};
    size_t at = 0, bytes = 0;
#define PART(tables_len) \
    sogvect_script((const uint8_t *)text, strlen(text), &at, run, SOGVECT_SCRIPT_RUN, its_tables, tables_len, its_log, sizeof its_log, its_out, \
                   SOGVECT_OUT_NUMBERS_MAX, replies, sizeof replies, &bytes)
#define PART_REFUSES(tables_len, number) EXPECT(PART(tables_len) == (number) && at == 50 && bytes == strlen(said))
    EXPECT(PART(SOGVECT_TABLES_NUMBERS_MAX) == SOGVECT_DONE);
    EXPECT(at >= strlen(text) && bytes == strlen(said) && memcmp(replies, said, bytes) == 0);
    EXPECT(run[0] == 1 && run[1] == 2 && run[6] == 20);
    at = 50;
    PART_REFUSES(SOGVECT_TABLES_NUMBERS_MAX - 1, SOGVECT_TOO_SHORT);
    its_tables[9] = 9;
    PART_REFUSES(SOGVECT_TABLES_NUMBERS_MAX, SOGVECT_NOT_SOUND);
    run[1] = 17;
    PART_REFUSES(SOGVECT_TABLES_NUMBERS_MAX, SOGVECT_OUTSIDE_LIMITS);
}

int main(void) {
    EXPECT(SOGVECT_TABLES_NUMBERS(SOGVECT_RECORDS_MAX, SOGVECT_BLOCKS_MAX) == SOGVECT_TABLES_NUMBERS_MAX);
    EXPECT(SOGVECT_LOG_BYTES(SOGVECT_WORDS_MAX) == SOGVECT_LOG_BYTES_MAX);
    EXPECT(SOGVECT_OUT_NUMBERS(SOGVECT_BLOCKS_MAX) == SOGVECT_OUT_NUMBERS_MAX);
    every_call();
    refusals();
    letters();
    looks();
    reasons();
    logs();
    script();
    windows();
    names();
    names_and_windows();
    puts("ok");
    return 0;
}
