/* Sogvect: a snapshot store with forks, deletes in the middle of a line and an allocation log.
 *
 * The store keeps records (snapshots). A record maps pages to blocks; it is open (pages may be written) or sealed. Records stand in lines, and a sealed
 * record may be forked into a new line. Records may have names, and a record that has one is not deleted. The store decides which block a page gets and
 * which blocks a change frees; it never touches the blocks' contents.
 *
 * Link with target/staticlib/libsogvect.a (x86-64 Linux; made by `tools/build sogvect`). The library allocates nothing and keeps nothing between calls:
 * a store lives wholly in memory that its owner lends with every call. The header is C99 and C++.
 *
 *   static uint32_t tables[SOGVECT_TABLES_NUMBERS(4, 6)], out[SOGVECT_OUT_NUMBERS(6)];
 *   static uint8_t log[SOGVECT_LOG_BYTES(20)];
 *   struct sogvect_store store = {{2, 3, 5, 4, 7, 20}, tables, sizeof tables / sizeof *tables, log, sizeof log, out, sizeof out / sizeof *out, 0};
 *   uint32_t record;
 *   if (sogvect_make_store(&store) == SOGVECT_DONE && sogvect_begin(&store) == SOGVECT_DONE) {
 *       record = store.out[0];
 *       if (sogvect_write(&store, record, 4, SOGVECT_DATA) == SOGVECT_DONE)
 *           printf("block %u\n", (unsigned)store.out[0]);
 *   }
 *
 * Lent memory, each piece as a pointer and a length counted in elements:
 *   tables   32-bit numbers, the store's state
 *   log      bytes, the store's allocation log
 *   out      32-bit numbers, the result buffer
 * Tables and log come back to every call as the last call left them. docs/LAYOUT.md describes both. Pointers are aligned for their type and not NULL,
 * even where a length is 0. The pieces, and the count, do not overlap. Longer memory is taken, and what lies beyond the needed length is never changed.
 * During a call nobody else changes what is lent: no other thread or process, and no signal handler. A call needs less than 16 KiB of stack.
 * Apart from that nothing is trusted: any numbers, any content. Every call first checks all tables and the log.
 *
 * Every function returns SOGVECT_DONE (0), or the number of the reason why it refused the call. Where several reasons are true it is the first in the
 * order of docs/RULES.md, 7.1.
 * A done call sets the count to how many numbers its result has; they stand at the start of `out`, and the rest of `out` is as it was.
 * A block that sogvect_write, _erase, _read or _reclaim names is a pair of numbers in `out`, the block and after it its birth: the number of the
 * record that was open when the block was given. A freed block's birth is the one that it had. The count counts both numbers. No other result has births.
 * A refused call changes nothing: tables, log, out and count are as they were.
 *
 * A delete, and a seal that deletes by a window, free nothing: the blocks that no page has any more join a queue, where they stay held. sogvect_reclaim
 * frees them, so many at a time, in the order in which they were queued; so a large delete holds nobody up.
 *
 * A block that a call frees waits: it is given again, or listed as free, only once a sogvect_barrier or a sogvect_compress was done since. So where the
 * log of a store is cut, at any byte of the words appended since the last sogvect_compress, reading it (sogvect_log_read) gives the blocks held at the
 * last whole barrier, and none of those was given to a write between that barrier and the cut.
 *
 * Blocks are numbered from 0 through all arenas, pages from 0, records from 1. A record's number is never given twice.
 */
#ifndef SOGVECT_H
#define SOGVECT_H

#include <stddef.h>
#include <stdint.h>

#ifdef __cplusplus
extern "C" {
#endif

/* Changes whenever the tables or the log of a store mean something else than before. A store that is kept in a file belongs to the layout that it was
 * made with: keep the number beside it. */
#define SOGVECT_LAYOUT 4

/* Limits of the six numbers; the least of each but words is 1. */
#define SOGVECT_ARENAS_MAX 16
#define SOGVECT_PER_MAX 1024
#define SOGVECT_BLOCKS_MAX 2048
#define SOGVECT_PAGES_MAX 256
#define SOGVECT_RECORDS_MAX 64
#define SOGVECT_TURN_MAX 4096
#define SOGVECT_WORDS_MIN(blocks) (2 * (size_t)(blocks) + 2)
#define SOGVECT_WORDS_MAX 8192

/* The last number that a record can have. */
#define SOGVECT_RECORD_MAX 999999

/* The most sealed records that a window can leave; the least is 1. */
#define SOGVECT_WINDOW_MAX 62

/* The most names that a store can have, and the most letters that a name can have; the least is 1. */
#define SOGVECT_NAMES_MAX 32
#define SOGVECT_LETTERS_MAX 32

/* The most blocks that a sogvect_reclaim frees; the least is 1. */
#define SOGVECT_RECLAIM_MAX 64

/* Least lengths of the lent memory; blocks is arenas x per. */
#define SOGVECT_TABLES_NUMBERS(records, blocks) (2048 + 512 * (size_t)(records) + 4 * (size_t)(blocks))
#define SOGVECT_LOG_BYTES(words) (8 * (size_t)(words))
#define SOGVECT_OUT_NUMBERS(blocks) (2 * (size_t)(blocks) + 64)

/* Lengths that are enough for every geometry. */
#define SOGVECT_TABLES_NUMBERS_MAX 43008
#define SOGVECT_LOG_BYTES_MAX 65536
#define SOGVECT_OUT_NUMBERS_MAX 4160

/* Lengths for a script: the numbers of its run, and the least bytes of its reply buffer, which hold a longest reply. */
#define SOGVECT_SCRIPT_RUN 7
#define SOGVECT_SCRIPT_REPLIES_MIN 49180

/* Bytes of a block: a log names a block by its number times this. */
#define SOGVECT_BLOCK_BYTES 16384

/* Kinds of a write: they spread over neighbouring arenas. */
#define SOGVECT_DATA 0
#define SOGVECT_PIVOT 1
#define SOGVECT_LEAF 2

/* What a function returns. Every call may be refused with 2, 3 or 4 (a making never with 4); the others are named at each function. */
#define SOGVECT_DONE 0
#define SOGVECT_NO_CALL 1        /* sogvect_call: no call has the letter; sogvect_look: it is not R, L or Q */
#define SOGVECT_OUTSIDE_LIMITS 2 /* one of the six numbers is outside its limits */
#define SOGVECT_TOO_SHORT 3      /* tables, log or out is shorter than the geometry needs */
#define SOGVECT_NOT_SOUND 4      /* the tables and the log are not those of a store of these six numbers */
#define SOGVECT_NO_PAGE 5        /* the page is not below the page count */
#define SOGVECT_NO_KIND 6        /* the kind is above 2 */
#define SOGVECT_NO_LOG 7         /* the bytes are no log of a store of these six numbers */
#define SOGVECT_NO_RECORD 8      /* the record is not in the store */
#define SOGVECT_WRONG_STATE 9    /* write, erase, seal or retain of a sealed record; fork of an open one */
#define SOGVECT_FORKED 10        /* delete or estimate of a record with a fork on it */
#define SOGVECT_TABLE_FULL 11    /* as many records as there can be at one time */
#define SOGVECT_NO_NUMBER 12     /* the last record number has been given */
#define SOGVECT_NO_BLOCK 13      /* no free block: each is on a page, queued or waiting for a barrier */
#define SOGVECT_LOG_FULL 14      /* too few unused log words: sogvect_compress makes room */
#define SOGVECT_NO_WINDOW 15     /* the window is outside 1 to 62 */
#define SOGVECT_NO_NAME 16       /* the bytes are no name: 1 to 32 letters a to z */
#define SOGVECT_WRONG_NAME 17    /* a name in use, a second one on an open record or a thirty-third in the store; a name that no record has */
#define SOGVECT_NAMED 18         /* delete or estimate of a record with a name on it */
#define SOGVECT_NO_AMOUNT 19     /* the number of blocks to reclaim is outside 1 to 64 */

/* The reason of a refusal as an English phrase; of 0, and of a number that no refusal has, it says so. */
static inline const char *sogvect_reason(uint32_t number) {
    switch (number) {
    case SOGVECT_DONE: return "done";
    case SOGVECT_NO_CALL: return "no call has this letter";
    case SOGVECT_OUTSIDE_LIMITS: return "one of the six numbers is outside its limits";
    case SOGVECT_TOO_SHORT: return "the memory is shorter than the geometry needs";
    case SOGVECT_NOT_SOUND: return "the tables and the log are not those of a store of this geometry";
    case SOGVECT_NO_PAGE: return "the page is not below the page count";
    case SOGVECT_NO_KIND: return "the kind is above 2";
    case SOGVECT_NO_LOG: return "the bytes are no log";
    case SOGVECT_NO_RECORD: return "the record is not in the store";
    case SOGVECT_WRONG_STATE: return "write, erase, seal or retain of a sealed record, or fork of an open one";
    case SOGVECT_FORKED: return "delete or estimate of a record with a fork on it";
    case SOGVECT_TABLE_FULL: return "the record table is full";
    case SOGVECT_NO_NUMBER: return "no record number is left";
    case SOGVECT_NO_BLOCK: return "no free block: each is on a page, queued or waiting for a barrier";
    case SOGVECT_LOG_FULL: return "the log is too full: compressing makes room";
    case SOGVECT_NO_WINDOW: return "the window is outside 1 to 62";
    case SOGVECT_NO_NAME: return "the bytes are no name: 1 to 32 letters a to z";
    case SOGVECT_WRONG_NAME: return "the name is in use, a second on an open record, a thirty-third, or on no record";
    case SOGVECT_NAMED: return "delete or estimate of a record with a name on it";
    case SOGVECT_NO_AMOUNT: return "the number of blocks to reclaim is outside 1 to 64";
    default: return "no refusal has this number";
    }
}

/* The functions of the library. The six numbers of a geometry come first, and are those that the store was made from. */

/* Makes a fresh store on the lent memory, whatever was there before. It reads the lengths of log and out only, and has no result.
 * Refusals: 2, 3. */
uint32_t sogvect_make(size_t arenas, size_t per, size_t pages, size_t records, size_t turn, size_t words,
                      uint32_t *tables, size_t tables_len, const uint8_t *log, size_t log_len, const uint32_t *out, size_t out_len);

/* The call of a letter and three numbers. The letter is the one that scripts have, as its byte; the functions on a store below say what each call does.
 * A call passes over the numbers that it does not take: x is the record, but of 'T' how many blocks; y is the page or the window, z the kind.
 *
 *   'B'        sogvect_begin          'S' x    sogvect_seal       'R' x y  sogvect_read         'L'      sogvect_free_list
 *   'W' x y z  sogvect_write          'F' x    sogvect_fork       'Y'      sogvect_barrier      'Q' x    sogvect_estimate
 *   'E' x y    sogvect_erase          'D' x    sogvect_delete     'C'      sogvect_compress     'K' x y  sogvect_retain
 *   'T' x      sogvect_reclaim
 *
 * The calls with a name, which scripts have as N, U and M, are the three functions after sogvect_look.
 * Refusals: 1 (no call has the letter; nothing else is looked at then), and those of the call. */
uint32_t sogvect_call(size_t arenas, size_t per, size_t pages, size_t records, size_t turn, size_t words,
                      uint32_t *tables, size_t tables_len, uint8_t *log, size_t log_len, uint32_t *out, size_t out_len,
                      uint32_t letter, uint32_t x, uint32_t y, uint32_t z, size_t *count);

/* A call that only looks: 'R' x y, 'L' or 'Q' x, as sogvect_call makes it. Tables and log are read and never written: they may be mapped read-only, and
 * several threads may look at one store at once, each with an out and a count of its own, while nobody changes it.
 * Refusals: 1 (any other letter), and those of the call. */
uint32_t sogvect_look(size_t arenas, size_t per, size_t pages, size_t records, size_t turn, size_t words,
                      const uint32_t *tables, size_t tables_len, const uint8_t *log, size_t log_len, uint32_t *out, size_t out_len,
                      uint32_t letter, uint32_t x, uint32_t y, size_t *count);

/* The calls with a name. A name is 1 to SOGVECT_LETTERS_MAX letters a to z, lent as bytes; no zero ends it. Bytes of any other kind, and of any number,
 * are refused by 16. A sealed record may have many names, an open one has at most one. */

/* Puts a name on a record. Of out only the length is read, here and in the next. There is no result.
 * Refusals: 2, 3, 4, 16, 8, 17 (the name is in use, on this record too; the record is open and has a name; the store has SOGVECT_NAMES_MAX), in this
 * order. */
uint32_t sogvect_name(size_t arenas, size_t per, size_t pages, size_t records, size_t turn, size_t words,
                      uint32_t *tables, size_t tables_len, const uint8_t *log, size_t log_len, const uint32_t *out, size_t out_len,
                      const uint8_t *name, size_t name_len, uint32_t record);

/* Takes a name off its record. There is no result.
 * Refusals: 2, 3, 4, 16, 17 (no record has the name). */
uint32_t sogvect_unname(size_t arenas, size_t per, size_t pages, size_t records, size_t turn, size_t words,
                        uint32_t *tables, size_t tables_len, const uint8_t *log, size_t log_len, const uint32_t *out, size_t out_len,
                        const uint8_t *name, size_t name_len);

/* Says which record has a name. Like sogvect_look it only looks: tables and log are never written. Result: the record's number.
 * Refusals: 2, 3, 4, 16, 17 (no record has the name). */
uint32_t sogvect_resolve(size_t arenas, size_t per, size_t pages, size_t records, size_t turn, size_t words,
                         const uint32_t *tables, size_t tables_len, const uint8_t *log, size_t log_len, uint32_t *out, size_t out_len,
                         const uint8_t *name, size_t name_len, size_t *count);

/* Reads a log of any length, of no store or of one whose tables are lost. Only what stands up to the last whole word equal to 3, a barrier, counts: the
 * bytes after it, which the disk may not have finished, are not judged and record nothing, and without such a word nothing is held. Result: the blocks
 * that are held there, rising, one number each: a log has no births.
 * Pass the used words only: a store's own log has more bytes than it uses, and after its last word the words of an earlier log may stand, barriers among
 * them. SOGVECT_LOG_USED says how many bytes are used. A file that is cut anywhere after the last sogvect_compress is read as it is.
 * Refusals: 2, 3 (out too short), 7 (what counts is no log). */
uint32_t sogvect_log_read(size_t arenas, size_t per, size_t pages, size_t records, size_t turn, size_t words,
                          const uint8_t *log, size_t log_len, uint32_t *out, size_t out_len, size_t *count);

/* Compares two logs of any length by every word: *alike becomes 1 where both hold the same blocks at their end, else 0. The two may overlap.
 * Refusals: 2, 7 (one of them is no log); *alike is then as it was. */
uint32_t sogvect_log_compare(size_t arenas, size_t per, size_t pages, size_t records, size_t turn, size_t words,
                             const uint8_t *first, size_t first_len, const uint8_t *second, size_t second_len, uint32_t *alike);

/* Writes a log of any length again, as short as it can be, at the start of out, which must not overlap it; the bytes beyond stay. Every word of it
 * counts, and the new log ends with a barrier. *count becomes how many words it has. out holds at least SOGVECT_LOG_BYTES(words) bytes.
 * Refusals: 2, 3 (out too short), 7. */
uint32_t sogvect_log_compact(size_t arenas, size_t per, size_t pages, size_t records, size_t turn, size_t words,
                             const uint8_t *log, size_t log_len, uint8_t *out, size_t out_len, size_t *count);

/* Serves a script part by part, for a host that receives scripts from strangers. A script is a text of calls, one a line; the reply to each line is a line:
 * `+` and the result's numbers, a colon between a block and its birth, or `-` and the refusal (docs/RULES.md, section 10). A store line makes the store;
 * run, tables, log and out hold it.
 *
 *   run       SOGVECT_SCRIPT_RUN numbers: what the script has between two parts. All 0 before the first part; what tables and log hold then does not matter.
 *             From the first accepted store line on, number 0 is 1 and numbers 1 to 6 are the six numbers of the store
 *   tables, log, out   at least the lengths that are enough for every geometry
 *   replies   at least SOGVECT_SCRIPT_REPLIES_MIN bytes, with which each part is one line; 65,536 or more serve many lines a part
 *
 * It serves whole lines of text from *at on, while a longest reply fits in replies. The replies stand at the start of replies; *count becomes their
 * bytes, *at the position of the next part. Each part serves at least one line. The script is served once *at is not below text_len:
 *
 *   static uint8_t replies[65536];
 *   uint32_t run[SOGVECT_SCRIPT_RUN] = {0};
 *   size_t at = 0, count;
 *   while (at < text_len) {
 *       if (sogvect_script(text, text_len, &at, run, SOGVECT_SCRIPT_RUN, tables, SOGVECT_TABLES_NUMBERS_MAX, log, SOGVECT_LOG_BYTES_MAX,
 *                          out, SOGVECT_OUT_NUMBERS_MAX, replies, sizeof replies, &count) != SOGVECT_DONE)
 *           break;
 *       fwrite(replies, 1, count, stdout);
 *   }
 *
 * A text that grows may be served as far as it is there, where it ends after a line feed or is whole; a later text goes on with the same store.
 * A part checks once what it is lent. A refused part changes nothing, *at and *count too. text overlaps nothing of the rest.
 * Refusals: 2 (the run's numbers are outside the limits), 3 (run, tables, log, out or replies is shorter than said above), 4. */
uint32_t sogvect_script(const uint8_t *text, size_t text_len, size_t *at, uint32_t *run, size_t run_len, uint32_t *tables, size_t tables_len,
                        uint8_t *log, size_t log_len, uint32_t *out, size_t out_len, uint8_t *replies, size_t replies_len, size_t *count);

/* A store: its six numbers and the memory that is lent to its calls. All of it is its owner's; the functions below change `count` alone, and what the
 * pointers lead to. After a done call the result is out[0] to out[count - 1]. */
struct sogvect_geometry {
    size_t arenas;  /* 1 to 16 */
    size_t per;     /* blocks in an arena, 1 to 1,024; arenas x per, all blocks, is at most 2,048 */
    size_t pages;   /* pages of a record, 1 to 256 */
    size_t records; /* records in the store at one time, 1 to 64 */
    size_t turn;    /* writes after which the next arena is the first choice, 1 to 4,096 */
    size_t words;   /* words of the log, from 2 x arenas x per + 2 to 8,192 */
};

struct sogvect_store {
    struct sogvect_geometry geometry;
    uint32_t *tables;
    size_t tables_len;
    uint8_t *log;
    size_t log_len;
    uint32_t *out;
    size_t out_len;
    size_t count;
};

/* How many bytes of its log a store uses, by a pointer to the store. It is what the tables say: where a call would be refused with 2, 3 or 4, it may be
 * any number, above log_len too. */
#define SOGVECT_LOG_USED(store) (8 * (size_t)(store)->tables[9])

/* Makes a fresh store on the memory of `store`, whatever was there before. The count stays as it was.
 * Refusals: 2, 3. */
static inline uint32_t sogvect_make_store(struct sogvect_store *store) {
    return sogvect_make(store->geometry.arenas, store->geometry.per, store->geometry.pages, store->geometry.records, store->geometry.turn,
                        store->geometry.words, store->tables, store->tables_len, store->log, store->log_len, store->out, store->out_len);
}

/* The call of a letter and three numbers on a store; see sogvect_call. */
static inline uint32_t sogvect_call_store(struct sogvect_store *store, uint32_t letter, uint32_t x, uint32_t y, uint32_t z) {
    return sogvect_call(store->geometry.arenas, store->geometry.per, store->geometry.pages, store->geometry.records, store->geometry.turn,
                        store->geometry.words, store->tables, store->tables_len, store->log, store->log_len, store->out, store->out_len,
                        letter, x, y, z, &store->count);
}

/* Begins a line: a new open record with every page empty. Result: its number.
 * Refusals: 2, 3, 4, 11, 12. */
static inline uint32_t sogvect_begin(struct sogvect_store *store) {
    return sogvect_call_store(store, 'B', 0, 0, 0);
}

/* Puts a free block on a page of an open record; kind is SOGVECT_DATA, SOGVECT_PIVOT or SOGVECT_LEAF. Result: a pair, the block and its birth, which is
 * the record's number; and after it the block that was there before and its birth, if that block was freed. So the count becomes 2 or 4.
 * Refusals: 2, 3, 4, 5, 6, 8, 9, 13, 14. */
static inline uint32_t sogvect_write(struct sogvect_store *store, uint32_t record, uint32_t page, uint32_t kind) {
    return sogvect_call_store(store, 'W', record, page, kind);
}

/* Empties a page of an open record. Result: a pair, the block that was there and its birth, if that block was freed, else nothing.
 * Refusals: 2, 3, 4, 5, 8, 9, 14. */
static inline uint32_t sogvect_erase(struct sogvect_store *store, uint32_t record, uint32_t page) {
    return sogvect_call_store(store, 'E', record, page, 0);
}

/* Seals an open record; a new open record with the same pages follows it in its line, and gets its name if it has one. Where the line has a window
 * (sogvect_retain), its oldest sealed records without a fork or a name are then deleted, one after another, until no more sealed ones are left than the
 * window says, or only forked or named ones and the newest; their blocks join the queue, delete by delete. Result: the new record's number. 11 is judged
 * before the deletes. No log word is written.
 * Refusals: 2, 3, 4, 8, 9, 11, 12. */
static inline uint32_t sogvect_seal(struct sogvect_store *store, uint32_t record) {
    return sogvect_call_store(store, 'S', record, 0, 0);
}

/* Sets a window on the line of an open record, or replaces the one that it had: from now on a seal in the line deletes its oldest sealed records until at
 * most `most` are left, 1 to SOGVECT_WINDOW_MAX. Records with a fork or a name on them count, but stay. The call itself deletes nothing. A new line has no
 * window. Result: nothing.
 * Refusals: 2, 3, 4, 15, 8, 9, in this order. */
static inline uint32_t sogvect_retain(struct sogvect_store *store, uint32_t record, uint32_t most) {
    return sogvect_call_store(store, 'K', record, most, 0);
}

/* Forks a sealed record: a new line, whose open record has its pages, and no name. Result: the new record's number.
 * Refusals: 2, 3, 4, 8, 9, 11, 12. */
static inline uint32_t sogvect_fork(struct sogvect_store *store, uint32_t record) {
    return sogvect_call_store(store, 'F', record, 0, 0);
}

/* Deletes a record, open or sealed, that has neither a fork nor a name on it. The blocks that it alone had join the queue. No log word is written. Result:
 * nothing.
 * Refusals: 2, 3, 4, 8, 10, 18, in this order. */
static inline uint32_t sogvect_delete(struct sogvect_store *store, uint32_t record) {
    return sogvect_call_store(store, 'D', record, 0, 0);
}

/* Frees the first blocks of the queue: `most` of them, 1 to SOGVECT_RECLAIM_MAX, or all if fewer are queued. Result: a pair for each freed block, in the order
 * of the queue: the block and the birth that it had. None is freed where the log has fewer unused words than it would free.
 * Refusals: 2, 3, 4, 19, 14, in this order. */
static inline uint32_t sogvect_reclaim(struct sogvect_store *store, uint32_t most) {
    return sogvect_call_store(store, 'T', most, 0, 0);
}

/* Adds a barrier to the log; once it is done, no block waits. Result: nothing.
 * Refusals: 2, 3, 4, 14. */
static inline uint32_t sogvect_barrier(struct sogvect_store *store) {
    return sogvect_call_store(store, 'Y', 0, 0, 0);
}

/* Writes the log again, as short as it can be and with a barrier at its end; once it is done, no block waits. Result: how many words it has.
 * Refusals: 2, 3, 4. */
static inline uint32_t sogvect_compress(struct sogvect_store *store) {
    return sogvect_call_store(store, 'C', 0, 0, 0);
}

/* The bytes of a name for the three calls with one: of an empty one any pointer that is not NULL. */
static inline const uint8_t *sogvect_name_bytes(const char *name, size_t name_len) {
    return (const uint8_t *)(name_len == 0 ? "" : name);
}

/* Puts a name of so many bytes on a record; see sogvect_name. The pointer may be NULL where there are none. Result: nothing.
 * Refusals: 2, 3, 4, 16, 8, 17, in this order. */
static inline uint32_t sogvect_name_store(struct sogvect_store *store, const char *name, size_t name_len, uint32_t record) {
    uint32_t code = sogvect_name(store->geometry.arenas, store->geometry.per, store->geometry.pages, store->geometry.records, store->geometry.turn,
                                 store->geometry.words, store->tables, store->tables_len, store->log, store->log_len, store->out, store->out_len,
                                 sogvect_name_bytes(name, name_len), name_len, record);
    if (code == SOGVECT_DONE)
        store->count = 0;
    return code;
}

/* Takes a name of so many bytes off its record; see sogvect_unname. Result: nothing.
 * Refusals: 2, 3, 4, 16, 17. */
static inline uint32_t sogvect_unname_store(struct sogvect_store *store, const char *name, size_t name_len) {
    uint32_t code = sogvect_unname(store->geometry.arenas, store->geometry.per, store->geometry.pages, store->geometry.records, store->geometry.turn,
                                   store->geometry.words, store->tables, store->tables_len, store->log, store->log_len, store->out, store->out_len,
                                   sogvect_name_bytes(name, name_len), name_len);
    if (code == SOGVECT_DONE)
        store->count = 0;
    return code;
}

/* The calls below only look: tables and log are never written. They write the result and the count, so the store is not const; a thread that looks
 * beside others does so through a copy of the struct with an out of its own. */

/* The look of a letter and two numbers at a store; see sogvect_look. */
static inline uint32_t sogvect_look_store(struct sogvect_store *store, uint32_t letter, uint32_t x, uint32_t y) {
    return sogvect_look(store->geometry.arenas, store->geometry.per, store->geometry.pages, store->geometry.records, store->geometry.turn,
                        store->geometry.words, store->tables, store->tables_len, store->log, store->log_len, store->out, store->out_len,
                        letter, x, y, &store->count);
}

/* Reads a page of a record. Result: a pair, the block on it and its birth, or nothing.
 * Refusals: 2, 3, 4, 5, 8. */
static inline uint32_t sogvect_read(struct sogvect_store *store, uint32_t record, uint32_t page) {
    return sogvect_look_store(store, 'R', record, page);
}

/* Lists the free blocks but for those that wait. Queued blocks are not free. Result: a pair of numbers for each run of them, its first block and its
 * length, rising; no run crosses an arena's edge.
 * Refusals: 2, 3, 4. */
static inline uint32_t sogvect_free_list(struct sogvect_store *store) {
    return sogvect_look_store(store, 'L', 0, 0);
}

/* Says which record has a name of so many bytes; see sogvect_resolve. Result: the record's number.
 * Refusals: 2, 3, 4, 16, 17. */
static inline uint32_t sogvect_resolve_store(struct sogvect_store *store, const char *name, size_t name_len) {
    return sogvect_resolve(store->geometry.arenas, store->geometry.per, store->geometry.pages, store->geometry.records, store->geometry.turn,
                           store->geometry.words, store->tables, store->tables_len, store->log, store->log_len, store->out, store->out_len,
                           sogvect_name_bytes(name, name_len), name_len, &store->count);
}

/* Says what the delete of a record would do. Result, three numbers: how many blocks the delete would put in the queue, how many log words it would write,
 * which is 0, and how many non-empty shards with a birth above the record's pred the record that follows it in its line has, 0 where none follows
 * (docs/RULES.md, 1.5, 1.8 and 3.12). A sogvect_delete straight after it, if done, queues exactly that many blocks.
 * Refusals: 2, 3, 4, 8, 10, 18. */
static inline uint32_t sogvect_estimate(struct sogvect_store *store, uint32_t record) {
    return sogvect_look_store(store, 'Q', record, 0);
}

#ifdef __cplusplus
}
#endif

#endif
