/*
 * Sendoshi: opacity of recorded transactional histories.
 *
 * Link with libsendoshi.a (`./staticlib`; x86-64 Linux). C99 and C++.
 *
 * A history is a list of events, numbered from 0, in five columns with one entry an event:
 *
 *   kind  event            transaction   register              value           thread
 *   16    begin            its number    0                     0               its thread
 *   17    read called      yes           register              0               0
 *   18    read returned    yes           that of its call      value read      0
 *   19    write called     yes           register              value written   0
 *   20    write returned   yes           0                     0               0
 *   21    commit called    yes           0                     0               0
 *   22    committed        yes           0                     0               0
 *   23    aborted          yes           0                     0               0
 *   24    lone read        its number    register              value read      its thread
 *   25    lone write       its number    register              value written   its thread
 *
 * A lone access is one outside transactions; edition 2 alone has them. It is a transaction of its own that begins, reads or writes, and
 * commits within its one event: it takes the next transaction number, needs a thread whose last transaction has ended, and leaves it
 * free. It is counted and judged as any other that has committed, and a lone read is a store read with a read point of its own.
 *
 * Beside them stand the edition of the history and 32 start values: what each register holds before any writer. In edition 1 all are
 * 0. A file of edition 2 has those that are not 0 between its head and its events.
 *
 * A file of either edition may have notes: records of kind 48 that carry 0 to 64 bytes, what a technician typed while it was recorded.
 * They may stand anywhere behind the head, before, between and behind start records and events. A note is no event: sendoshi_read
 * passes it over, columns have none, and sendoshi_write writes none. sendoshi_next_note finds them.
 *
 * Buffers are lent as a pointer and a length: the number of entries of a column or a list, the number of bytes of a file or an output.
 * Start values and a note are lent as a pointer alone: the one always has 32 numbers, the other three.
 *
 * What a caller must see to, since no function can test it: each pointer is not NULL, is aligned for its type and is good for its
 * length (with length 0 nothing behind it is touched), that of start values for 32 of them and that of a note for three; a buffer that
 * is written overlaps no other buffer of the same call. There is no other condition. Any numbers and any contents may be passed; what
 * does not fit is refused. Every call returns, none allocates memory, and none keeps a pointer or has a state: calls on different
 * buffers may run at the same time.
 *
 * What a caller can rely on, for every call:
 *   - a buffer passed as a pointer to const keeps its contents;
 *   - a call that refuses, finds nothing, or answers with a broken rule, leaves every buffer as it was;
 *   - a call that is done changes a written buffer only up to what it returns, the event count, the length or the number moved;
 *     of start values it sets all 32, of a note all three;
 *   - neither what stands in columns past the count, nor what a written buffer held before, makes a difference to an answer.
 *
 * Versions of this interface. A program written for one must be changed for the next, but for one of version 4, which goes on with 5:
 *
 *   1   the first, in which every register started at 0; its header named no version.
 *   2   start values. sendoshi_read has a new third parameter, the start values that it fills, and its place is no longer the event
 *       count alone: take it apart by sendoshi_read_edition and sendoshi_read_count. sendoshi_write, sendoshi_find, sendoshi_scan,
 *       sendoshi_check and sendoshi_straighten have two new first parameters, the edition and the start values, and refuse by 3 what
 *       is neither edition 1 with zeros nor edition 2. Files of edition 2 are read; 41, 42 and 43 are new, and 3 may come with an event.
 *       SENDOSHI_FILE_SIZE is larger. To go on as before: pass edition 1 and 32 zeros, and refuse files whose edition is 2.
 *   3   counts of 32 bits: `count` and `prefix` are uint32_t and were size_t. The archive is libsendoshi.a and was libexports.a.
 *   4   accesses outside transactions. Every call has a fifth column, the threads, behind the values; a begin's thread stands there, and
 *       its register is 0. sendoshi_transactions, sendoshi_store_reads and sendoshi_tally have two new first parameters, the edition and
 *       the start values, and refuse by 3 as the other calls do. Edition 2 has kinds 24 and 25, in files and in columns.
 *       SENDOSHI_FILE_SIZE is larger. To go on as before: lend a column of threads, keep each begin's thread there, and refuse
 *       histories in which kinds 24 and 25 occur.
 *   5   notes. sendoshi_read reads files with records of kind 48 behind the head, which it refused by 4, as the same files without
 *       them; 44 is new. sendoshi_next_note is a new call. Nothing else has changed: no other file is answered in another way, and no
 *       call has other parameters. To go on as before: refuse files in which sendoshi_next_note finds a note.
 */
#ifndef SENDOSHI_H
#define SENDOSHI_H

#define SENDOSHI_VERSION 5

#include <stddef.h>
#include <stdint.h>

#ifdef __cplusplus
extern "C" {
#endif

/* Limits of what is read and judged. */
enum {
    SENDOSHI_MAX_FILE = 32768,      /* bytes of a history file or a marking file */
    SENDOSHI_MAX_EVENTS = 2048,     /* events of a history */
    SENDOSHI_MAX_TRANSACTIONS = 64, /* transactions of a history */
    SENDOSHI_REGISTERS = 32,        /* registers of a history, each with a start value */
    SENDOSHI_MAX_NOTE = 64,         /* bytes that a note carries */
    SENDOSHI_MAX_JUDGED = 10        /* transactions of what sendoshi_find and sendoshi_scan judge */
};

/*
 * Sizes of outputs that are never too short: for sendoshi_write of `count` events, and for sendoshi_find on a prefix of `prefix`
 * events. (sendoshi_find needs exactly 6 + 8 * transactions + 10 * store reads bytes, both counted in the prefix.)
 */
#define SENDOSHI_FILE_SIZE(count) (6 + 10 * (size_t)SENDOSHI_REGISTERS + 14 * (size_t)(count))
#define SENDOSHI_MARKING_SIZE(prefix) (6 + 8 * (size_t)SENDOSHI_MAX_JUDGED + 10 * (size_t)(prefix))

/*
 * Each call returns code * 2^32 + place. Taken apart by the functions below, the number gives back all that the answer says, in every
 * case of it (proved: the contracts in crates/sendoshi/src/lib.rt, over crates/codes/specs/Decoded).
 *
 *   code        meaning                         place
 *   0           done                            the edition * 65536 + the event count (read), the length (write, find),
 *                                               the number counted (transactions, store_reads), committed * 2^24 +
 *                                               aborted * 2^16 + pending * 2^8 + live (tally), the number moved * 65536
 *                                               + the length (straighten), or 0 (scan: opaque; check: accepted;
 *                                               next_note: found)
 *   1 to 99     refused by this question        the byte or the event, see below
 *   100         find: there is no               0
 *               justification; next_note:
 *               there is no further note
 *   101 to 104  scan: not opaque, cause 1 to 4  the last event of the first prefix without a justification
 *   201 to 205  check, straighten: rule A to E  event * 65536 + transaction
 *               is broken (straighten: never D)
 *
 * Questions about files have a byte as their place: where the record begins in the file as it is given, with its notes, 0 for question
 * 1 and for an empty file, the file's length for 14, for 29 and for 28 at the end. All others have an event: its number, or the
 * count for 15, 17, 18, 31 and 32, and for 3 where it is not about a file.
 */
enum {
    SENDOSHI_DONE = 0,

    /* A history file: byte. */
    SENDOSHI_FILE_TOO_LONG = 1, /* more than 32768 bytes; also for a marking */
    SENDOSHI_RECORD_CUT = 2,    /* a record is cut off, or its length is below 2; also for a marking */
    SENDOSHI_HISTORY_HEAD = 3,  /* no head of edition 1 or 2; of columns (event): another edition, or 1 and a start that is not 0 */

    /* An event of a file (byte) or of columns (event). */
    SENDOSHI_EVENT_KIND = 4,               /* the kind is not 16 to 23, nor, in edition 2, 24 or 25 (a file: also 3), nor 48 in a file */
    SENDOSHI_EVENT_SIZE = 5,               /* the record has not the size of its kind; files only */
    SENDOSHI_TOO_MANY_EVENTS = 6,          /* more than 2048 */
    SENDOSHI_TOO_MANY_TRANSACTIONS = 7,    /* more than 64; of a begin or a lone access */
    SENDOSHI_TRANSACTION_NUMBER = 8,       /* a begin or a lone access without the next free number */
    SENDOSHI_THREAD_NUMBER = 9,            /* the thread is not below 16; of a begin or a lone access */
    SENDOSHI_THREAD_BUSY = 10,             /* the thread's last transaction has not ended; of a begin or a lone access */
    SENDOSHI_TRANSACTION_NOT_RUNNING = 11, /* the transaction has not begun, or has ended; of all but those two */
    SENDOSHI_REGISTER_NUMBER = 12,         /* the register is not below 32; of a call of a read or a write, or a lone access */
    SENDOSHI_EVENT_NOT_DUE = 13,           /* the event does not fit the pending call */

    /* Lent buffers and numbers. */
    SENDOSHI_COLUMN_TOO_SHORT = 14, /* read: one of the five columns is too short for the events of the file */
    SENDOSHI_OUTPUT_TOO_SHORT = 15, /* write, straighten: the output is too short; straighten: the list is */
    SENDOSHI_STRAY_FIELD = 16,      /* columns: a field that the kind lacks is not 0, or an 18 has not its call's register */
    SENDOSHI_COUNT_TOO_LARGE = 17,  /* one of the five columns is shorter than the count */
    SENDOSHI_PREFIX_TOO_LONG = 18,  /* find: the prefix is longer than the count */

    /* A marking file: byte. */
    SENDOSHI_MARKING_HEAD = 21,        /* no head of a marking of edition 1 */
    SENDOSHI_MARKING_KIND = 22,        /* the kind is not 32 or 33 */
    SENDOSHI_MARKING_SIZE_WRONG = 23,  /* the record has not the size of its kind */
    SENDOSHI_PLACE_NOT_OPEN = 24,      /* a place after a read point, of an unknown transaction, or of one that has a place */
    SENDOSHI_OUTCOME_NUMBER = 25,      /* the outcome is not 0 or 1 */
    SENDOSHI_POINT_NOT_DUE = 26,       /* the point's event does not rise, or is no store read */
    SENDOSHI_GAP_TOO_LARGE = 27,       /* the gap exceeds the number of transactions */
    SENDOSHI_TRANSACTION_MISSING = 28, /* a transaction has no place */
    SENDOSHI_POINT_MISSING = 29,       /* a store read has no point */

    /* What is judged. */
    SENDOSHI_TOO_MANY_TO_JUDGE = 31,  /* find, scan: more than 10 transactions */
    SENDOSHI_MARKING_TOO_SHORT = 32,  /* find: the output is too short */

    /* A start record of a history file of edition 2: byte. */
    SENDOSHI_START_REGISTER = 41, /* the register is not above that of the last start record, or not below 32 */
    SENDOSHI_START_ZERO = 42,     /* the value is 0 */
    SENDOSHI_START_LATE = 43,     /* an event comes before it */

    /* A note of a history file: byte. */
    SENDOSHI_NOTE_LONG = 44, /* it has more than 64 bytes */

    SENDOSHI_NONE = 100,

    SENDOSHI_FAULT_READ = 101,      /* cause 1: a read returned, or a lone read */
    SENDOSHI_FAULT_COMMITTED = 102, /* cause 2: a transaction committed */
    SENDOSHI_FAULT_ABORTED = 103,   /* cause 3: a transaction aborted */
    SENDOSHI_FAULT_OTHER = 104,     /* cause 4: an event of another kind; proved never to come */

    SENDOSHI_RULE_A = 201, /* an outcome that the history does not allow; the lowest such transaction, its last event */
    SENDOSHI_RULE_B = 202, /* real time is not kept; the lowest transaction placed too early, its begin */
    SENDOSHI_RULE_C = 203, /* an own read that is wrong; the lowest such event */
    SENDOSHI_RULE_D = 204, /* a writer between read point and reader; the lowest such event; proved never to come of straighten */
    SENDOSHI_RULE_E = 205  /* another value than that before the read point; the lowest such event */
};

/* The code of an answer. */
static inline uint32_t sendoshi_code(uint64_t answer)
{
    return (uint32_t)(answer >> 32);
}

/* The place of an answer. */
static inline uint32_t sendoshi_place(uint64_t answer)
{
    return (uint32_t)(answer & 0xffffffffu);
}

/* The edition of a history that was read. */
static inline uint32_t sendoshi_read_edition(uint64_t answer)
{
    return sendoshi_place(answer) >> 16;
}

/* The event count of a history that was read. */
static inline uint32_t sendoshi_read_count(uint64_t answer)
{
    return sendoshi_place(answer) & 0xffffu;
}

/* The event of a broken rule's place. */
static inline uint32_t sendoshi_rule_event(uint64_t answer)
{
    return sendoshi_place(answer) >> 16;
}

/* The transaction of a broken rule's place. */
static inline uint32_t sendoshi_rule_transaction(uint64_t answer)
{
    return sendoshi_place(answer) & 0xffffu;
}

/* The length of a straightened marking. */
static inline uint32_t sendoshi_straight_length(uint64_t answer)
{
    return sendoshi_place(answer) & 0xffffu;
}

/* The number of read points that were moved. */
static inline uint32_t sendoshi_straight_moved(uint64_t answer)
{
    return sendoshi_place(answer) >> 16;
}

/* The number of transactions of a tally that have committed. */
static inline uint32_t sendoshi_tally_committed(uint64_t answer)
{
    return sendoshi_place(answer) >> 24;
}

/* The number of transactions of a tally that were aborted. */
static inline uint32_t sendoshi_tally_aborted(uint64_t answer)
{
    return (sendoshi_place(answer) >> 16) & 0xffu;
}

/* The number of transactions of a tally whose commit was called and is unanswered. */
static inline uint32_t sendoshi_tally_pending(uint64_t answer)
{
    return (sendoshi_place(answer) >> 8) & 0xffu;
}

/* The number of the other transactions of a tally that have not ended. */
static inline uint32_t sendoshi_tally_live(uint64_t answer)
{
    return sendoshi_place(answer) & 0xffu;
}

/*
 * Reads a history file into start values and columns. Done: the edition, 1 or 2, and the event count; all 32 start values and that many
 * entries of each column are set. Notes are passed over: a file that is read gives what the same file without them gives. A start record
 * may come behind a note, and notes may come behind the last of 2048 events; they count to the file's 32768 bytes.
 * Refuses: 1; 2 and 3 of the first record; then of each further record 2; 44 of a note, and nothing else; of all others 4, 5; 43, 41, 42
 * of a start record; 6 to 13 of an event; at the end 14.
 */
uint64_t sendoshi_read(const uint8_t *file, size_t file_length,
                       uint32_t starts[SENDOSHI_REGISTERS],
                       uint16_t *kinds, size_t kinds_length,
                       uint16_t *transactions, size_t transactions_length,
                       uint16_t *registers, size_t registers_length,
                       uint32_t *values, size_t values_length,
                       uint16_t *threads, size_t threads_length);

/*
 * Finds the first note of a history file whose record begins at byte `from` or later. Done: note[0] is how many events stand before it,
 * note[1] the byte at which its bytes begin, note[2] how many bytes it has, 0 to 64. SENDOSHI_NONE: there is none. All notes, in the
 * order of the file:
 *
 *     uint32_t note[3] = {0, 0, 0};
 *     while (sendoshi_code(sendoshi_next_note(file, file_length, note[1] + note[2], note)) == SENDOSHI_DONE)
 *         printf("after %" PRIu32 " events: %.*s\n", note[0], (int)note[2], (const char *)(file + note[1]));
 *
 * It refuses nothing and does not judge the file: call sendoshi_read first. Of a file that sendoshi_read reads these are all notes. Of
 * any other, they are looked for behind the 6 bytes of a head, as far as whole records go (question 2) and up to the first note of more
 * than 64 bytes; a file of more than 32768 bytes has none. What counts as an event is every record of kinds 16 to 25.
 */
uint64_t sendoshi_next_note(const uint8_t *file, size_t file_length, uint32_t from, uint32_t note[3]);

/*
 * Writes the first `count` events as a history file of this edition, without notes, from the output's first byte. Done: the file's
 * length. sendoshi_read gives edition, start values and events back.
 * Refuses: 17; 3; 4, 6 to 13 and 16 for each event in turn; 15.
 */
uint64_t sendoshi_write(uint16_t edition, const uint32_t starts[SENDOSHI_REGISTERS],
                        const uint16_t *kinds, size_t kinds_length,
                        const uint16_t *transactions, size_t transactions_length,
                        const uint16_t *registers, size_t registers_length,
                        const uint32_t *values, size_t values_length,
                        const uint16_t *threads, size_t threads_length,
                        uint32_t count,
                        uint8_t *output, size_t output_length);

/*
 * Writes the lowest marking that justifies the first `prefix` of the first `count` events, from the output's first byte. Done: its
 * length. SENDOSHI_NONE: no order and outcomes justify them. sendoshi_check, given these bytes, the same edition and start values, and
 * `prefix` as its count, accepts.
 * Refuses: 17; 3; 18; 4, 6 to 13 and 16 for each of the `count` events in turn; 31; 32.
 */
uint64_t sendoshi_find(uint16_t edition, const uint32_t starts[SENDOSHI_REGISTERS],
                       const uint16_t *kinds, size_t kinds_length,
                       const uint16_t *transactions, size_t transactions_length,
                       const uint16_t *registers, size_t registers_length,
                       const uint32_t *values, size_t values_length,
                       const uint16_t *threads, size_t threads_length,
                       uint32_t count, uint32_t prefix,
                       uint8_t *output, size_t output_length);

/*
 * Judges the prefixes of the first `count` events by rising length. Done: opaque, every one has a justification. Else the last event
 * of the first that has none, and the cause.
 * Refuses: 17; 3; 4, 6 to 13 and 16 for each event in turn; 31.
 */
uint64_t sendoshi_scan(uint16_t edition, const uint32_t starts[SENDOSHI_REGISTERS],
                       const uint16_t *kinds, size_t kinds_length,
                       const uint16_t *transactions, size_t transactions_length,
                       const uint16_t *registers, size_t registers_length,
                       const uint32_t *values, size_t values_length,
                       const uint16_t *threads, size_t threads_length,
                       uint32_t count);

/*
 * Checks a marking file of the first `count` events. Done: accepted. Else the first broken rule, from A to E.
 * Refuses: 17; 3; 4, 6 to 13 and 16 for each event in turn; then for the file 1; 2 and 21 of the first record; then of each further
 * record 2, 22, 23; 24, 25 of a place; 28 (of the first read point), 26, 27 of a read point; at the end 28, 29.
 */
uint64_t sendoshi_check(uint16_t edition, const uint32_t starts[SENDOSHI_REGISTERS],
                        const uint16_t *kinds, size_t kinds_length,
                        const uint16_t *transactions, size_t transactions_length,
                        const uint16_t *registers, size_t registers_length,
                        const uint32_t *values, size_t values_length,
                        const uint16_t *threads, size_t threads_length,
                        uint32_t count,
                        const uint8_t *file, size_t file_length);

/*
 * Straightens the read points of a marking file of the first `count` events: keeps outcomes, order and every point that breaks
 * neither rule D nor rule E, and moves each other point to its reader's place. Done: the number of points moved, and the length, which
 * is that of the file. The marking is written from the output's first byte, the events of the moved points from the list's first
 * entry, rising. sendoshi_check accepts the bytes written; a file that it accepts already comes back byte for byte, with no point
 * moved. Else the first rule that is broken with the points so moved, A, B, C or E: outcomes and order are no justification.
 * The output is a buffer of its own: a marking is not straightened in place.
 * Refuses: 17; 3; 4, 6 to 13 and 16 for each event in turn; then for the file 1; 2 and 21 of the first record; then of each further
 * record 2, 22, 23; 24, 25 of a place; 28 (of the first read point), 26, 27 of a read point; at the end 28, 29. Then 15, if the output
 * is shorter than the file or the list has fewer entries than sendoshi_store_reads counts.
 */
uint64_t sendoshi_straighten(uint16_t edition, const uint32_t starts[SENDOSHI_REGISTERS],
                             const uint16_t *kinds, size_t kinds_length,
                             const uint16_t *transactions, size_t transactions_length,
                             const uint16_t *registers, size_t registers_length,
                             const uint32_t *values, size_t values_length,
                             const uint16_t *threads, size_t threads_length,
                             uint32_t count,
                             const uint8_t *file, size_t file_length,
                             uint8_t *output, size_t output_length,
                             uint32_t *moved, size_t moved_length);

/*
 * Counts the transactions begun in the first `count` events, lone accesses among them.
 * Refuses: 17; 3; 4, 6 to 13 and 16 for each event in turn.
 */
uint64_t sendoshi_transactions(uint16_t edition, const uint32_t starts[SENDOSHI_REGISTERS],
                               const uint16_t *kinds, size_t kinds_length,
                               const uint16_t *transactions, size_t transactions_length,
                               const uint16_t *registers, size_t registers_length,
                               const uint32_t *values, size_t values_length,
                               const uint16_t *threads, size_t threads_length,
                               uint32_t count);

/*
 * Counts the store reads in the first `count` events: the returned reads of a register that their transaction had not written, and the
 * lone reads.
 * Refuses: 17; 3; 4, 6 to 13 and 16 for each event in turn.
 */
uint64_t sendoshi_store_reads(uint16_t edition, const uint32_t starts[SENDOSHI_REGISTERS],
                              const uint16_t *kinds, size_t kinds_length,
                              const uint16_t *transactions, size_t transactions_length,
                              const uint16_t *registers, size_t registers_length,
                              const uint32_t *values, size_t values_length,
                              const uint16_t *threads, size_t threads_length,
                              uint32_t count);

/*
 * Tallies the transactions begun in the first `count` events: those that committed, lone accesses among them; those that were aborted,
 * also after they called commit; those that called commit and have no answer yet; and the others that have not ended. Done: the four
 * numbers, each at most 64, which add up to what sendoshi_transactions counts.
 * Refuses: 17; 3; 4, 6 to 13 and 16 for each event in turn.
 */
uint64_t sendoshi_tally(uint16_t edition, const uint32_t starts[SENDOSHI_REGISTERS],
                        const uint16_t *kinds, size_t kinds_length,
                        const uint16_t *transactions, size_t transactions_length,
                        const uint16_t *registers, size_t registers_length,
                        const uint32_t *values, size_t values_length,
                        const uint16_t *threads, size_t threads_length,
                        uint32_t count);

#ifdef __cplusplus
}
#endif

#endif
