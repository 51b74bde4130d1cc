/*
 * Prints the verdict on a capture: reads capture.hst and capture.mrk of the folder given as the argument (an absent file counts as
 * empty), and prints
 *
 *     events 10 transactions 2 reads 2
 *     committed 1 aborted 0 pending 0 live 1
 *     marking accepted
 *     opaque yes
 *
 * or what is refused, which rule the marking breaks, and which event leaves the history without a justification. With a second
 * argument the marking's read points are straightened: if its order is a justification, the result is written to the file of that name,
 * and the events whose points were moved are printed.
 */
#include <inttypes.h>
#include <stdio.h>
#include <stdlib.h>

#include "sendoshi.h"

#if SENDOSHI_VERSION != 5
#error "written for version 5 of the interface"
#endif

/* One byte more than is ever read: a longer file is then refused for its length, however long it is. */
enum { ROOM = SENDOSHI_MAX_FILE + 1 };

static uint8_t history[ROOM];
static uint8_t marking[ROOM];
static uint8_t straight[ROOM];
static uint32_t moved[SENDOSHI_MAX_EVENTS];
static uint32_t starts[SENDOSHI_REGISTERS];
static uint16_t kinds[SENDOSHI_MAX_EVENTS];
static uint16_t transactions[SENDOSHI_MAX_EVENTS];
static uint16_t registers[SENDOSHI_MAX_EVENTS];
static uint32_t values[SENDOSHI_MAX_EVENTS];
static uint16_t threads[SENDOSHI_MAX_EVENTS];

/* The five columns, each with its length. */
#define COLUMNS \
    kinds, SENDOSHI_MAX_EVENTS, transactions, SENDOSHI_MAX_EVENTS, registers, SENDOSHI_MAX_EVENTS, values, SENDOSHI_MAX_EVENTS, \
        threads, SENDOSHI_MAX_EVENTS

/* Fills a buffer from a file and returns the number of bytes: 0 if there is no such file. */
static size_t load(const char *folder, const char *name, uint8_t *buffer)
{
    char path[4096];
    int length = snprintf(path, sizeof path, "%s/%s", folder, name);
    if (length < 0 || (size_t)length >= sizeof path) {
        fprintf(stderr, "the folder's name is too long\n");
        exit(2);
    }
    FILE *file = fopen(path, "rb");
    if (file == NULL) {
        return 0;
    }
    size_t bytes = fread(buffer, 1, ROOM, file);
    fclose(file);
    return bytes;
}

static void save(const char *path, const uint8_t *bytes, size_t length)
{
    FILE *file = fopen(path, "wb");
    if (file == NULL || fwrite(bytes, 1, length, file) != length || fclose(file) != 0) {
        fprintf(stderr, "%s cannot be written\n", path);
        exit(2);
    }
}

static void print_tally(uint64_t answer)
{
    printf("committed %" PRIu32 " aborted %" PRIu32 " pending %" PRIu32 " live %" PRIu32 "\n", sendoshi_tally_committed(answer),
           sendoshi_tally_aborted(answer), sendoshi_tally_pending(answer), sendoshi_tally_live(answer));
}

static void print_marking(uint64_t answer)
{
    uint32_t code = sendoshi_code(answer);
    if (code == SENDOSHI_DONE) {
        printf("marking accepted\n");
    } else if (code >= SENDOSHI_RULE_A && code <= SENDOSHI_RULE_E) {
        printf("marking rule %c event %" PRIu32 " transaction %" PRIu32 "\n", (char)('A' + (int)(code - SENDOSHI_RULE_A)),
               sendoshi_rule_event(answer), sendoshi_rule_transaction(answer));
    } else {
        printf("marking refused %" PRIu32 " byte %" PRIu32 "\n", code, sendoshi_place(answer));
    }
}

static void print_opaque(uint64_t answer)
{
    uint32_t code = sendoshi_code(answer);
    if (code == SENDOSHI_DONE) {
        printf("opaque yes\n");
    } else if (code >= SENDOSHI_FAULT_READ && code <= SENDOSHI_FAULT_OTHER) {
        printf("opaque no event %" PRIu32 " cause %" PRIu32 "\n", sendoshi_place(answer), code - SENDOSHI_NONE);
    } else {
        printf("opaque refused %" PRIu32 "\n", code);
    }
}

static void print_straightened(uint64_t answer, const char *path)
{
    if (sendoshi_code(answer) != SENDOSHI_DONE) {
        printf("straightened no\n");
        return;
    }
    save(path, straight, sendoshi_straight_length(answer));
    printf("straightened moved %" PRIu32, sendoshi_straight_moved(answer));
    for (uint32_t i = 0; i < sendoshi_straight_moved(answer); i++) {
        printf(" event %" PRIu32, moved[i]);
    }
    printf("\n");
}

int main(int argc, char **argv)
{
    if (argc != 2 && argc != 3) {
        fprintf(stderr, "usage: %s FOLDER [STRAIGHTENED]\n", argv[0]);
        return 2;
    }
    size_t history_length = load(argv[1], "capture.hst", history);
    size_t marking_length = load(argv[1], "capture.mrk", marking);
    uint64_t read = sendoshi_read(history, history_length, starts, COLUMNS);
    if (sendoshi_code(read) != SENDOSHI_DONE) {
        printf("history refused %" PRIu32 " byte %" PRIu32 "\n", sendoshi_code(read), sendoshi_place(read));
        return 0;
    }
    uint16_t edition = (uint16_t)sendoshi_read_edition(read);
    uint32_t count = sendoshi_read_count(read);
    printf("events %" PRIu32 " transactions %" PRIu32 " reads %" PRIu32 "\n", count,
           sendoshi_place(sendoshi_transactions(edition, starts, COLUMNS, count)),
           sendoshi_place(sendoshi_store_reads(edition, starts, COLUMNS, count)));
    print_tally(sendoshi_tally(edition, starts, COLUMNS, count));
    print_marking(sendoshi_check(edition, starts, COLUMNS, count, marking, marking_length));
    print_opaque(sendoshi_scan(edition, starts, COLUMNS, count));
    if (argc == 3) {
        print_straightened(sendoshi_straighten(edition, starts, COLUMNS, count, marking, marking_length, straight, ROOM, moved,
                                               SENDOSHI_MAX_EVENTS),
                           argv[2]);
    }
    return 0;
}
