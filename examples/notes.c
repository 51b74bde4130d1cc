/*
 * Prints what technicians typed into a capture: reads capture.hst of the folder given as the argument, and prints a line for each of its
 * notes, in the order of the file, with the number of events that stand before it:
 *
 *     after 4 events: valve 3 sticks
 *
 * Bytes that are no printable ASCII are printed as \x and two figures. A history that is refused is not looked through.
 */
#include <inttypes.h>
#include <stdio.h>

#include "sendoshi.h"

#if SENDOSHI_VERSION != 5
#error "written for version 5 of the interface"
#endif

/* One byte more than is ever read: a longer file is then refused for its length, however long it is. */
enum { ROOM = SENDOSHI_MAX_FILE + 1 };

static uint8_t history[ROOM];
static uint32_t starts[SENDOSHI_REGISTERS];
static uint16_t kinds[SENDOSHI_MAX_EVENTS];
static uint16_t transactions[SENDOSHI_MAX_EVENTS];
static uint16_t registers[SENDOSHI_MAX_EVENTS];
static uint32_t values[SENDOSHI_MAX_EVENTS];
static uint16_t threads[SENDOSHI_MAX_EVENTS];

static void print_note(uint32_t events, const uint8_t *bytes, uint32_t length)
{
    printf("after %" PRIu32 " events:%s", events, length > 0 ? " " : "");
    for (uint32_t i = 0; i < length; i++) {
        if (bytes[i] >= 0x20 && bytes[i] < 0x7f && bytes[i] != '\\') {
            putchar(bytes[i]);
        } else {
            printf("\\x%02x", (unsigned)bytes[i]);
        }
    }
    putchar('\n');
}

int main(int argc, char **argv)
{
    char path[4096];
    int written = argc == 2 ? snprintf(path, sizeof path, "%s/capture.hst", argv[1]) : -1;
    FILE *file = written > 0 && (size_t)written < sizeof path ? fopen(path, "rb") : NULL;
    if (file == NULL) {
        fprintf(stderr, "usage: %s FOLDER, with a file capture.hst\n", argv[0]);
        return 2;
    }
    size_t length = fread(history, 1, ROOM, file);
    fclose(file);
    uint64_t read = sendoshi_read(history, length, starts, kinds, SENDOSHI_MAX_EVENTS, transactions, SENDOSHI_MAX_EVENTS, registers,
                                  SENDOSHI_MAX_EVENTS, values, SENDOSHI_MAX_EVENTS, threads, SENDOSHI_MAX_EVENTS);
    if (sendoshi_code(read) != SENDOSHI_DONE) {
        printf("history refused %" PRIu32 " byte %" PRIu32 "\n", sendoshi_code(read), sendoshi_place(read));
        return 0;
    }
    uint32_t note[3] = {0, 0, 0};
    while (sendoshi_code(sendoshi_next_note(history, length, note[1] + note[2], note)) == SENDOSHI_DONE) {
        print_note(note[0], history + note[1], note[2]);
    }
    return 0;
}
