/* Runs a stream over a fresh card, with room for two lines at a time, and goes on from where each run stopped (rule
   8.5). */
#include <stdio.h>
#include <string.h>

#include <lupaniele.h>

enum { CARDS = 1, ROOM = 16, CARD = 0, T = 1, DESK = 1, START = 0, LEFT_OVER = 5, AT_ONCE = 2 };

static uint8_t stream[512];
static size_t length;

/* One command more at the stream's end. */
static void put(struct lupaniele_command command) {
    length += lupaniele_command_bytes(&command, stream + length, sizeof stream - length);
}

int main(void) {
    const uint64_t stamp = lupaniele_stamp(T, DESK, START);
    const struct lupaniele_pair pair = lupaniele_pair_of(stamp, stamp);
    uint8_t image[LUPANIELE_IMAGE_SIZE(CARDS, ROOM)], reply[ROOM];
    uint64_t lines[AT_ONCE * LUPANIELE_LINE], end, at = 0, count, i;
    if (lupaniele_make(image, sizeof image, CARDS, ROOM) != LUPANIELE_ACCEPTED) {
        return 1;
    }
    put(lupaniele_exclusive(lupaniele_write_original(CARD, "205", strlen("205")), pair));
    /* a write that is not exclusive: malformed, so it is answered and passed over by its length */
    put(lupaniele_shared(lupaniele_write_original(CARD, "no", strlen("no")), pair));
    put(lupaniele_exclusive(lupaniele_read_original(CARD), pair));
    length += LEFT_OVER; /* and some bytes that are no whole command */
    while ((count = lupaniele_run(image, sizeof image, stream + at, length - at, reply, sizeof reply, lines,
                                  AT_ONCE * LUPANIELE_LINE, &end)) > 0) {
        for (i = 0; i < count; i++) {
            struct lupaniele_entry entry = lupaniele_line_entry(lines, i);
            printf("number %u, edition %u, length %u\n", lupaniele_line_number(lines, i), entry.edition, entry.length);
        }
        at += end;
        printf("stopped at %u\n", (unsigned)at);
    }
    printf("left over: %u\n", (unsigned)(length - at));
    return 0;
}
