/* Walks a stream, commands end to end, and answers each one on a fresh card (rules 8.1 and 8.2). */
#include <stdio.h>
#include <string.h>

#include <lupaniele.h>

enum { CARDS = 1, ROOM = 16, CARD = 0, T = 1, DESK = 1, START = 0, LEFT_OVER = 5 };

static uint8_t stream[256];
static size_t length;

/* One command more at the stream's end. */
static void put(struct lupaniele_command command) {
    length += lupaniele_command_bytes(&command, stream + length, sizeof stream - length);
}

int main(void) {
    const uint64_t stamp = lupaniele_stamp(T, DESK, START);
    const struct lupaniele_pair pair = lupaniele_pair_of(stamp, stamp);
    uint8_t image[LUPANIELE_IMAGE_SIZE(CARDS, ROOM)], reply[ROOM];
    uint64_t fields[LUPANIELE_FIELDS], at = 0, end;
    if (lupaniele_make(image, sizeof image, CARDS, ROOM) != LUPANIELE_ACCEPTED) {
        return 1;
    }
    put(lupaniele_exclusive(lupaniele_write_original(CARD, "205", strlen("205")), pair));
    /* a write that is not exclusive: malformed, so it is answered and passed over by its length */
    put(lupaniele_shared(lupaniele_write_original(CARD, "no", strlen("no")), pair));
    put(lupaniele_exclusive(lupaniele_read_original(CARD), pair));
    length += LEFT_OVER; /* and some bytes that are no whole command */
    while (lupaniele_next(stream, length, at, &end)) {
        uint8_t number = lupaniele_answer(image, sizeof image, stream + at, end - at, reply, sizeof reply, fields);
        printf("at %u: %u, edition %u\n", (unsigned)at, number, lupaniele_entry_of(fields).edition);
        at = end;
    }
    printf("cut at %u of %u, as one call says: %u\n", (unsigned)at, (unsigned)length,
           (unsigned)lupaniele_end(stream, length));
    return 0;
}
