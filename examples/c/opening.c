/* A desk opens a session inside a command: the verifier is the pair that it relies on, the update pair the one that it
   opens (rule 3.4). */
#include <stdio.h>

#include <lupaniele.h>

enum { CARDS = 1, ROOM = 16, CARD = 0, START = 0 };

static uint8_t image[LUPANIELE_IMAGE_SIZE(CARDS, ROOM)];

/* An exclusive verify of the card: it relies on one pair and opens another. */
static void verify(const char *what, struct lupaniele_pair verifier, struct lupaniele_pair update) {
    struct lupaniele_command command = lupaniele_opening(lupaniele_verify(CARD), LUPANIELE_EXCLUSIVE, verifier, update);
    uint8_t bytes[LUPANIELE_COMMAND_SIZE], number;
    size_t size = lupaniele_command_bytes(&command, bytes, sizeof bytes);
    uint64_t fields[LUPANIELE_FIELDS], x;
    number = lupaniele_answer(image, sizeof image, bytes, size, NULL, 0, fields);
    x = lupaniele_entry_of(fields).pair.x;
    printf("%s: %u, stored x %u.%u.%u\n", what, number, (unsigned)lupaniele_stamp_t(x), lupaniele_stamp_desk(x),
           lupaniele_stamp_start(x));
}

/* Both stamps of a pair the same: of this T and desk. */
static struct lupaniele_pair both(uint32_t t, uint16_t desk) {
    uint64_t stamp = lupaniele_stamp(t, desk, START);
    return lupaniele_pair_of(stamp, stamp);
}

int main(void) {
    const struct lupaniele_pair none = lupaniele_pair_of(LUPANIELE_NO_STAMP, LUPANIELE_NO_STAMP);
    const struct lupaniele_pair one = both(1, 1), two = both(2, 2);
    if (lupaniele_make(image, sizeof image, CARDS, ROOM) != LUPANIELE_ACCEPTED) {
        return 1;
    }
    verify("desk 1 opens a session out of nothing", none, one);
    verify("desk 1 goes on in it", one, none);
    verify("desk 2 opens one out of what it was told", one, two);
    verify("desk 1 comes late, whatever it would open", one, both(3, 1));
    verify("desk 2 opens a pair below its own", two, lupaniele_pair_of(two.s, one.x));
    return 0;
}
