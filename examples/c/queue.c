/* Makes the lock queue of one card, of two places, and runs the example of rule 7.15. */
#include <stdio.h>

#include <lupaniele.h>

enum { PLACES = 2, START = 0, NONE = LUPANIELE_NO_STAMP };

static struct lupaniele_queue queue;

static void told(const char *who, uint8_t number, const struct lupaniele_queue_answer *answer) {
    printf("%s: %u, %s, looked at %u, %u stand\n", who, number, answer->holds ? "holds" : "does not hold",
           (unsigned)answer->looked_at, (unsigned)lupaniele_queue_count(&queue));
}

static void ask(const char *who, uint8_t mode, uint64_t s, uint64_t x) {
    struct lupaniele_queue_answer answer;
    uint8_t number = lupaniele_queue_ask(&queue, mode, lupaniele_pair_of(s, x), &answer);
    told(who, number, &answer);
}

int main(void) {
    const uint64_t first = lupaniele_stamp(1, 1, START), second = lupaniele_stamp(2, 2, START);
    struct lupaniele_queue_answer answer;
    uint8_t number;
    lupaniele_queue_clear(&queue, PLACES);
    ask("desk 1 asks shared", LUPANIELE_SHARED, first, NONE);
    ask("desk 2 asks shared", LUPANIELE_SHARED, second, NONE);
    ask("desk 1 upgrades with too small an s", LUPANIELE_EXCLUSIVE, first, first);
    ask("desk 1 upgrades", LUPANIELE_EXCLUSIVE, second, first);
    ask("desk 1 asks exclusive again", LUPANIELE_EXCLUSIVE, second, lupaniele_stamp(2, 1, START));
    ask("desk 2 asks shared again", LUPANIELE_SHARED, lupaniele_stamp(3, 2, START), first);
    ask("desk 3 asks shared", LUPANIELE_SHARED, lupaniele_stamp(3, 3, START), first);
    number = lupaniele_queue_leave(&queue, lupaniele_desk(2, START), &answer);
    told("desk 2 leaves", number, &answer);
    return 0;
}
