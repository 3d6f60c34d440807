/* Two desks ask for a card: one is denied, learns, and proposes again (rule 10.10). */
#include <stdio.h>

#include <lupaniele.h>

enum { PLACES = 2, START = 0, NO_DESK = 0 };

static struct lupaniele_queue queue;

static void print_stamp(uint64_t stamp) {
    printf("%u.%u.%u", (unsigned)lupaniele_stamp_t(stamp), lupaniele_stamp_desk(stamp), lupaniele_stamp_start(stamp));
}

/* A desk proposes and asks. Either way the answer's pair is learnt. */
static void ask(uint16_t desk, struct lupaniele_pair *known, uint8_t mode) {
    struct lupaniele_queue_answer answer;
    struct lupaniele_pair pair;
    uint8_t number = lupaniele_known_propose(desk, START, known, mode, &pair);
    if (number != LUPANIELE_ACCEPTED) {
        printf("desk %u: no proposal, %u\n", desk, number);
        return;
    }
    number = lupaniele_queue_ask(&queue, mode, pair, &answer);
    printf("desk %u asks %s with ", desk, mode == LUPANIELE_SHARED ? "shared" : "exclusive");
    print_stamp(pair.s);
    printf(", ");
    print_stamp(pair.x);
    printf(": %u\n", number);
    lupaniele_known_learn(known, answer.largest);
}

int main(void) {
    /* What each desk knows of the card, nothing at first; and one that has heard of the last stamp there is. */
    struct lupaniele_pair first = lupaniele_pair_of(LUPANIELE_NO_STAMP, LUPANIELE_NO_STAMP), second = first;
    struct lupaniele_pair spent = lupaniele_pair_of(UINT64_MAX, LUPANIELE_NO_STAMP);
    lupaniele_queue_clear(&queue, PLACES);
    ask(1, &first, LUPANIELE_SHARED);
    ask(2, &second, LUPANIELE_EXCLUSIVE);
    ask(2, &second, LUPANIELE_EXCLUSIVE);
    ask(1, &first, LUPANIELE_EXCLUSIVE);
    ask(NO_DESK, &second, LUPANIELE_SHARED);
    ask(3, &spent, LUPANIELE_SHARED);
    return 0;
}
