/* A desk falls silent: it is waited for, and then taken out of the lock queue (rule 13.8). */
#include <math.h>
#include <stdio.h>

#include <lupaniele.h>

enum { PLACES = 2, T = 1, DESK = 1, START = 0 };

static const double period = 30.0, silent_since = 100.0;
static struct lupaniele_queue queue;

/* The desk's lease is looked at by the keeper's clock. */
static void lapse(const char *when, double drift, double time) {
    struct lupaniele_queue_answer answer;
    uint8_t number =
        lupaniele_queue_lapse(&queue, lupaniele_desk(DESK, START), period, drift, silent_since, time, &answer);
    printf("%s: %u, %u stand\n", when, number, (unsigned)lupaniele_queue_count(&queue));
}

int main(void) {
    struct lupaniele_pair pair = lupaniele_pair_of(LUPANIELE_NO_STAMP, lupaniele_stamp(T, DESK, START));
    struct lupaniele_queue_answer answer;
    lupaniele_queue_clear(&queue, PLACES);
    if (lupaniele_queue_ask(&queue, LUPANIELE_EXCLUSIVE, pair, &answer) != LUPANIELE_ACCEPTED) {
        return 1;
    }
    lapse("drift 0.5, at 144.999", 0.5, 144.999);
    lapse("drift 0.5, the clock went back to 99", 0.5, 99.0);
    lapse("drift 0.6, at 200", 0.6, 200.0);
    lapse("drift that is no number, at 200", (double)NAN, 200.0);
    lapse("drift 0.5, at 145", 0.5, 145.0);
    lapse("drift 0.5, at 145 again", 0.5, 145.0);
    return 0;
}
