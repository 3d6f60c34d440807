/* A desk changes two cards at once (section 16 of the rules), one step after the other as the library says. It goes down
   when the first card is released and not yet noted as synced; somebody else writes that card; started again, the desk
   notes the card without a write, and finishes the other one. */
#include <stdbool.h>
#include <stdio.h>
#include <string.h>

#include <lupaniele.h>

enum { CARDS = 2, ROOM = 16, DESK = 5, TRANSACTION = 1, BODIES = 100 };

static const char *const steps[] = {"nothing", "look", "prepare", "ready", "write", "release", "note", "wait", "bad"};

static uint8_t log_bytes[LUPANIELE_LEAST_LOG + BODIES], image[LUPANIELE_IMAGE_SIZE(CARDS, ROOM)];
static uint8_t body[LUPANIELE_UPDATE_BODY(ROOM)], bytes[LUPANIELE_COMMAND_SIZE + ROOM];

/* What the desk keeps of each card: what it knows, what the guard last showed, and what it has seen. */
static struct {
    uint64_t known[2];
    struct lupaniele_entry shown;
    uint16_t seen[LUPANIELE_SEEN];
} cards[CARDS];
static uint16_t start;

static uint8_t append(uint8_t kind, size_t length) {
    return lupaniele_log_append(log_bytes, sizeof log_bytes, kind, body, length, LUPANIELE_STORES_ALL(length));
}

/* Sends a command as a step, and hears its answer. */
static uint8_t send_step(struct lupaniele_command command, uint8_t step, uint8_t line) {
    uint64_t fields[LUPANIELE_FIELDS];
    size_t size = lupaniele_command_bytes(&command, bytes, sizeof bytes);
    uint8_t number;
    memset(cards[command.card].seen, 0, sizeof cards[command.card].seen);
    number = lupaniele_answer(image, sizeof image, bytes, size, NULL, 0, fields);
    cards[command.card].shown = lupaniele_entry_of(fields);
    lupaniele_learn(cards[command.card].known, cards[command.card].shown.pair.s, cards[command.card].shown.pair.x);
    lupaniele_heard(step, line, number, cards[command.card].shown.mark.desk, cards[command.card].seen);
    return number;
}

/* A pair that the desk proposes for a card. */
static struct lupaniele_pair propose(uint16_t card, uint8_t mode) {
    uint64_t pair[2] = {LUPANIELE_NO_STAMP, LUPANIELE_NO_STAMP};
    if (lupaniele_propose(DESK, start, cards[card].known, mode, pair) != LUPANIELE_ACCEPTED) {
        printf("no stamp is left\n");
    }
    return lupaniele_pair_of(pair[0], pair[1]);
}

/* An order: it relies on the pair that the guard last showed, and goes from one mark to another. */
static uint8_t order(struct lupaniele_command command, struct lupaniele_mark expected, struct lupaniele_mark next,
                     uint8_t step, uint8_t line) {
    command = lupaniele_opening(command, LUPANIELE_EXCLUSIVE, cards[command.card].shown.pair,
                                propose(command.card, LUPANIELE_EXCLUSIVE));
    command.expected = expected;
    command.next = next;
    return send_step(command, step, line);
}

/* The write of a line of the log. */
static struct lupaniele_command writing(uint64_t line) {
    struct lupaniele_record record;
    if (!lupaniele_log_record(log_bytes, sizeof log_bytes, line, &record) ||
        record.side == LUPANIELE_SIDE_ORIGINAL) {
        return lupaniele_write_original(record.card, record.text, record.text_length);
    }
    return lupaniele_write_translation(record.card, LUPANIELE_FIRST_LANGUAGE, cards[record.card].shown.edition,
                                       record.text, record.text_length);
}

/* Takes one step for a card, and tells whether there was one to take. */
static bool take(uint16_t card, bool going) {
    const struct lupaniele_mark none = {0, 0}, own = {DESK, TRANSACTION};
    uint64_t line, transaction;
    uint8_t number = LUPANIELE_ACCEPTED;
    uint8_t step = lupaniele_next_step(log_bytes, sizeof log_bytes, DESK, card, going, cards[card].seen, &line,
                                       &transaction);
    switch (step) {
    case LUPANIELE_STEP_LOOK:
        number = send_step(lupaniele_shared(lupaniele_verify(card), propose(card, LUPANIELE_SHARED)), step, 0);
        break;
    case LUPANIELE_STEP_PREPARE:
        number = order(lupaniele_verify(card), none, own, step, 0);
        break;
    case LUPANIELE_STEP_WRITE:
        number = order(writing(line), cards[card].shown.mark, cards[card].shown.mark, step, (uint8_t)line);
        break;
    case LUPANIELE_STEP_RELEASE:
        number = order(lupaniele_verify(card), cards[card].shown.mark, none, step, 0);
        break;
    case LUPANIELE_STEP_NOTE:
        number = append(LUPANIELE_SYNCED, lupaniele_synced_body(card, (uint32_t)transaction, body, sizeof body));
        break;
    default: /* nothing, ready, wait or bad: there is nothing to send */
        printf("card %u: %s\n", card, steps[step]);
        return false;
    }
    printf("card %u: %s, %u\n", card, steps[step], number);
    return true;
}

static void follow(uint16_t card, bool going) {
    while (take(card, going)) {
    }
}

int main(void) {
    size_t length;
    if (lupaniele_make(image, sizeof image, CARDS, ROOM) != LUPANIELE_ACCEPTED) {
        return 1;
    }
    printf("begin: %u\n", append(LUPANIELE_BEGIN, lupaniele_begin_body(TRANSACTION, body, sizeof body)));
    length = lupaniele_update_body(0, LUPANIELE_SIDE_ORIGINAL, "205", strlen("205"), body, sizeof body);
    printf("update: %u\n", append(LUPANIELE_UPDATE, length));
    length = lupaniele_update_body(1, LUPANIELE_SIDE_ORIGINAL, "401", strlen("401"), body, sizeof body);
    printf("update: %u\n", append(LUPANIELE_UPDATE, length));
    follow(0, true);
    follow(1, true);
    printf("commit: %u\n", append(LUPANIELE_COMMIT, lupaniele_commit_body(TRANSACTION, body, sizeof body)));
    (void)take(0, true); /* the write */
    (void)take(0, true); /* the release */

    printf("the desk goes down, and another one writes card 0\n");
    {
        const struct lupaniele_pair pair = lupaniele_pair_of(lupaniele_stamp(9, 1, 0), lupaniele_stamp(9, 1, 0));
        struct lupaniele_command other = lupaniele_exclusive(lupaniele_write_original(0, "210", strlen("210")), pair);
        uint64_t fields[LUPANIELE_FIELDS];
        length = lupaniele_command_bytes(&other, bytes, sizeof bytes);
        printf("card 0: %u\n", lupaniele_answer(image, sizeof image, bytes, length, NULL, 0, fields));
    }
    memset(cards, 0, sizeof cards);
    start = 1;
    follow(0, false);
    follow(1, false);
    printf("begins again: %d\n", lupaniele_log_begin_again(log_bytes, sizeof log_bytes));
    return 0;
}
