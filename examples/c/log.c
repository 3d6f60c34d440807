/* A desk logs a transaction of two updates, the power fails in the middle of the next append, and recovery brings the
   texts back. */
#include <stdio.h>
#include <string.h>

#include <lupaniele.h>

enum { CARDS = 1, ROOM = 16, CARD = 0, T = 1, DESK = 1, START = 0, BODIES = 100, CUT_AFTER = 9 };

static uint8_t log_bytes[LUPANIELE_LEAST_LOG + BODIES], image[LUPANIELE_IMAGE_SIZE(CARDS, ROOM)];
static uint8_t body[LUPANIELE_UPDATE_BODY(ROOM)];

/* Appends the record whose body stands in `body`, with all of its stores. */
static uint8_t append(uint8_t kind, size_t length) {
    return lupaniele_log_append(log_bytes, sizeof log_bytes, kind, body, length, LUPANIELE_STORES_ALL(length));
}

/* Reads a text of the card, shared, under the stamps that recovery left. */
static void show(const char *name, struct lupaniele_command command) {
    uint64_t stamp = lupaniele_stamp(T, DESK, START), fields[LUPANIELE_FIELDS];
    uint8_t bytes[LUPANIELE_COMMAND_SIZE], reply[ROOM], number;
    size_t size;
    command = lupaniele_shared(command, lupaniele_pair_of(stamp, stamp));
    size = lupaniele_command_bytes(&command, bytes, sizeof bytes);
    number = lupaniele_answer(image, sizeof image, bytes, size, reply, sizeof reply, fields);
    printf("%s: %u, %.*s\n", name, number, (int)lupaniele_entry_of(fields).length, (const char *)reply);
}

int main(void) {
    const uint64_t stamp = lupaniele_stamp(T, DESK, START); /* the pairs of the cards: this stamp for the only one */
    uint64_t line;
    uint8_t number;
    size_t length;
    if (lupaniele_make(image, sizeof image, CARDS, ROOM) != LUPANIELE_ACCEPTED) {
        return 1;
    }
    printf("begin: %u\n", append(LUPANIELE_BEGIN, lupaniele_begin_body(1, body, sizeof body)));
    length = lupaniele_update_body(CARD, LUPANIELE_SIDE_ORIGINAL, "205", strlen("205"), body, sizeof body);
    printf("update: %u\n", append(LUPANIELE_UPDATE, length));
    length = lupaniele_update_body(CARD, LUPANIELE_SIDE_TRANSLATION, "401", strlen("401"), body, sizeof body);
    printf("update: %u\n", append(LUPANIELE_UPDATE, length));
    printf("commit: %u\n", append(LUPANIELE_COMMIT, lupaniele_commit_body(1, body, sizeof body)));
    length = lupaniele_begin_body(2, body, sizeof body);
    number = lupaniele_log_append(log_bytes, sizeof log_bytes, LUPANIELE_BEGIN, body, length, CUT_AFTER);
    printf("next begin, cut after %u of %u stores: %u\n", CUT_AFTER, (unsigned)LUPANIELE_STORES_ALL(length), number);
    printf("check: %u, %u records\n", lupaniele_log_check(log_bytes, sizeof log_bytes),
           lupaniele_log_records(log_bytes, sizeof log_bytes));
    number = lupaniele_recover(log_bytes, sizeof log_bytes, image, sizeof image, &stamp, CARDS, &stamp, CARDS, &line);
    printf("recover: %u, line %u\n", number, (unsigned)line);
    show("original", lupaniele_read_original(CARD));
    show("translation", lupaniele_read_translation(CARD, LUPANIELE_FIRST_LANGUAGE));
    number = lupaniele_recover(log_bytes, sizeof log_bytes, image, sizeof image, NULL, 0, NULL, 0, &line);
    printf("recover without pairs: %u, line %u\n", number, (unsigned)line);
    return 0;
}
