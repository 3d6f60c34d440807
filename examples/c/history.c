/* The history engine: a write and a read are kept; then the engine is filled, and one more command gets 22. */
#include <stdio.h>
#include <string.h>

#include <lupaniele.h>

enum { CARDS = 1, ROOM = 16, CARD = 0, T = 1, DESK = 1, START = 0 };

static uint8_t kept[LUPANIELE_HISTORY_SIZE], reply[ROOM];
static uint64_t used;

/* Sends a command of the desk, exclusive under its stamp, to the engine: the number, and the reply fields by name. */
static uint8_t request(struct lupaniele_command command, struct lupaniele_entry *entry) {
    uint64_t stamp = lupaniele_stamp(T, DESK, START), fields[LUPANIELE_FIELDS];
    uint8_t bytes[LUPANIELE_COMMAND_SIZE + ROOM], number;
    size_t size;
    command = lupaniele_exclusive(command, lupaniele_pair_of(stamp, stamp));
    size = lupaniele_command_bytes(&command, bytes, sizeof bytes);
    number = lupaniele_history_answer(kept, &used, CARDS, ROOM, bytes, size, reply, sizeof reply, fields);
    *entry = lupaniele_entry_of(fields);
    return number;
}

int main(void) {
    struct lupaniele_entry entry;
    unsigned count = 2;
    uint8_t number = request(lupaniele_write_original(CARD, "205", strlen("205")), &entry);
    printf("write: %u, edition %u, used %u\n", number, entry.edition, (unsigned)used);
    number = request(lupaniele_read_original(CARD), &entry);
    printf("read: %u, %.*s, used %u\n", number, (int)entry.length, (const char *)reply, (unsigned)used);
    while ((number = request(lupaniele_verify(CARD), &entry)) == LUPANIELE_ACCEPTED) {
        count++;
    }
    printf("full: %u after %u commands, edition %u, used %u\n", number, count, entry.edition, (unsigned)used);
    return 0;
}
