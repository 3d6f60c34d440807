/* Makes a store of one card, writes its original, reads it back. */
#include <stdio.h>
#include <string.h>

#include <lupaniele.h>

enum { CARDS = 1, ROOM = 16, CARD = 0, T = 1, DESK = 1, START = 0 };

static uint8_t image[LUPANIELE_IMAGE_SIZE(CARDS, ROOM)], bytes[LUPANIELE_COMMAND_SIZE + ROOM], reply[ROOM];

/* Sends a command of the desk, exclusive under its stamp, to the store: the number, and the reply fields by name. */
static uint8_t request(struct lupaniele_command command, struct lupaniele_entry *entry) {
    uint64_t stamp = lupaniele_stamp(T, DESK, START), fields[LUPANIELE_FIELDS];
    uint8_t number;
    size_t size;
    command = lupaniele_exclusive(command, lupaniele_pair_of(stamp, stamp));
    size = lupaniele_command_bytes(&command, bytes, sizeof bytes);
    number = lupaniele_answer(image, sizeof image, bytes, size, reply, sizeof reply, fields);
    *entry = lupaniele_entry_of(fields);
    return number;
}

int main(void) {
    struct lupaniele_entry entry;
    uint8_t number;
    if (lupaniele_make(image, sizeof image, CARDS, ROOM) != LUPANIELE_ACCEPTED) {
        return 1;
    }
    number = request(lupaniele_write_original(CARD, "205", strlen("205")), &entry);
    printf("write: %u, edition %u\n", number, entry.edition);
    number = request(lupaniele_read_original(CARD), &entry);
    printf("read: %u, %.*s\n", number, (int)entry.length, (const char *)reply);
    return 0;
}
