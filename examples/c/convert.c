/* An image of version 1 with one card is converted to version 2, and gets a second translation (rules 15.1 to 15.13).
 */
#include <stdio.h>
#include <string.h>

#include <lupaniele.h>

enum { CARDS = 1, ROOM = 16, CARD = 0, T = 1, DESK = 1, START = 0, EDITION = 1 };
enum { ONE = LUPANIELE_FIRST_LANGUAGE, TWO = LUPANIELE_SECOND_LANGUAGE };

static uint8_t image[LUPANIELE_IMAGE_SIZE(CARDS, ROOM)], target[LUPANIELE_IMAGE_SIZE_V2(CARDS, ROOM)], reply[ROOM];
static bool converted;

/* Sends a command, exclusive under the desk's stamp: to the image of version 1 until it is converted, then to the
   other. */
static void request(struct lupaniele_command command) {
    uint64_t stamp = lupaniele_stamp(T, DESK, START), fields[LUPANIELE_FIELDS];
    uint8_t bytes[LUPANIELE_COMMAND_SIZE_V2 + ROOM], number;
    struct lupaniele_entry entry;
    size_t size;
    command = lupaniele_exclusive(command, lupaniele_pair_of(stamp, stamp));
    if (converted) {
        size = lupaniele_command_bytes_v2(&command, bytes, sizeof bytes);
        number = lupaniele_answer_v2(target, sizeof target, bytes, size, reply, sizeof reply, fields);
    } else {
        size = lupaniele_command_bytes(&command, bytes, sizeof bytes);
        number = lupaniele_answer(image, sizeof image, bytes, size, reply, sizeof reply, fields);
    }
    entry = lupaniele_entry_of(fields);
    printf("act %u, language %u: %u, from edition %u, \"%.*s\"\n", command.act, command.language, number,
           entry.translated_from, (int)entry.length, (const char *)reply);
}

int main(void) {
    uint64_t fields[LUPANIELE_FIELDS];
    if (lupaniele_make(image, sizeof image, CARDS, ROOM) != LUPANIELE_ACCEPTED) {
        return 1;
    }
    request(lupaniele_write_original(CARD, "205", strlen("205")));
    request(lupaniele_write_translation(CARD, ONE, EDITION, "401", strlen("401")));
    printf("one byte short: %u\n", lupaniele_convert(image, sizeof image, target, sizeof target - 1));
    printf("converted: %u\n", lupaniele_convert(image, sizeof image, target, sizeof target));
    converted = true;
    request(lupaniele_read_translation(CARD, ONE)); /* what was the translation is the first language */
    request(lupaniele_read_translation(CARD, TWO)); /* the second is behind */
    request(lupaniele_write_translation(CARD, TWO, EDITION, "402", strlen("402"))); /* until it is written */
    request(lupaniele_read_translation(CARD, TWO));
    request(lupaniele_write_original(CARD, "206", strlen("206"))); /* the original again */
    request(lupaniele_read_translation(CARD, ONE));                /* puts both behind */
    request(lupaniele_read_translation(CARD, TWO));
    printf("version 1 asked about version 2: %u\n",
           lupaniele_answer(target, sizeof target, NULL, 0, reply, sizeof reply, fields));
    printf("version 2 converted: %u\n", lupaniele_convert(target, sizeof target, image, sizeof image));
    return 0;
}
