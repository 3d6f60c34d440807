/* Writes the original of a card. */
#include <stdio.h>

#include <lupaniele.h>

static uint8_t image[LUPANIELE_IMAGE_SIZE(1, 64)], bytes[LUPANIELE_COMMAND_SIZE + 64];

int main(void) {
    uint64_t stamp = lupaniele_stamp(1, 1, 0), fields[LUPANIELE_FIELDS];
    struct lupaniele_pair pair = lupaniele_pair_of(stamp, stamp);
    struct lupaniele_command write = lupaniele_exclusive(lupaniele_write_original(0, "Drop at 205", 11), pair);
    size_t size = lupaniele_command_bytes(&write, bytes, sizeof bytes);
    uint8_t number = lupaniele_make(image, sizeof image, 1, 64);
    if (number == LUPANIELE_ACCEPTED) number = lupaniele_answer(image, sizeof image, bytes, size, NULL, 0, fields);
    printf("%s\n", lupaniele_meaning(number));
    return number != LUPANIELE_ACCEPTED;
}
