/* Tells an editor which step of a card disagrees with its translation. */
#include <stdio.h>
#include <string.h>

#include <lupaniele.h>

enum { ROOM = 64 };

static uint8_t english[ROOM], norwegian[ROOM];

/* Words, a drop, and a section of words and a drop: the text's length. */
static size_t card(uint8_t *bytes, const char *first, const char *then, uint8_t unit, uint16_t charge, uint16_t drop) {
    struct lupaniele_writer writer;
    lupaniele_text_start(&writer, bytes, ROOM);
    lupaniele_text_words(&writer, first, strlen(first));
    lupaniele_text_drop(&writer, unit, charge);
    lupaniele_text_open(&writer);
    lupaniele_text_words(&writer, then, strlen(then));
    lupaniele_text_drop(&writer, unit, drop);
    lupaniele_text_close(&writer);
    return lupaniele_text_finish(&writer);
}

/* Says what stands at the place of the first text where the two part. */
static void tell(const uint8_t *text, size_t length, uint64_t place) {
    struct lupaniele_reader reader;
    struct lupaniele_step step;
    unsigned i;
    lupaniele_reader_start(&reader, text, length);
    while (lupaniele_reader_next(&reader, &step)) {
        if (step.place == place) {
            printf("step ");
            for (i = 0; i < step.depth; i++) {
                printf(i == 0 ? "%u" : ".%u", step.path[i]);
            }
            if (step.kind == LUPANIELE_DROP) {
                printf(" is a drop of %u.%u %c\n", step.tenths / 10, step.tenths % 10, step.unit);
            } else {
                printf(" is of another kind, one too many, or one is missing before it\n");
            }
            return;
        }
    }
    printf("the translation goes on where the card ends\n");
}

static void compare(size_t first_length, size_t second_length) {
    uint64_t place;
    uint8_t number = lupaniele_agree(english, first_length, norwegian, second_length, &place);
    printf("%u, byte %u\n", number, (unsigned)place);
    if (number == LUPANIELE_UNMATCHED) {
        tell(english, first_length, place);
    }
}

int main(void) {
    size_t first = card(english, "Charge", "Drop", LUPANIELE_CELSIUS, 1900, 2050);
    size_t second = card(norwegian, "Fyll", "Tom", LUPANIELE_FAHRENHEIT, 3740, 4020);
    compare(first, second);
    second = card(norwegian, "Fyll", "Tom", LUPANIELE_FAHRENHEIT, 3740, 4010);
    compare(first, second);
    compare(first - 1, second);
    return 0;
}
