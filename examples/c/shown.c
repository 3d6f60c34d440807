/* Shows a desk's text in the language asked for, or nothing (rules 6.1 to 6.3). */
#include <stdio.h>

#include <lupaniele.h>

enum { SIZE = 8, LENGTH = 3, NEVER = 0, THIRD = 2 };

/* What the desk holds: two buffers, whose first three bytes are the texts. */
static const uint8_t original[SIZE] = "205", translation[SIZE] = "401";

/* The desk says that its original is of this edition, and its translation made from that one. */
static void show(const char *what, uint8_t asked, uint64_t translation_length, uint16_t edition, uint16_t from) {
    uint64_t count;
    uint8_t number = lupaniele_shown(original, sizeof original, translation, sizeof translation, LENGTH,
                                     translation_length, edition, from, asked, &count);
    const uint8_t *text = asked == LUPANIELE_ASKED_ORIGINAL ? original : translation;
    printf("%s: %u, \"%.*s\"\n", what, number, (int)count, (const char *)text);
}

int main(void) {
    show("the original", LUPANIELE_ASKED_ORIGINAL, LENGTH, 2, 1);
    show("the translation, made from edition 1 of 2", LUPANIELE_ASKED_TRANSLATION, LENGTH, 2, 1);
    show("the translation, made from edition 2 of 2", LUPANIELE_ASKED_TRANSLATION, LENGTH, 2, 2);
    show("a translation that was never made", LUPANIELE_ASKED_TRANSLATION, 0, 2, NEVER);
    show("the original, beside a translation of nine bytes in eight", LUPANIELE_ASKED_ORIGINAL, SIZE + 1, 2, 2);
    show("a third language", THIRD, LENGTH, 2, 2);
    return 0;
}
