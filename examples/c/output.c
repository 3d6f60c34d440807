/* What the program prints, without the program: a fresh image, a command of zeros, which is malformed, and some bytes
   more. It takes LUPANIELE_STACK_OUTPUT bytes of stack. */
#include <stdio.h>

#include <lupaniele.h>

enum { CARDS = 1, ROOM = 16, LEFT_OVER = 5 };

static uint8_t input[LUPANIELE_IMAGE_SIZE(CARDS, ROOM) + LUPANIELE_COMMAND_SIZE + LEFT_OVER];
static uint8_t out[LUPANIELE_OUTPUT_SIZE];

int main(void) {
    uint64_t count;
    if (lupaniele_make(input, LUPANIELE_IMAGE_SIZE(CARDS, ROOM), CARDS, ROOM) != LUPANIELE_ACCEPTED) {
        return 1;
    }
    count = lupaniele_output(input, sizeof input, out, sizeof out);
    fwrite(out, 1, count, stdout);
    printf("%u with one byte too few\n", (unsigned)lupaniele_output(input, sizeof input, out, sizeof out - 1));
    return 0;
}
