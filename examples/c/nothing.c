/* Nothing is lent: every function with NULL and length 0, wherever a length may be 0. */
#include <stdio.h>

#include <lupaniele.h>

enum { CARDS = 1, ROOM = 16, CARD = 0, T = 1, DESK = 1, START = 0 };

static uint8_t image[LUPANIELE_IMAGE_SIZE(CARDS, ROOM)], redo[LUPANIELE_LEAST_LOG], kept[LUPANIELE_HISTORY_SIZE];
static uint64_t fields[LUPANIELE_FIELDS], number_back;
static const uint16_t seen[LUPANIELE_SEEN];

static void say(const char *what, uint8_t number) { printf("%s: %s\n", what, lupaniele_name(number)); }
static void count(const char *what, uint64_t number) {
    printf("%s: %u, %u\n", what, (unsigned)number, (unsigned)number_back);
}

/* A command for a fresh image, read without a reply buffer: its text is empty and fits. */
static void read_nothing(void) {
    uint64_t stamp = lupaniele_stamp(T, DESK, START);
    struct lupaniele_command command = lupaniele_read_original(CARD);
    uint8_t bytes[LUPANIELE_COMMAND_SIZE];
    uint64_t lines[LUPANIELE_LINE];
    size_t size;
    command = lupaniele_shared(command, lupaniele_pair_of(stamp, stamp));
    size = lupaniele_command_bytes(&command, bytes, sizeof bytes);
    say("read into nothing", lupaniele_answer(image, sizeof image, bytes, size, NULL, 0, fields));
    count("run into nothing",
          lupaniele_run(image, sizeof image, bytes, size, NULL, 0, lines, LUPANIELE_LINE, &number_back));
    count("run without lines", lupaniele_run(image, sizeof image, bytes, size, NULL, 0, NULL, 0, &number_back));
    number_back = 0;
    say("history, read into nothing",
        lupaniele_history_answer(kept, &number_back, CARDS, ROOM, bytes, size, NULL, 0, fields));
    say("history, no command", lupaniele_history_answer(kept, &number_back, CARDS, ROOM, NULL, 0, NULL, 0, fields));
}

int main(void) {
    say("make", lupaniele_make(NULL, 0, CARDS, ROOM));
    say("make, version 2", lupaniele_make_v2(NULL, 0, CARDS, ROOM));
    printf("sound: %d, %d\n", lupaniele_sound(NULL, 0), lupaniele_sound_v2(NULL, 0));
    say("answer", lupaniele_answer(NULL, 0, NULL, 0, NULL, 0, fields));
    say("answer, version 2", lupaniele_answer_v2(NULL, 0, NULL, 0, NULL, 0, fields));
    say("convert", lupaniele_convert(NULL, 0, NULL, 0));
    say("shown", lupaniele_shown(NULL, 0, NULL, 0, 0, 0, 1, 1, LUPANIELE_ASKED_TRANSLATION, &number_back));
    count("next", lupaniele_next(NULL, 0, 0, &number_back));
    count("next, version 2", lupaniele_next_v2(NULL, 0, 0, &number_back));
    count("end", lupaniele_end(NULL, 0));
    count("end, version 2", lupaniele_end_v2(NULL, 0));
    count("run", lupaniele_run(NULL, 0, NULL, 0, NULL, 0, NULL, 0, &number_back));
    count("run, version 2", lupaniele_run_v2(NULL, 0, NULL, 0, NULL, 0, NULL, 0, &number_back));
    count("output", lupaniele_output(NULL, 0, NULL, 0));
    say("agree", lupaniele_agree(NULL, 0, NULL, 0, &number_back));
    say("log check", lupaniele_log_check(NULL, 0));
    say("log append", lupaniele_log_append(NULL, 0, LUPANIELE_UPDATE, NULL, 0, 0));
    say("append of nothing", lupaniele_log_append(redo, sizeof redo, LUPANIELE_UPDATE, NULL, 0, 0));
    say("recover", lupaniele_recover(NULL, 0, NULL, 0, NULL, 0, NULL, 0, &number_back));
    say("recover from an empty log", lupaniele_recover(redo, sizeof redo, NULL, 0, NULL, 0, NULL, 0, &number_back));
    count("next step", lupaniele_next_step(NULL, 0, 1, 0, false, seen, &number_back, fields));
    printf("begin again: %d, %d\n", lupaniele_log_begin_again(NULL, 0), lupaniele_log_begin_again(redo, sizeof redo));
    say("make an image", lupaniele_make(image, sizeof image, CARDS, ROOM));
    say("no command", lupaniele_answer(image, sizeof image, NULL, 0, NULL, 0, fields));
    read_nothing();
    return 0;
}
