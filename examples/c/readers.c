/* What the readers find in logs and in structured texts, whole, cut and damaged: everything that the builders wrote,
   and nothing else. */
#include <stdio.h>
#include <string.h>

#include <lupaniele.h>

enum { CARD = 258, MORNING = 70000, BODIES = 200, ROOM = 64, GUARD = 99 };

static uint8_t redo[LUPANIELE_LEAST_LOG + BODIES], text[ROOM];

/* Appends a record whose body stands in the caller's buffer. */
static void append(uint8_t kind, const uint8_t *body, size_t length) {
    uint8_t number = lupaniele_log_append(redo, sizeof redo, kind, body, length, LUPANIELE_STORES_ALL(length));
    if (number != LUPANIELE_ACCEPTED) {
        printf("kind %u: %s\n", kind, lupaniele_name(number));
    }
}

static void update(uint8_t side, const char *words) {
    uint8_t body[ROOM];
    size_t length = lupaniele_update_body(CARD, side, words, strlen(words), body, sizeof body);
    append(LUPANIELE_UPDATE, body, length);
}

/* Every record of the log, with every field. */
static void records(const char *what) {
    struct lupaniele_record record;
    uint64_t line;
    printf("%s: %u records\n", what, lupaniele_log_records(redo, sizeof redo));
    for (line = 0; lupaniele_log_record(redo, sizeof redo, line, &record); line++) {
        printf("    kind %u, transaction %u, card %u, side %u, body of %u bytes, text \"%.*s\"\n", record.kind,
               (unsigned)record.transaction, record.card, record.side, (unsigned)record.body_length,
               (int)record.text_length, record.text_length > 0 ? (const char *)record.text : "");
    }
}

static void logs(void) {
    uint8_t body[LUPANIELE_SYNCED_BODY];
    append(LUPANIELE_BEGIN, body, lupaniele_begin_body(MORNING, body, sizeof body));
    update(LUPANIELE_SIDE_ORIGINAL, "");
    update(LUPANIELE_SIDE_ORIGINAL, "2");
    update(LUPANIELE_SIDE_TRANSLATION, "401");
    append(LUPANIELE_COMMIT, body, lupaniele_commit_body(MORNING, body, sizeof body));
    append(LUPANIELE_SYNCED, body, lupaniele_synced_body(CARD, MORNING, body, sizeof body));
    records("a log");
    redo[LUPANIELE_LEAST_LOG]++;
    records("the log with a byte of its first body changed");
}

/* Every step of a text, with every field. */
static void steps(const char *what, size_t length) {
    struct lupaniele_reader reader;
    struct lupaniele_step step;
    unsigned i;
    printf("%s: %u bytes\n", what, (unsigned)length);
    lupaniele_reader_start(&reader, text, length);
    while (lupaniele_reader_next(&reader, &step)) {
        printf("    at %u, step ", (unsigned)step.place);
        for (i = 0; i < step.depth; i++) {
            printf(i == 0 ? "%u" : ".%u", step.path[i]);
        }
        printf(": kind %u, words \"%.*s\", unit %u, tenths %u\n", step.kind, (int)step.words_length,
               step.words_length > 0 ? (const char *)step.words : "", step.unit, step.tenths);
    }
    if (lupaniele_reader_next(&reader, &step)) {
        printf("    A STEP BEHIND THE LAST\n");
    }
}

/* Words of three bytes and of one, drops, a section with a section that is empty, words of no byte, and a drop at the
 * end. */
static size_t written(size_t room) {
    struct lupaniele_writer writer;
    lupaniele_text_start(&writer, text, room);
    lupaniele_text_words(&writer, "one", strlen("one"));
    lupaniele_text_open(&writer);
    lupaniele_text_drop(&writer, LUPANIELE_CELSIUS, 2050);
    lupaniele_text_open(&writer);
    lupaniele_text_close(&writer);
    lupaniele_text_words(&writer, "2", strlen("2"));
    lupaniele_text_close(&writer);
    lupaniele_text_words(&writer, "", 0);
    lupaniele_text_drop(&writer, LUPANIELE_FAHRENHEIT, 4010);
    return lupaniele_text_finish(&writer);
}

/* How many steps are read of each beginning of a text, and whether the two readers agree that it is ill formed. */
static void cut(size_t length) {
    struct lupaniele_reader reader;
    struct lupaniele_step step;
    uint64_t place;
    size_t count;
    printf("cut:");
    for (count = 0; count < length; count++) {
        unsigned read = 0;
        lupaniele_reader_start(&reader, text, count);
        while (lupaniele_reader_next(&reader, &step)) {
            read++;
        }
        printf(" %u", read);
        if (lupaniele_agree(text, count, text, length, &place) != LUPANIELE_FIRST_ILL) {
            printf(" NOT ILL FORMED");
        }
    }
    printf("\n");
}

static void texts(void) {
    struct lupaniele_writer writer;
    size_t length = written(sizeof text);
    memset(text, GUARD, sizeof text);
    length = written(length);
    steps("a text in as many bytes as it takes", length);
    printf("the byte behind it is %s\n", text[length] == GUARD ? "as it was" : "ANOTHER");
    printf("in one byte less: %u\n", (unsigned)written(length - 1));
    length = written(sizeof text);
    text[length] = LUPANIELE_WORDS;
    text[length + 1] = 0;
    steps("a text with a step too many", length + 2);
    cut(length);
    lupaniele_text_start(&writer, text, sizeof text);
    lupaniele_text_open(&writer);
    lupaniele_text_close(&writer);
    steps("a text that ends with an empty section", lupaniele_text_finish(&writer));
    lupaniele_text_start(&writer, text, sizeof text);
    lupaniele_text_words(&writer, "", 0);
    steps("a text that ends with words of no byte", lupaniele_text_finish(&writer));
    lupaniele_text_start(&writer, text, sizeof text);
    lupaniele_text_drop(&writer, LUPANIELE_CELSIUS + 1, 1);
    lupaniele_text_drop(&writer, LUPANIELE_CELSIUS, 1);
    steps("a text with another unit", lupaniele_text_finish(&writer));
}

int main(void) {
    logs();
    texts();
    return 0;
}
