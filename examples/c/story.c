/* A morning at the store, from an empty image to version 2: two desks line up, write both languages, are refused and
   told why, log what they change, lose power, recover, and compare what both languages say. */
#include <stdio.h>
#include <string.h>

#include <lupaniele.h>

enum { CARDS = 2, ROOM = 512, CARD = 0, PLACES = 4, LOG_ROOM = 2048, TENTHS = 10 };
enum { ANNA = 1, BERIT = 2, START = 1, MORNING = 7, ENGLISH_LENGTH = 300, NORWEGIAN_LENGTH = 400 };
enum { NORWEGIAN = LUPANIELE_FIRST_LANGUAGE, GERMAN = LUPANIELE_SECOND_LANGUAGE };

/* What the store keeps, and what Berit keeps: her redo log. */
static uint8_t image[LUPANIELE_IMAGE_SIZE(CARDS, ROOM)], larger[LUPANIELE_IMAGE_SIZE_V2(CARDS, ROOM)];
static uint8_t bytes[LUPANIELE_COMMAND_SIZE_V2 + ROOM], reply[ROOM], redo[LUPANIELE_LEAST_LOG + LOG_ROOM];
static struct lupaniele_queue queue;

/* A desk: what it knows of the card, and the pair that it proposed last, with its mode; it sends nothing under another.
 */
struct desk {
    const char *name;
    uint16_t desk, start, edition;
    uint8_t mode;
    struct lupaniele_pair known, pair;
};

/* A number in words, with what to do about it where it is a refusal. */
static uint8_t say(const char *who, const char *what, uint8_t number) {
    printf("%s %s: %s\n", who, what, lupaniele_name(number));
    if (number != LUPANIELE_ACCEPTED) {
        printf("    %s (rule %s)\n    %s\n", lupaniele_meaning(number), lupaniele_rule(number),
               lupaniele_advice(number));
    }
    return number;
}

/* A desk proposes a pair and asks for the lock; it learns what the queue answers. */
static uint8_t line_up(struct desk *desk, uint8_t mode, const char *what) {
    struct lupaniele_queue_answer answer;
    uint8_t number = lupaniele_known_propose(desk->desk, desk->start, &desk->known, mode, &desk->pair);
    if (number != LUPANIELE_ACCEPTED) {
        return say(desk->name, "has no proposal", number);
    }
    desk->mode = mode;
    number = lupaniele_queue_ask(&queue, mode, desk->pair, &answer);
    lupaniele_known_learn(&desk->known, answer.largest);
    say(desk->name, what, number);
    printf("    %s the lock\n", answer.holds ? "holds" : "does not hold");
    return number;
}

static void leave(const struct desk *desk) {
    struct lupaniele_queue_answer answer;
    uint8_t number = lupaniele_queue_leave(&queue, lupaniele_desk(desk->desk, desk->start), &answer);
    say(desk->name, "leaves the queue", number);
}

/* Sends a command of a desk to the image of version 1; a text that was read is shown by its length and beginning. */
static uint8_t request(struct desk *desk, const char *what, struct lupaniele_command command) {
    uint64_t fields[LUPANIELE_FIELDS];
    struct lupaniele_entry entry;
    uint8_t number;
    size_t size;
    command.mode = desk->mode;
    command.verifier = desk->pair;
    size = lupaniele_command_bytes(&command, bytes, sizeof bytes);
    number = lupaniele_answer(image, sizeof image, bytes, size, reply, sizeof reply, fields);
    entry = lupaniele_entry_of(fields);
    lupaniele_known_learn(&desk->known, entry.pair);
    desk->edition = entry.edition;
    say(desk->name, what, number);
    if (entry.length > 0) {
        printf("    %u bytes, %.4s..\n", entry.length, (const char *)reply);
    }
    return number;
}

/* Anna writes the original; Berit hears of it and writes the translation; what Anna sends late is refused. */
static void both_languages(struct desk *anna, struct desk *berit, const char *english, const char *norwegian) {
    line_up(anna, LUPANIELE_SHARED, "asks shared");
    request(anna, "reads the original", lupaniele_read_original(CARD));
    line_up(anna, LUPANIELE_EXCLUSIVE, "upgrades");
    request(anna, "writes the original", lupaniele_write_original(CARD, english, strlen(english)));
    request(anna, "reads the translation", lupaniele_read_translation(CARD, NORWEGIAN));
    leave(anna);
    if (line_up(berit, LUPANIELE_EXCLUSIVE, "asks exclusive") == LUPANIELE_PAIR_DENIED) {
        line_up(berit, LUPANIELE_EXCLUSIVE, "asks again, with what she learnt");
    }
    request(berit, "reads the original", lupaniele_read_original(CARD));
    request(berit, "writes the translation",
            lupaniele_write_translation(CARD, NORWEGIAN, berit->edition, norwegian, strlen(norwegian)));
    request(anna, "writes late", lupaniele_write_original(CARD, english, strlen(english)));
    request(berit, "reads the translation", lupaniele_read_translation(CARD, NORWEGIAN));
    leave(berit);
}

/* Appends a record in three steps, as for a file that is synced behind each: the body, its line, the count. */
static uint8_t append(uint8_t kind, const uint8_t *body, size_t length) {
    const uint64_t steps[] = {LUPANIELE_STORES_BODY(length), LUPANIELE_STORES_LINE(length)};
    size_t i;
    for (i = 0; i < sizeof steps / sizeof steps[0]; i++) {
        uint8_t number = lupaniele_log_append(redo, sizeof redo, kind, body, length, steps[i]);
        if (number != LUPANIELE_APPEND_CUT) {
            return number;
        }
    }
    return lupaniele_log_append(redo, sizeof redo, kind, body, length, LUPANIELE_STORES_ALL(length));
}

/* Berit logs both texts and commits; of the next begin the power leaves all but the last store. */
static void logged(const struct desk *berit, const char *english, const char *norwegian) {
    uint8_t body[LUPANIELE_UPDATE_BODY(ROOM)];
    size_t length = lupaniele_begin_body(MORNING, body, sizeof body);
    say(berit->name, "begins a transaction", append(LUPANIELE_BEGIN, body, length));
    length = lupaniele_update_body(CARD, LUPANIELE_SIDE_ORIGINAL, english, strlen(english), body, sizeof body);
    say(berit->name, "logs the original", append(LUPANIELE_UPDATE, body, length));
    length = lupaniele_update_body(CARD, LUPANIELE_SIDE_TRANSLATION, norwegian, strlen(norwegian), body, sizeof body);
    say(berit->name, "logs the translation", append(LUPANIELE_UPDATE, body, length));
    length = lupaniele_commit_body(MORNING, body, sizeof body);
    say(berit->name, "commits", append(LUPANIELE_COMMIT, body, length));
    length = lupaniele_begin_body(MORNING + 1, body, sizeof body);
    say(berit->name, "begins another as the power fails",
        lupaniele_log_append(redo, sizeof redo, LUPANIELE_BEGIN, body, length, LUPANIELE_STORES_LINE(length)));
}

/* What a log reads back as. */
static void read_back(void) {
    struct lupaniele_record record;
    uint64_t line;
    for (line = 0; lupaniele_log_record(redo, sizeof redo, line, &record); line++) {
        switch (record.kind) {
        case LUPANIELE_BEGIN:
            printf("    begin %u\n", (unsigned)record.transaction);
            break;
        case LUPANIELE_UPDATE:
            printf("    update of card %u, %u bytes of text\n", record.card, (unsigned)record.text_length);
            break;
        case LUPANIELE_COMMIT:
            printf("    commit %u\n", (unsigned)record.transaction);
            break;
        default:
            printf("    card %u synced up to %u\n", record.card, (unsigned)record.transaction);
            break;
        }
    }
}

/* Berit starts again under a new start number and knows nothing; she takes a new pair and recovers what was committed.
 */
static void recovered(struct desk *berit) {
    uint64_t s[CARDS] = {LUPANIELE_NO_STAMP}, x[CARDS] = {LUPANIELE_NO_STAMP}, line;
    uint8_t body[LUPANIELE_SYNCED_BODY];
    size_t length = lupaniele_synced_body(CARD, MORNING, body, sizeof body);
    berit->start++;
    berit->known = lupaniele_pair_of(LUPANIELE_NO_STAMP, LUPANIELE_NO_STAMP);
    if (line_up(berit, LUPANIELE_EXCLUSIVE, "starts again and asks exclusive") == LUPANIELE_PAIR_DENIED) {
        line_up(berit, LUPANIELE_EXCLUSIVE, "asks again, with what she learnt");
    }
    s[CARD] = berit->pair.s;
    x[CARD] = berit->pair.x;
    if (say(berit->name, "recovers",
            lupaniele_recover(redo, sizeof redo, image, sizeof image, s, CARDS, x, CARDS, &line)) ==
        LUPANIELE_ACCEPTED) {
        say(berit->name, "marks the card as synced", append(LUPANIELE_SYNCED, body, length));
    }
    printf("the log reads back as\n");
    read_back();
    request(berit, "reads the translation", lupaniele_read_translation(CARD, NORWEGIAN));
}

/* A text of words and a drop, in tenths of a degree. */
static size_t text_of(uint8_t *text, const char *words, uint8_t unit, unsigned degrees) {
    struct lupaniele_writer writer;
    lupaniele_text_start(&writer, text, ROOM);
    lupaniele_text_words(&writer, words, strlen(words));
    lupaniele_text_drop(&writer, unit, (uint16_t)(TENTHS * degrees));
    return lupaniele_text_finish(&writer);
}

/* Do both languages say the same drop? */
static void compared(unsigned celsius, unsigned fahrenheit) {
    static uint8_t english[ROOM], norwegian[ROOM];
    size_t first = text_of(english, "drop at", LUPANIELE_CELSIUS, celsius);
    size_t second = text_of(norwegian, "slipp ved", LUPANIELE_FAHRENHEIT, fahrenheit);
    uint64_t place;
    uint8_t number = lupaniele_agree(english, first, norwegian, second, &place);
    struct lupaniele_reader reader;
    struct lupaniele_step step;
    printf("%u C and %u F are compared\n", celsius, fahrenheit);
    say("    the texts", "agree or not", number);
    lupaniele_reader_start(&reader, english, first);
    while (number == LUPANIELE_UNMATCHED && lupaniele_reader_next(&reader, &step)) {
        if (step.place == place) {
            printf("    step %u: %u.%u %c\n", step.path[0], step.tenths / TENTHS, step.tenths % TENTHS, step.unit);
        }
    }
}

/* From version 1 to version 2: the translation stays, and a second language comes to it. */
static void more_languages(const struct desk *berit, const char *german) {
    struct lupaniele_command command;
    struct lupaniele_card card;
    uint64_t fields[LUPANIELE_FIELDS];
    size_t size;
    say("the image", "is converted", lupaniele_convert(image, sizeof image, larger, sizeof larger));
    if (!lupaniele_card_at(larger, sizeof larger, CARD, NORWEGIAN, &card)) {
        return;
    }
    printf("    edition %u, Norwegian of %u bytes from edition %u\n", card.edition, card.translation_length,
           card.translated_from);
    command = lupaniele_write_translation(CARD, GERMAN, card.edition, german, strlen(german));
    command = lupaniele_exclusive(command, berit->pair);
    size = lupaniele_command_bytes_v2(&command, bytes, sizeof bytes);
    say(berit->name, "writes German",
        lupaniele_answer_v2(larger, sizeof larger, bytes, size, reply, sizeof reply, fields));
    if (lupaniele_card_at(larger, sizeof larger, CARD, GERMAN, &card)) {
        printf("    German: %.*s\n", (int)card.translation_length, (const char *)card.translation);
    }
}

int main(void) {
    static char english[ENGLISH_LENGTH + 1], norwegian[NORWEGIAN_LENGTH + 1];
    static struct desk anna = {.name = "Anna", .desk = ANNA, .start = START};
    static struct desk berit = {.name = "Berit", .desk = BERIT, .start = START};
    memset(english, 'e', ENGLISH_LENGTH);
    memset(norwegian, 'n', NORWEGIAN_LENGTH);
    if (say("the image", "is made", lupaniele_make(image, sizeof image, CARDS, ROOM)) != LUPANIELE_ACCEPTED) {
        return 1;
    }
    lupaniele_queue_clear(&queue, PLACES);
    both_languages(&anna, &berit, english, norwegian);
    logged(&berit, english, norwegian);
    recovered(&berit);
    compared(205, 401);
    compared(205, 402);
    more_languages(&berit, "deutsch");
    return 0;
}
