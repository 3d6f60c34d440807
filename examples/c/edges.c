/* What the builders do at their edges: a text of every length that a command can name, one byte more, a buffer one byte
   too short; and that a command, a card and a structured text read back as what was written. */
#include <stdio.h>
#include <string.h>

#include <lupaniele.h>

enum {
    CARDS = 3,
    ROOM = 1024,
    CARD = 2,
    T = 5,
    DESK = 600,
    START = 700,
    SHORT = 255,
    LONG = 256,
    MANY = 70000,
    OTHER = 900
};
enum { MOST = LUPANIELE_MOST_TEXT, MOST_UPDATE = LUPANIELE_MOST_TEXT - LUPANIELE_UPDATE_BODY(0) };

static uint8_t text[MOST + 1], bytes[LUPANIELE_COMMAND_SIZE_V2 + MOST], image[LUPANIELE_IMAGE_SIZE(CARDS, ROOM)];
static uint8_t larger[LUPANIELE_IMAGE_SIZE_V2(CARDS, ROOM)], reply[ROOM];
static uint64_t fields[LUPANIELE_FIELDS];

/* The sizes of a write in both versions. */
static void sizes(const char *what, size_t length, uint8_t language) {
    struct lupaniele_command command = lupaniele_write_translation(CARD, language, 1, text, length);
    printf("%s: %u bytes, in version 2 %u\n", what, (unsigned)lupaniele_command_size(&command),
           (unsigned)lupaniele_command_size_v2(&command));
}

/* A command with everything in it reads back as itself. */
static bool same(const struct lupaniele_command *one, const struct lupaniele_command *other) {
    return one->act == other->act && one->mode == other->mode && one->language == other->language &&
           one->card == other->card && one->edition == other->edition && one->verifier.s == other->verifier.s &&
           one->verifier.x == other->verifier.x && one->update.s == other->update.s &&
           one->update.x == other->update.x && one->expected.desk == other->expected.desk &&
           one->expected.transaction == other->expected.transaction && one->next.desk == other->next.desk &&
           one->next.transaction == other->next.transaction && one->length == other->length &&
           (one->length == 0 || memcmp(one->text, other->text, one->length) == 0);
}

/* Sends a command to the image of a version, after it was read back; what the store replies and what the card has. */
static void sent(const char *what, bool second, const struct lupaniele_command *command) {
    struct lupaniele_command back;
    size_t size = second ? lupaniele_command_bytes_v2(command, bytes, sizeof bytes)
                         : lupaniele_command_bytes(command, bytes, sizeof bytes);
    bool read = second ? lupaniele_command_read_v2(bytes, size, &back) : lupaniele_command_read(bytes, size, &back);
    bool less =
        second ? lupaniele_command_read_v2(bytes, size - 1, &back) : lupaniele_command_read(bytes, size - 1, &back);
    uint8_t *store = second ? larger : image;
    size_t length = second ? sizeof larger : sizeof image;
    uint8_t number = second ? lupaniele_answer_v2(store, length, bytes, size, reply, sizeof reply, fields)
                            : lupaniele_answer(store, length, bytes, size, reply, sizeof reply, fields);
    struct lupaniele_entry entry = lupaniele_entry_of(fields);
    struct lupaniele_card card;
    printf("%s: %s, %s\n", what, lupaniele_name(number),
           read && !less && same(command, &back) ? "reads back as itself" : "READS BACK AS ANOTHER");
    if (lupaniele_card_at(store, length, CARD, command->language, &card)) {
        bool replied = entry.pair.s == card.pair.s && entry.pair.x == card.pair.x &&
                       entry.mark.desk == card.mark.desk && entry.mark.transaction == card.mark.transaction &&
                       entry.edition == card.edition && entry.translated_from == card.translated_from;
        printf("    s %u.%u.%u, x %u.%u.%u, mark %u %u, edition %u, from %u, %u and %u bytes, %s\n",
               (unsigned)lupaniele_stamp_t(card.pair.s), lupaniele_stamp_desk(card.pair.s),
               lupaniele_stamp_start(card.pair.s), (unsigned)lupaniele_stamp_t(card.pair.x),
               lupaniele_stamp_desk(card.pair.x), lupaniele_stamp_start(card.pair.x), card.mark.desk,
               (unsigned)card.mark.transaction, card.edition, card.translated_from, card.original_length,
               card.translation_length, replied ? "as replied" : "NOT AS REPLIED");
        printf("    its texts are %s\n", memcmp(card.original, text, card.original_length) == 0 &&
                                                 memcmp(card.translation, text, card.translation_length) == 0
                                             ? "what was written"
                                             : "OTHERS");
    }
}

/* Writes a text of so many bytes and reads it back. */
static void written(const char *what, size_t length) {
    const uint64_t stamp = lupaniele_stamp(T, DESK, START);
    const struct lupaniele_pair pair = lupaniele_pair_of(stamp, stamp);
    struct lupaniele_command command = lupaniele_exclusive(lupaniele_write_original(CARD, text, length), pair);
    sent(what, false, &command);
    command = lupaniele_exclusive(lupaniele_read_original(CARD), pair);
    sent("    read", false, &command);
    printf("    %u bytes are read, %s\n", lupaniele_entry_of(fields).length,
           memcmp(reply, text, lupaniele_entry_of(fields).length) == 0 ? "as written" : "OTHERS");
}

/* A session with marks, then another opened inside a command, in a language. */
static void sessions(bool second, uint8_t language) {
    const struct lupaniele_pair one = lupaniele_pair_of(lupaniele_stamp(1, DESK, 1), lupaniele_stamp(2, DESK, 2));
    const struct lupaniele_pair two = lupaniele_pair_of(lupaniele_stamp(3, 5, 6), lupaniele_stamp(4, 7, 8));
    struct lupaniele_command command = lupaniele_exclusive(lupaniele_write_original(CARD, text, LONG), one);
    command = lupaniele_leaving(command, lupaniele_mark_of(DESK, MANY));
    sent(second ? "version 2, an original" : "version 1, an original", second, &command);
    command = lupaniele_write_translation(CARD, language, 1, text, LONG + 1);
    command = lupaniele_opening(command, LUPANIELE_EXCLUSIVE, one, two);
    command = lupaniele_expecting(command, lupaniele_mark_of(DESK, MANY - 1));
    command = lupaniele_leaving(command, lupaniele_mark_of(OTHER, MANY + 1));
    sent("an older mark expected", second, &command);
    command = lupaniele_expecting(command, lupaniele_mark_of(DESK, MANY));
    sent("the mark expected", second, &command);
    command = lupaniele_exclusive(lupaniele_read_translation(CARD, language), two);
    command = lupaniele_expecting(command, lupaniele_mark_of(OTHER, MANY + 1));
    sent("a read, which leaves no mark", second, &command);
}

/* A write in buffers that are just long enough, and one byte too short, in both versions. */
static void room(size_t length) {
    struct lupaniele_command write = lupaniele_write_original(CARD, text, length);
    size_t size = LUPANIELE_COMMAND_SIZE + length, size_v2 = LUPANIELE_COMMAND_SIZE_V2 + length;
    bytes[0] = 0;
    printf("a text of %u bytes, one byte too short: %u", (unsigned)length,
           (unsigned)lupaniele_command_bytes(&write, bytes, size - 1));
    printf(", %u, %s; ", (unsigned)lupaniele_command_bytes_v2(&write, bytes, size_v2 - 1),
           bytes[0] == 0 ? "none written" : "WRITTEN");
    printf("just long enough: %u", (unsigned)lupaniele_command_bytes(&write, bytes, size));
    printf(", %u", (unsigned)lupaniele_command_bytes_v2(&write, bytes, size_v2));
    printf(", %s\n", bytes[0] == 0 ? "none written" : "written");
}

/* Bodies of records in buffers that are just long enough, and one byte too short. */
static void bodies(void) {
    printf("a begin: %u, %u\n", (unsigned)lupaniele_begin_body(MANY, bytes, LUPANIELE_TRANSACTION_BODY),
           (unsigned)lupaniele_begin_body(MANY, bytes, LUPANIELE_TRANSACTION_BODY - 1));
    printf("a synced: %u, %u\n", (unsigned)lupaniele_synced_body(CARD, MANY, bytes, LUPANIELE_SYNCED_BODY),
           (unsigned)lupaniele_synced_body(CARD, MANY, bytes, LUPANIELE_SYNCED_BODY - 1));
    printf(
        "an update: %u, %u\n",
        (unsigned)lupaniele_update_body(CARD, LUPANIELE_SIDE_ORIGINAL, text, LONG, bytes, LUPANIELE_UPDATE_BODY(LONG)),
        (unsigned)lupaniele_update_body(CARD, LUPANIELE_SIDE_ORIGINAL, text, LONG, bytes,
                                        LUPANIELE_UPDATE_BODY(LONG) - 1));
    printf("the longest update: %u, one byte more: %u\n",
           (unsigned)lupaniele_update_body(CARD, LUPANIELE_SIDE_ORIGINAL, text, MOST_UPDATE, bytes, sizeof bytes),
           (unsigned)lupaniele_update_body(CARD, LUPANIELE_SIDE_ORIGINAL, text, MOST_UPDATE + 1, bytes, sizeof bytes));
}

/* What an image's header says. */
static void header(const char *what, const uint8_t *store, size_t length) {
    printf("%s: version %u, %u cards, room %u\n", what, lupaniele_image_version(store, length),
           lupaniele_image_cards(store, length), lupaniele_image_room(store, length));
}

/* Which cards and languages an image has. */
static void cards(const char *what, const uint8_t *store, size_t length) {
    struct lupaniele_card card;
    unsigned last = 0, languages = 0;
    while (lupaniele_card_at(store, length, (uint16_t)last, LUPANIELE_FIRST_LANGUAGE, &card)) {
        last++;
    }
    while (lupaniele_card_at(store, length, 0, (uint8_t)languages, &card)) {
        languages++;
    }
    printf("%s: %u cards, %u languages\n", what, last, languages);
}

/* A desk learns each stamp by itself, and keeps what it knows where it has no proposal. */
static void known(void) {
    struct lupaniele_pair pair = lupaniele_pair_of(5, 3), proposed = pair;
    uint8_t number;
    lupaniele_known_learn(&pair, lupaniele_pair_of(4, 9));
    printf("known: %u, %u\n", (unsigned)pair.s, (unsigned)pair.x);
    number = lupaniele_known_propose(DESK, START, &pair, T, &proposed);
    printf("no such mode: %s, known %u, %u, proposed %u, %u\n", lupaniele_name(number), (unsigned)pair.s,
           (unsigned)pair.x, (unsigned)proposed.s, (unsigned)proposed.x);
}

/* Structured texts that do not fit, and the deepest that does. */
static void texts(void) {
    struct lupaniele_writer writer;
    uint64_t place;
    size_t length;
    unsigned i;
    lupaniele_text_start(&writer, bytes, sizeof bytes);
    for (i = 1; i < LUPANIELE_DEEPEST; i++) {
        lupaniele_text_open(&writer);
    }
    lupaniele_text_words(&writer, text, LUPANIELE_MOST_WORDS);
    for (i = 1; i < LUPANIELE_DEEPEST; i++) {
        lupaniele_text_close(&writer);
    }
    length = lupaniele_text_finish(&writer);
    printf("%u sections: %u bytes, %s\n", LUPANIELE_DEEPEST, (unsigned)length,
           lupaniele_name(lupaniele_agree(bytes, length, bytes, length, &place)));
    lupaniele_text_words(&writer, text, LUPANIELE_MOST_WORDS + 1);
    printf("words of %u bytes: %u\n", LUPANIELE_MOST_WORDS + 1, (unsigned)lupaniele_text_finish(&writer));
    lupaniele_text_start(&writer, bytes, sizeof bytes);
    for (i = 0; i < LUPANIELE_DEEPEST; i++) {
        lupaniele_text_open(&writer);
    }
    printf("%u sections: %u\n", LUPANIELE_DEEPEST + 1, (unsigned)lupaniele_text_finish(&writer));
    lupaniele_text_start(&writer, bytes, sizeof bytes);
    for (i = 0; i < LUPANIELE_MOST_STEPS; i++) {
        lupaniele_text_drop(&writer, LUPANIELE_CELSIUS, 0);
    }
    printf("%u steps: %u bytes\n", LUPANIELE_MOST_STEPS, (unsigned)lupaniele_text_finish(&writer));
    lupaniele_text_drop(&writer, LUPANIELE_CELSIUS, 0);
    printf("one more: %u\n", (unsigned)lupaniele_text_finish(&writer));
    lupaniele_text_start(&writer, bytes, length);
    lupaniele_text_words(&writer, text, LUPANIELE_MOST_WORDS);
    lupaniele_text_close(&writer);
    printf("closed and not opened: %u\n", (unsigned)lupaniele_text_finish(&writer));
}

int main(void) {
    size_t i;
    for (i = 0; i < sizeof text; i++) {
        text[i] = (uint8_t)(i % 251 + 1);
    }
    if (lupaniele_make(image, sizeof image, CARDS, ROOM) != LUPANIELE_ACCEPTED ||
        lupaniele_make_v2(larger, sizeof larger, CARDS, ROOM) != LUPANIELE_ACCEPTED) {
        return 1;
    }
    sizes("no text", 0, LUPANIELE_FIRST_LANGUAGE);
    sizes("the longest text", MOST, LUPANIELE_FIRST_LANGUAGE);
    sizes("one byte more", MOST + 1, LUPANIELE_FIRST_LANGUAGE);
    sizes("a second language", 0, LUPANIELE_SECOND_LANGUAGE);
    room(LONG);
    room(MOST + 1);
    bodies();
    written("nothing", 0);
    written("1 byte", 1);
    written("255 bytes", SHORT);
    written("256 bytes", LONG);
    written("as much as there is room for", ROOM);
    written("one byte more", ROOM + 1);
    written("the longest text", MOST);
    sessions(true, LUPANIELE_FOURTH_LANGUAGE);
    if (lupaniele_make(image, sizeof image, CARDS, ROOM) == LUPANIELE_ACCEPTED) {
        sessions(false, LUPANIELE_FIRST_LANGUAGE);
    }
    header("an image", image, sizeof image);
    header("an image of version 2", larger, sizeof larger);
    header("a header alone", image, LUPANIELE_IMAGE_HEADER);
    header("a header cut short", image, LUPANIELE_IMAGE_HEADER - 1);
    cards("the image", image, sizeof image);
    cards("the image of version 2", larger, sizeof larger);
    cards("the image, a byte short", image, sizeof image - 1);
    known();
    texts();
    return 0;
}
