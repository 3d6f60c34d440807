/* Lupaniele, a store of cards, proved: a C library for x86-64. Link it with `pkg-config --cflags --libs lupaniele`.

   Rules are those of docs/RULES.md. First come numbers, sizes and places by name, then the exported functions, then
   builders and readers of what they take and give: commands, images, queues, logs, structured texts. No program needs a
   number or an offset of its own. The builders decide nothing: what they build is judged by the exported functions.

   Every exported function takes any values, returns, allocates nothing and keeps nothing. This is what a caller owes:

   - Pointers. A pointer and the length behind it are a lent buffer. With length 0 it may be NULL, since nothing is read
     or written there (the gate tries it; the proofs speak of buffers that have an address). Arrays of a fixed size and
     numbers that are written are never NULL. A buffer of 64-bit numbers is aligned, and its length counts numbers.
   - Overlap. What is written overlaps nothing else that is lent to the same call. What is only read may overlap.
   - Threads. Nobody else writes what is lent, and nobody reads what is written, until the call returns. That is all:
     calls on different buffers may run at the same time.
   - Stack. LUPANIELE_STACK_.. below has each function's need. lupaniele_output NEEDS 68 KB: mind small threads.
   - Refusals. A number other than LUPANIELE_ACCEPTED writes nothing but what is said of it.

   The library calls memcpy, memmove and memset, and nothing else. */
#ifndef LUPANIELE_H
#define LUPANIELE_H

#include <stdbool.h>
#include <stddef.h>
#include <stdint.h>
#include <string.h>

/* The version of this header and of the library; the soname has the first number. */
#define LUPANIELE_VERSION       "0.1.0"
#define LUPANIELE_VERSION_MAJOR 0
#define LUPANIELE_VERSION_MINOR 1
#define LUPANIELE_VERSION_PATCH 0

/* An answer that has to be looked at. */
#if defined(__GNUC__)
#define LUPANIELE_LOOK __attribute__((warn_unused_result))
#else
#define LUPANIELE_LOOK
#endif

/* ---- Numbers, by name ---- */

/* numbers.txt: made by tools/numbers; change include/numbers.txt. */
/* The numbers (docs/RULES.md, section 5). */
enum lupaniele_number {
    LUPANIELE_ACCEPTED = 0,            /* rule 5.1: accepted */
    LUPANIELE_MALFORMED = 1,           /* rule 3.3: malformed */
    LUPANIELE_NO_CARD = 2,             /* rule 4.1: no such card */
    LUPANIELE_STALE = 3,               /* rule 4.2: stale */
    LUPANIELE_MARK_DIFFERS = 4,        /* rule 4.3: commit mark does not pass */
    LUPANIELE_PAYLOAD_LONG = 5,        /* rule 4.1: text longer than the room */
    LUPANIELE_EDITION_WRONG = 6,       /* rule 4.6: translation behind */
    LUPANIELE_EDITIONS_SPENT = 7,      /* rule 4.1: no edition left */
    LUPANIELE_REPLY_SHORT = 8,         /* rule 4.1: buffer too short */
    LUPANIELE_UNSOUND = 9,             /* rule 2.6: image not sound */
    LUPANIELE_BAD_QUEUE = 10,          /* rule 7.4: bad queue */
    LUPANIELE_PAIR_DENIED = 11,        /* rule 7.7: denied */
    LUPANIELE_STANDS_ALREADY = 12,     /* rule 7.9: stands already */
    LUPANIELE_QUEUE_FULL = 13,         /* rule 7.6: queue full */
    LUPANIELE_NOT_MADE = 14,           /* rule 2.7: no such image can be made */
    LUPANIELE_NOT_STANDING = 15,       /* rule 7.12: does not stand */
    LUPANIELE_NO_STAMP_LEFT = 16,      /* rule 10.6: no stamp left */
    LUPANIELE_TOO_FAR = 17,            /* rule 4.9: from too far ahead */
    LUPANIELE_FIRST_ILL = 18,          /* rule 12.1: first text ill formed */
    LUPANIELE_SECOND_ILL = 19,         /* rule 12.1: second text ill formed */
    LUPANIELE_UNMATCHED = 20,          /* rule 12.10: texts differ */
    LUPANIELE_LEASE_OUT_OF_RANGE = 21, /* rule 13.2: lease out of range */
    LUPANIELE_HISTORY_FULL = 22,       /* rule 14.2: history full */
    LUPANIELE_BAD_LOG = 23,            /* rule 11.6: bad log or record */
    LUPANIELE_LOG_FULL = 24,           /* rule 11.11: log full */
    LUPANIELE_LEASE_RUNS = 25,         /* rule 13.4: lease still runs */
    LUPANIELE_APPEND_CUT = 26,         /* rule 11.11: append cut */
    LUPANIELE_NUMBERS = 27             /* how many there are */
};

/* A number in a few words: lupaniele_name(LUPANIELE_STALE) is "stale". */
static inline const char *lupaniele_name(uint8_t number) {
    static const char *const words[LUPANIELE_NUMBERS] = {
        "accepted",
        "malformed",
        "no such card",
        "stale",
        "commit mark does not pass",
        "text longer than the room",
        "translation behind",
        "no edition left",
        "buffer too short",
        "image not sound",
        "bad queue",
        "denied",
        "stands already",
        "queue full",
        "no such image can be made",
        "does not stand",
        "no stamp left",
        "from too far ahead",
        "first text ill formed",
        "second text ill formed",
        "texts differ",
        "lease out of range",
        "history full",
        "bad log or record",
        "log full",
        "lease still runs",
        "append cut",
    };
    return number < LUPANIELE_NUMBERS ? words[number] : "no number of the store";
}

/* The rule of docs/RULES.md that says when the number is given. */
static inline const char *lupaniele_rule(uint8_t number) {
    static const char *const words[LUPANIELE_NUMBERS] = {
        "5.1",
        "3.3",
        "4.1",
        "4.2",
        "4.3",
        "4.1",
        "4.6",
        "4.1",
        "4.1",
        "2.6",
        "7.4",
        "7.7",
        "7.9",
        "7.6",
        "2.7",
        "7.12",
        "10.6",
        "4.9",
        "12.1",
        "12.1",
        "12.10",
        "13.2",
        "14.2",
        "11.6",
        "11.11",
        "13.4",
        "11.11",
    };
    return number < LUPANIELE_NUMBERS ? words[number] : "5.1";
}

/* What the number means, as a sentence. */
static inline const char *lupaniele_meaning(uint8_t number) {
    static const char *const words[LUPANIELE_NUMBERS] = {
        "What was asked for is done.",
        "What was sent breaks its layout, or lacks a mode, a desk or a stamp that it must have.",
        "The image has no card of that number.",
        "A command with a newer pair was accepted first, so the pair that this one relies on is too old.",
        "The stored commit mark is another desk's, or of a later transaction than the one expected.",
        "The text is longer than the room that the image has for one.",
        "The translation was not made from the original as it stands, or names another edition than the stored one.",
        "The original was written 65,535 times, and its edition can grow no further.",
        "The text is longer than the lent reply buffer, or a length is beyond its buffer.",
        "The bytes are no sound image of the version that was called.",
        "The queue has too few or too many places, or a count, an entry or a largest pair that no requests leave.",
        "A newer pair was accepted in this queue.",
        "The desk stands in the queue, and this is no upgrade from shared to exclusive.",
        "Every place of the queue is taken.",
        "The number of cards, the room or the length of the lent bytes is none that an image has.",
        "This desk, with this start, does not stand in the queue.",
        "A new stamp of this desk would need a T above the largest there is.",
        "A stamp's T is more than 1,000,000 above the stored one, as from a broken clock.",
        "The first text is not one whole section, as a structured text is.",
        "The second text is not one whole section, as a structured text is.",
        "A step of one text has no match in the other: its kind, its drop or its place differs.",
        "The lease's period or drift, or one of the two times, is outside its limits or no number.",
        "With one more accepted command the history would have more commands or payload bytes than it keeps.",
        "The log breaks its layout or its order, or the record to append would.",
        "The log has all its records, or no room for this one behind the last.",
        "The desk's lease, lengthened by the drift of clocks, is not over.",
        "The stores ended before the append was whole, and the log reads back as before it.",
    };
    return number < LUPANIELE_NUMBERS ? words[number] : "The store has no such number.";
}

/* What a desk that gets the number may do now, as a sentence. */
static inline const char *lupaniele_advice(uint8_t number) {
    static const char *const words[LUPANIELE_NUMBERS] = {
        "Go on, and learn the pair that came with the answer, if one did.",
        "Mend what built it: the same again gets the same answer.",
        "Name a card below the image's number of cards.",
        "Learn the pair of the answer, propose a new one, read the card again, and decide anew.",
        "Read the card under the mark of the answer, and expect that mark if you send again.",
        "Shorten the text, or keep the card in an image with more room.",
        "Show no translation; translate the original of the answer's edition, and write that.",
        "Keep its texts on a card that has editions left.",
        "Lend as many bytes as the image has room for a text, and ask again.",
        "Serve nothing from it: call the functions of its own version, or go back to a copy that is sound.",
        "Begin again with an empty queue.",
        "Learn the largest pair of the answer, propose again, and ask with that.",
        "Use the place that it has, or leave it first.",
        "Ask again once a desk has left.",
        "Choose numbers within the limits, and lend exactly the bytes that they need.",
        "Nothing: it has no place to give back.",
        "Keep the texts on a card whose stamps are not spent.",
        "Begin again under a new start number, learn the pair of the answer, and propose from that.",
        "Mend the first text, then compare.",
        "Mend the second text, then compare.",
        "Look at the step at the place of the answer, and mend the text that is wrong.",
        "Mend the lease or the clock: until then nobody leaves by it.",
        "Send it to a store with an image, which has no such limit.",
        "Mend the record; where the log itself is bad, recover from a copy that is good.",
        "Write every committed update to its card, then begin a new log.",
        "Wait, and try again at a later time.",
        "Append the record again, with stores enough for all of it.",
    };
    return number < LUPANIELE_NUMBERS ? words[number] : "Look for another program between you and the store.";
}
/* numbers.txt: end */

/* What a command does (rule 3.2). */
enum lupaniele_act {
    LUPANIELE_READ_ORIGINAL = 1,     /* commands::READ_ORIGINAL */
    LUPANIELE_READ_TRANSLATION = 2,  /* commands::READ_TRANSLATION */
    LUPANIELE_WRITE_ORIGINAL = 3,    /* commands::WRITE_ORIGINAL */
    LUPANIELE_WRITE_TRANSLATION = 4, /* commands::WRITE_TRANSLATION */
    LUPANIELE_VERIFY = 5             /* commands::VERIFY: carries its stamps and does nothing else */
};

/* The mode of a command and of an ask (rule 1.4). */
enum lupaniele_mode {
    LUPANIELE_SHARED = 1,   /* stamps::SHARED */
    LUPANIELE_EXCLUSIVE = 2 /* stamps::EXCLUSIVE */
};

/* The languages of the translations (rule 15.1): in version 1 the first alone. */
enum lupaniele_language {
    LUPANIELE_FIRST_LANGUAGE = 0,
    LUPANIELE_SECOND_LANGUAGE = 1,
    LUPANIELE_THIRD_LANGUAGE = 2,
    LUPANIELE_FOURTH_LANGUAGE = 3, /* commands::MOST_LANGUAGE */
    LUPANIELE_LANGUAGES = 4
};

/* What a desk is asked to show (rule 6.2). */
enum lupaniele_asked { LUPANIELE_ASKED_ORIGINAL = 0, LUPANIELE_ASKED_TRANSLATION = 1 };

/* The kinds of records in a log (rule 11.3). */
enum lupaniele_kind {
    LUPANIELE_BEGIN = 1,  /* redo_log::BEGIN */
    LUPANIELE_UPDATE = 2, /* redo_log::UPDATE */
    LUPANIELE_COMMIT = 3, /* redo_log::COMMIT */
    LUPANIELE_SYNCED = 4  /* redo_log::SYNCED */
};

/* The steps of a transaction for a card (rule 16.25). */
enum lupaniele_next {
    LUPANIELE_STEP_NOTHING = 0, /* transaction_steps::NOTHING */
    LUPANIELE_STEP_LOOK = 1,    /* transaction_steps::LOOK: a command without a mark of the desk's */
    LUPANIELE_STEP_PREPARE = 2, /* transaction_steps::PREPARE: from no mark to the desk's */
    LUPANIELE_STEP_READY = 3,   /* transaction_steps::READY: it waits for the commit */
    LUPANIELE_STEP_WRITE = 4,   /* transaction_steps::WRITE: a line of the log, under the desk's mark */
    LUPANIELE_STEP_RELEASE = 5, /* transaction_steps::RELEASE: from the desk's mark to none */
    LUPANIELE_STEP_NOTE = 6,    /* transaction_steps::NOTE: a synced record */
    LUPANIELE_STEP_WAIT = 7,    /* transaction_steps::WAIT: the card bears another desk's mark */
    LUPANIELE_STEP_BAD = 8      /* transaction_steps::BAD: the log is not good, or the desk is 0 */
};

/* The side of a card that an update writes (rule 11.4). */
enum lupaniele_side { LUPANIELE_SIDE_ORIGINAL = 1, LUPANIELE_SIDE_TRANSLATION = 2 };

/* The seven reply fields, by place (rule 4.8). */
enum lupaniele_field {
    LUPANIELE_FIELD_S = 0,
    LUPANIELE_FIELD_X = 1,
    LUPANIELE_FIELD_COMMIT_DESK = 2,
    LUPANIELE_FIELD_TRANSACTION = 3,
    LUPANIELE_FIELD_EDITION = 4,
    LUPANIELE_FIELD_TRANSLATED_FROM = 5,
    LUPANIELE_FIELD_LENGTH = 6
};

/* The four fields of a queue's answer, by place (rule 7.14). */
enum lupaniele_queue_field {
    LUPANIELE_QUEUE_HOLDS = 0,
    LUPANIELE_QUEUE_LARGEST_S = 1,
    LUPANIELE_QUEUE_LARGEST_X = 2,
    LUPANIELE_QUEUE_LOOKED_AT = 3
};

/* What a queue keeps beside its places, by place (rule 7.1). */
enum lupaniele_kept { LUPANIELE_KEPT_COUNT = 0, LUPANIELE_KEPT_LARGEST_S = 1, LUPANIELE_KEPT_LARGEST_X = 2 };

/* The steps of a structured text (rule 12.3), and the units of a drop. */
enum lupaniele_step_kind {
    LUPANIELE_WORDS = 2,  /* texts::WORDS */
    LUPANIELE_DROP = 3,   /* texts::DROP */
    LUPANIELE_SECTION = 4 /* texts::SECTION */
};
enum lupaniele_unit {
    LUPANIELE_CELSIUS = 67,   /* text_drops::CELSIUS */
    LUPANIELE_FAHRENHEIT = 70 /* text_drops::FAHRENHEIT */
};

/* What a desk has seen of a card (rule 16.24): so many numbers. */
#define LUPANIELE_SEEN 4

/* No stamp (rule 1.2). */
#define LUPANIELE_NO_STAMP 0

/* ---- Sizes ---- */

/* An image: its cards, the room for a text, its bytes (rules 2.2 and 15.2). */
#define LUPANIELE_MOST_CARDS    128   /* image::MOST_CARDS */
#define LUPANIELE_LEAST_ROOM    16    /* image::LEAST_ROOM */
#define LUPANIELE_MOST_ROOM     1024  /* image::MOST_ROOM */
#define LUPANIELE_ROOM_STEP     16    /* image::ROOM_STEP */
#define LUPANIELE_MOST_IMAGE    65536 /* image::MOST_BYTES */
#define LUPANIELE_IMAGE_HEADER  16    /* image::HEADER */
#define LUPANIELE_ENTRY_SIZE    32    /* rule 2.4 */
#define LUPANIELE_ENTRY_SIZE_V2 48    /* rule 15.3 */
#define LUPANIELE_IMAGE_SIZE(cards, room) \
    ((size_t)LUPANIELE_IMAGE_HEADER + (size_t)(cards) * ((size_t)LUPANIELE_ENTRY_SIZE + (size_t)2 * (size_t)(room)))
#define LUPANIELE_IMAGE_SIZE_V2(cards, room) \
    ((size_t)LUPANIELE_IMAGE_HEADER + (size_t)(cards) * ((size_t)LUPANIELE_ENTRY_SIZE_V2 + (size_t)5 * (size_t)(room)))

/* A command in front of its text, and the longest text that its length can name (rules 3.1 and 15.6). */
#define LUPANIELE_COMMAND_SIZE    52 /* formats::FIXED_V1 */
#define LUPANIELE_COMMAND_SIZE_V2 68
#define LUPANIELE_MOST_TEXT       65535

/* The reply fields; in a run's line they stand behind the number. */
#define LUPANIELE_FIELDS 7
#define LUPANIELE_LINE   8 /* store::PER_LINE */

/* A queue: its places, what it keeps, its answer. */
#define LUPANIELE_PLACES       32 /* lock_queue::MOST_PLACES */
#define LUPANIELE_KEPT         3
#define LUPANIELE_QUEUE_FIELDS 4

/* A log: its least and most bytes, its records, its bodies (rules 11.1 and 11.4). An append makes its stores of one
   byte in this order: the body, then the line, then the count (rule 11.10). Who keeps a log in a file appends three
   times, with LUPANIELE_STORES_BODY, _LINE and _ALL of the body's length, and syncs the file behind each: the first two
   answer LUPANIELE_APPEND_CUT. */
#define LUPANIELE_LEAST_LOG                2201
#define LUPANIELE_MOST_LOG                 65536
#define LUPANIELE_MOST_RECORDS             200
#define LUPANIELE_TRANSACTION_BODY         4
#define LUPANIELE_UPDATE_BODY(length)      ((size_t)3 + (size_t)(length))
#define LUPANIELE_SYNCED_BODY              6
#define LUPANIELE_STORES_BODY(body_length) ((uint64_t)(body_length))
#define LUPANIELE_STORES_LINE(body_length) ((uint64_t)(body_length) + 11)
#define LUPANIELE_STORES_ALL(body_length)  ((uint64_t)(body_length) + 12)

/* The history engine's bytes and limits (rules 14.2 and 14.3). */
#define LUPANIELE_HISTORY_SIZE          43168 /* history::SIZE */
#define LUPANIELE_HISTORY_MOST_COMMANDS 200   /* history::MOST_KEPT */
#define LUPANIELE_HISTORY_MOST_PAYLOAD  32768 /* history::MOST_PAYLOAD */

/* The program's longest input, and the bytes that its output may take (rules 8.3 and 8.6). */
#define LUPANIELE_MOST_INPUT  65536  /* program::MOST_INPUT */
#define LUPANIELE_OUTPUT_SIZE 238518 /* program::MOST_OUTPUT */

/* Structured texts: the byte that a section begins with; sections within one another; steps of a section and bytes of
   words; tenths of a degree. */
#define LUPANIELE_SECTION_BEGINS 1 /* texts::SECTION_BEGINS */
#define LUPANIELE_DEEPEST        8 /* texts::DEEPEST */
#define LUPANIELE_MOST_STEPS     255
#define LUPANIELE_MOST_WORDS     255

/* The stack that a call needs at most, in bytes, its return address counted (tools/stack finds it in the object code).
   LUPANIELE_STACK_MOST is for all but lupaniele_output. memcpy, memmove and memset are the C library's: they count as a
   return address, and where the dynamic linker looks one up at its first call, that takes some KB more of its own. */
#define LUPANIELE_STACK_MOST            8192
#define LUPANIELE_STACK_AGREE           2048
#define LUPANIELE_STACK_ANSWER          1024
#define LUPANIELE_STACK_ANSWER_V2       1024
#define LUPANIELE_STACK_ASK             8192
#define LUPANIELE_STACK_CONVERT         256
#define LUPANIELE_STACK_END             256
#define LUPANIELE_STACK_END_V2          256
#define LUPANIELE_STACK_HEARD           256
#define LUPANIELE_STACK_HISTORY_ANSWER  1024
#define LUPANIELE_STACK_LAPSE           8192
#define LUPANIELE_STACK_LEARN           256
#define LUPANIELE_STACK_LEAVE           8192
#define LUPANIELE_STACK_LOG_APPEND      256
#define LUPANIELE_STACK_LOG_BEGIN_AGAIN 256
#define LUPANIELE_STACK_LOG_CHECK       256
#define LUPANIELE_STACK_MAKE            256
#define LUPANIELE_STACK_MAKE_V2         256
#define LUPANIELE_STACK_NEXT            256
#define LUPANIELE_STACK_NEXT_STEP       256
#define LUPANIELE_STACK_NEXT_V2         256
#define LUPANIELE_STACK_OUTPUT          69632
#define LUPANIELE_STACK_PROPOSE         256
#define LUPANIELE_STACK_RECOVER         1024
#define LUPANIELE_STACK_RUN             1024
#define LUPANIELE_STACK_RUN_V2          1024
#define LUPANIELE_STACK_SHOWN           256
#define LUPANIELE_STACK_SOUND           256
#define LUPANIELE_STACK_SOUND_V2        256

/* ---- The exported functions ---- */

#ifdef __cplusplus
extern "C" {
#endif

/* Makes a fresh image of `cards` cards (N) with room `room` (C) in the whole of image (rules 2.2 and 2.7): 0; or 14,
   and nothing is written. */
LUPANIELE_LOOK uint8_t lupaniele_make(uint8_t *image, size_t image_length, uint64_t cards, uint64_t room);

/* Whether the bytes are a sound image (rule 2.6). */
LUPANIELE_LOOK bool lupaniele_sound(const uint8_t *image, size_t image_length);

/* One request (rule 4.1): the number, 0 to 9 or 17. image: any bytes, written where the number is 0 (rules 4.4
   and 4.5). fields: by their places in enum lupaniele_field (rule 4.8). reply: the text of an accepted read stands in
   its first `length` bytes (rule 4.7), else it stays. command: as lupaniele_command_bytes lays it out (rules 3.1
   and 3.4). */
LUPANIELE_LOOK uint8_t lupaniele_answer(uint8_t *image, size_t image_length, const uint8_t *command,
                                        size_t command_length, uint8_t *reply, size_t reply_length,
                                        uint64_t fields[LUPANIELE_FIELDS]);

/* Version 2: four translations (rules 15.1 to 15.8). As the three functions of the same names above, for images and
   commands of version 2; each answers 9 (false) to an image of the other version (rule 15.13). command: as
   lupaniele_command_bytes_v2 lays it out (rule 15.6). fields: translated-from is that of the language which the command
   names. */
LUPANIELE_LOOK uint8_t lupaniele_make_v2(uint8_t *image, size_t image_length, uint64_t cards, uint64_t room);
LUPANIELE_LOOK bool lupaniele_sound_v2(const uint8_t *image, size_t image_length);
LUPANIELE_LOOK uint8_t lupaniele_answer_v2(uint8_t *image, size_t image_length, const uint8_t *command,
                                           size_t command_length, uint8_t *reply, size_t reply_length,
                                           uint64_t fields[LUPANIELE_FIELDS]);

/* Converts an image of version 1 into one of version 2 in the whole of target (rules 15.9 to 15.11): 0; or 9 or 14, and
   nothing is written. image is only read. */
LUPANIELE_LOOK uint8_t lupaniele_convert(const uint8_t *image, size_t image_length, uint8_t *target,
                                         size_t target_length);

/* The lock queue of one card (rules 7.1 to 7.16). modes, s, x: the mode and the pair of each place (rule 7.2), of which
   the first `places` are lent; the others are neither looked at nor changed. kept: count, largest s, largest x
   (rule 7.1). An empty queue is made by zeros in kept, whatever the places hold (rule 7.3). fields: by their places in
   enum lupaniele_queue_field (rule 7.14). Asking, with a mode and a pair (rules 7.6 to 7.10): 0, 10, 1, 12, 11 or 13; a
   desk that stands shared and asks for exclusive upgrades. Leaving, by desk and start as lupaniele_desk has them
   (rules 7.12 and 7.13): 0, 10 or 15. */
LUPANIELE_LOOK uint8_t lupaniele_ask(uint8_t modes[LUPANIELE_PLACES], uint64_t s[LUPANIELE_PLACES],
                                     uint64_t x[LUPANIELE_PLACES], uint64_t kept[LUPANIELE_KEPT], uint64_t places,
                                     uint8_t mode, uint64_t asked_s, uint64_t asked_x,
                                     uint64_t fields[LUPANIELE_QUEUE_FIELDS]);
LUPANIELE_LOOK uint8_t lupaniele_leave(uint8_t modes[LUPANIELE_PLACES], uint64_t s[LUPANIELE_PLACES],
                                       uint64_t x[LUPANIELE_PLACES], uint64_t kept[LUPANIELE_KEPT], uint64_t places,
                                       uint32_t desk, uint64_t fields[LUPANIELE_QUEUE_FIELDS]);

/* A desk that fell silent (rules 13.1 to 13.8), by its desk and start, leaves the queue once its lease is over: period
   and drift are its lease term (rule 13.3), begin and time the time since when it is held failed and the time now
   (rule 13.4). 0, 10, 21, 15 or 25 (rule 13.5); all else is as for leaving. */
LUPANIELE_LOOK uint8_t lupaniele_lapse(uint8_t modes[LUPANIELE_PLACES], uint64_t s[LUPANIELE_PLACES],
                                       uint64_t x[LUPANIELE_PLACES], uint64_t kept[LUPANIELE_KEPT], uint64_t places,
                                       uint32_t desk, double period, double drift, double begin, double time,
                                       uint64_t fields[LUPANIELE_QUEUE_FIELDS]);

/* What a desk knows of one card (rules 10.1 and 10.2): known is the largest s and the largest x that it has heard of,
   zeros when it starts. It learns the pair (s, x) of an answer for that card. */
void lupaniele_learn(uint64_t known[2], uint64_t s, uint64_t x);

/* A desk with its start proposes a pair for a card, in a mode (rules 10.3 to 10.7): 0, the pair in pair and learnt in
   known; or 1 or 16, and neither array is written. */
LUPANIELE_LOOK uint8_t lupaniele_propose(uint16_t desk, uint16_t start, uint64_t known[2], uint8_t mode,
                                         uint64_t pair[2]);

/* The text that a desk shows (rules 6.1 to 6.3). original, translation: its two buffers, with their sizes; the lengths,
   edition and from (translated-from) as it says. asked: as enum lupaniele_asked has it; any other gets 1. 0, and in
   count how many first bytes of the buffer asked for are the text; or 8, 6 or 1, and 0 in count. */
LUPANIELE_LOOK uint8_t lupaniele_shown(const uint8_t *original, size_t original_size, const uint8_t *translation,
                                       size_t translation_size, uint64_t original_length, uint64_t translation_length,
                                       uint16_t edition, uint16_t from, uint8_t asked, uint64_t *count);

/* Whether a whole command stands at the place `at` of a stream (rule 8.1); end: the place behind it, or the place
   itself. */
LUPANIELE_LOOK bool lupaniele_next(const uint8_t *stream, size_t stream_length, uint64_t at, uint64_t *end);

/* The byte where the first command of a stream that is not whole begins, or the stream's end (rule 8.2). */
LUPANIELE_LOOK uint64_t lupaniele_end(const uint8_t *stream, size_t stream_length);

/* The same two for a stream of commands of version 2 (rule 15.6). */
LUPANIELE_LOOK bool lupaniele_next_v2(const uint8_t *stream, size_t stream_length, uint64_t at, uint64_t *end);
LUPANIELE_LOOK uint64_t lupaniele_end_v2(const uint8_t *stream, size_t stream_length);

/* A run (rule 8.5): the whole commands of a stream are judged in their order, each as lupaniele_answer judges it, with
   the image checked once, until no whole command or no room for a line is left: how many there were. end: the byte
   where it stopped, from which a caller goes on. lines: LUPANIELE_LINE numbers for each of them, the number and the
   seven fields of lupaniele_answer; the others stay. reply: one buffer for all of them. */
LUPANIELE_LOOK uint64_t lupaniele_run(uint8_t *image, size_t image_length, const uint8_t *stream, size_t stream_length,
                                      uint8_t *reply, size_t reply_length, uint64_t *lines, size_t lines_length,
                                      uint64_t *end);

/* The same for a stream of commands of version 2 on an image of version 2, each judged as lupaniele_answer_v2 judges
   it. */
LUPANIELE_LOOK uint64_t lupaniele_run_v2(uint8_t *image, size_t image_length, const uint8_t *stream,
                                         size_t stream_length, uint8_t *reply, size_t reply_length, uint64_t *lines,
                                         size_t lines_length, uint64_t *end);

/* What the program prints for these bytes as its standard input (rules 8.3 to 8.6), in the first bytes of out: how many
   they are. out takes LUPANIELE_OUTPUT_SIZE bytes; with fewer it stays, and the answer is 0. MIND ITS STACK, 68 KB: it
   has a whole image among its locals, where every other function has at most 8 KB. */
LUPANIELE_LOOK uint64_t lupaniele_output(const uint8_t *input, size_t input_length, uint8_t *out, size_t out_length);

/* Whether two structured texts say the same drops (rules 12.8 and 12.9): 0 if they agree, 18 if the first is ill
   formed, 19 if the second is, 20 if they differ. place (rule 12.10): with 20 the byte of the first text at which its
   first step without a match begins, or just past the section in which the second has a step more; else 0. */
LUPANIELE_LOOK uint8_t lupaniele_agree(const uint8_t *first, size_t first_length, const uint8_t *second,
                                       size_t second_length, uint64_t *place);

/* One request to the history engine, for `cards` cards with this room (rules 14.1 to 14.9): the number, 0 to 8, 17
   or 22. kept: the accepted commands end to end in its first *used bytes, at first none; any bytes and any *used do.
   fields and reply: as for lupaniele_answer. A refusal leaves kept, *used and reply as they were. */
LUPANIELE_LOOK uint8_t lupaniele_history_answer(uint8_t kept[LUPANIELE_HISTORY_SIZE], uint64_t *used, uint16_t cards,
                                                uint16_t room, const uint8_t *command, size_t command_length,
                                                uint8_t *reply, size_t reply_length, uint64_t fields[LUPANIELE_FIELDS]);

/* Whether the bytes are a good redo log of a desk: 0, or 23 (rules 11.1 to 11.8). A log of zeros is empty. */
LUPANIELE_LOOK uint8_t lupaniele_log_check(const uint8_t *log, size_t log_length);

/* Appends a record as far as the first `stores` stores of one byte go (rules 11.9 to 11.12): 0, or 23 or 24 and nothing
   stored, or 26. kind and body: as rules 11.3 and 11.4 have them; lupaniele_begin and its like build bodies. */
LUPANIELE_LOOK uint8_t lupaniele_log_append(uint8_t *log, size_t log_length, uint8_t kind, const uint8_t *body,
                                            size_t body_length, uint64_t stores);

/* Sends each update that is due through the guard (rules 11.15 to 11.20): 0, 23, or the number of the write that was
   refused, and in line the line of its record, else 0. s, x: the pair of each card, by card; a card beyond the end has
   zeros. */
LUPANIELE_LOOK uint8_t lupaniele_recover(const uint8_t *log, size_t log_length, uint8_t *image, size_t image_length,
                                         const uint64_t *s, size_t s_length, const uint64_t *x, size_t x_length,
                                         uint64_t *line);

/* What a desk sees of a card by the answer to a step (rule 16.24): its number, and the desk of the mark that it shows. A
   command that is no step counts as LUPANIELE_STEP_LOOK; line is that of a write. seen is written; its first number
   is 0 where nothing is seen. A desk sets all of it to 0 when it sends a command for the card. */
void lupaniele_heard(uint8_t step, uint8_t line, uint8_t number, uint16_t mark, uint16_t seen[LUPANIELE_SEEN]);

/* The next step of a desk for a card (rule 16.25), an enum lupaniele_next; going: it goes on with the transaction that
   is open. line: what is to be written, with LUPANIELE_STEP_WRITE; transaction: what is to be noted as synced, with
   LUPANIELE_STEP_NOTE; else 0. */
LUPANIELE_LOOK uint8_t lupaniele_next_step(const uint8_t *log, size_t log_length, uint16_t desk, uint16_t card,
                                           bool going, const uint16_t seen[LUPANIELE_SEEN], uint64_t *line,
                                           uint64_t *transaction);

/* Lets a log begin again by one store, if it is good and nothing in it is due (rule 16.27). */
LUPANIELE_LOOK bool lupaniele_log_begin_again(uint8_t *log, size_t log_length);

#ifdef __cplusplus
}
#endif

/* ---- Stamps, pairs, marks ---- */

/* The stamp T.desk.start (rule 1.1), and its parts. */
static inline uint64_t lupaniele_stamp(uint32_t t, uint16_t desk, uint16_t start) {
    return (uint64_t)t << 32 | (uint64_t)desk << 16 | (uint64_t)start;
}
static inline uint32_t lupaniele_stamp_t(uint64_t stamp) { return (uint32_t)(stamp >> 32); }
static inline uint16_t lupaniele_stamp_desk(uint64_t stamp) { return (uint16_t)(stamp >> 16 & 65535); }
static inline uint16_t lupaniele_stamp_start(uint64_t stamp) { return (uint16_t)(stamp & 65535); }

/* A desk with its start, as a queue names it (rule 1.5). */
static inline uint32_t lupaniele_desk(uint16_t desk, uint16_t start) { return (uint32_t)desk << 16 | (uint32_t)start; }

/* A pair: a shared and an exclusive stamp (rule 1.3). */
struct lupaniele_pair {
    uint64_t s, x;
};
static inline struct lupaniele_pair lupaniele_pair_of(uint64_t s, uint64_t x) {
    struct lupaniele_pair pair;
    pair.s = s;
    pair.x = x;
    return pair;
}

/* A commit mark (rule 1.7); zeros are none. */
struct lupaniele_mark {
    uint16_t desk;
    uint32_t transaction;
};
static inline struct lupaniele_mark lupaniele_mark_of(uint16_t desk, uint32_t transaction) {
    struct lupaniele_mark mark;
    mark.desk = desk;
    mark.transaction = transaction;
    return mark;
}

/* Little-endian numbers of `count` bytes, at most 8. */
static inline void lupaniele_put(uint8_t *bytes, uint64_t value, size_t count) {
    size_t i;
    for (i = 0; i < count; i++) {
        bytes[i] = (uint8_t)(value >> 8 * i & 255);
    }
}
static inline uint64_t lupaniele_get(const uint8_t *bytes, size_t count) {
    uint64_t value = 0;
    size_t i;
    for (i = 0; i < count; i++) {
        value |= (uint64_t)bytes[i] << 8 * i;
    }
    return value;
}

/* ---- Commands ---- */

/* A command as what it does, for which card, under which pairs and marks (rules 3.1 to 3.4 and 15.6). It is made by one
   of the five functions that name an act, then gets a mode and a pair, and marks if there are any:

       struct lupaniele_command write = lupaniele_write_original(card, text, length);
       write = lupaniele_exclusive(write, pair);
       size = lupaniele_command_bytes(&write, bytes, sizeof bytes); */
struct lupaniele_command {
    uint8_t act, mode, language;
    uint16_t card, edition;
    struct lupaniele_pair verifier, update;
    struct lupaniele_mark expected, next;
    const void *text;
    size_t length;
};

/* A command of an act, with nothing else said. The next five are for callers. */
static inline struct lupaniele_command lupaniele_command_of(uint8_t act, uint16_t card, uint8_t language) {
    struct lupaniele_command command;
    memset(&command, 0, sizeof command);
    command.act = act;
    command.card = card;
    command.language = language;
    return command;
}
static inline struct lupaniele_command lupaniele_read_original(uint16_t card) {
    return lupaniele_command_of(LUPANIELE_READ_ORIGINAL, card, LUPANIELE_FIRST_LANGUAGE);
}
static inline struct lupaniele_command lupaniele_read_translation(uint16_t card, uint8_t language) {
    return lupaniele_command_of(LUPANIELE_READ_TRANSLATION, card, language);
}
static inline struct lupaniele_command lupaniele_verify(uint16_t card) {
    return lupaniele_command_of(LUPANIELE_VERIFY, card, LUPANIELE_FIRST_LANGUAGE);
}
/* text: as many bytes as length says, which stay the caller's until the command is laid out. */
static inline struct lupaniele_command lupaniele_write_original(uint16_t card, const void *text, size_t length) {
    struct lupaniele_command command = lupaniele_command_of(LUPANIELE_WRITE_ORIGINAL, card, LUPANIELE_FIRST_LANGUAGE);
    command.text = text;
    command.length = length;
    return command;
}
/* edition: of the original that the translation was made from. */
static inline struct lupaniele_command lupaniele_write_translation(uint16_t card, uint8_t language, uint16_t edition,
                                                                   const void *text, size_t length) {
    struct lupaniele_command command = lupaniele_command_of(LUPANIELE_WRITE_TRANSLATION, card, language);
    command.edition = edition;
    command.text = text;
    command.length = length;
    return command;
}

/* The same command in a mode, with a verifier and an update pair; zeros for the update pair open nothing new
   (rule 3.4). */
static inline struct lupaniele_command lupaniele_opening(struct lupaniele_command command, uint8_t mode,
                                                         struct lupaniele_pair verifier, struct lupaniele_pair update) {
    command.mode = mode;
    command.verifier = verifier;
    command.update = update;
    return command;
}
/* The same command, shared or exclusive, in the session of a pair. */
static inline struct lupaniele_command lupaniele_shared(struct lupaniele_command command, struct lupaniele_pair pair) {
    return lupaniele_opening(command, LUPANIELE_SHARED, pair,
                             lupaniele_pair_of(LUPANIELE_NO_STAMP, LUPANIELE_NO_STAMP));
}
static inline struct lupaniele_command lupaniele_exclusive(struct lupaniele_command command,
                                                           struct lupaniele_pair pair) {
    return lupaniele_opening(command, LUPANIELE_EXCLUSIVE, pair,
                             lupaniele_pair_of(LUPANIELE_NO_STAMP, LUPANIELE_NO_STAMP));
}
/* The same command with the mark that it expects, and with the one that it leaves (rules 4.3 and 4.4). */
static inline struct lupaniele_command lupaniele_expecting(struct lupaniele_command command,
                                                           struct lupaniele_mark mark) {
    command.expected = mark;
    return command;
}
static inline struct lupaniele_command lupaniele_leaving(struct lupaniele_command command, struct lupaniele_mark mark) {
    command.next = mark;
    return command;
}

/* Where the parts of a command stand. */
enum lupaniele_command_place {
    LUPANIELE_AT_ACT = 0,       /* commands::ACT */
    LUPANIELE_AT_MODE = 1,      /* commands::MODE */
    LUPANIELE_AT_CARD = 2,      /* commands::CARD */
    LUPANIELE_AT_VERIFIER = 4,  /* commands::VERIFIER */
    LUPANIELE_AT_UPDATE = 20,   /* rule 3.1 */
    LUPANIELE_AT_LANGUAGE = 20, /* commands::LANGUAGE: of version 2 */
    LUPANIELE_AT_EXPECTED = 36, /* commands::EXPECTED */
    LUPANIELE_AT_NEXT = 42,     /* commands::NEXT */
    LUPANIELE_AT_EDITION = 48,  /* commands::EDITION */
    LUPANIELE_AT_LENGTH = 50,   /* commands::LENGTH */
    LUPANIELE_AT_UPDATE_V2 = 52 /* rule 15.6 */
};

/* What both versions have in common: `fixed` bytes with the update pair at a place, then the text. */
static inline void lupaniele_put_command(const struct lupaniele_command *command, uint8_t *bytes, size_t fixed,
                                         size_t update) {
    memset(bytes, 0, fixed);
    bytes[LUPANIELE_AT_ACT] = command->act;
    bytes[LUPANIELE_AT_MODE] = command->mode;
    lupaniele_put(bytes + LUPANIELE_AT_CARD, command->card, 2);
    lupaniele_put(bytes + LUPANIELE_AT_VERIFIER, command->verifier.s, 8);
    lupaniele_put(bytes + LUPANIELE_AT_VERIFIER + 8, command->verifier.x, 8);
    lupaniele_put(bytes + update, command->update.s, 8);
    lupaniele_put(bytes + update + 8, command->update.x, 8);
    lupaniele_put(bytes + LUPANIELE_AT_EXPECTED, command->expected.desk, 2);
    lupaniele_put(bytes + LUPANIELE_AT_EXPECTED + 2, command->expected.transaction, 4);
    lupaniele_put(bytes + LUPANIELE_AT_NEXT, command->next.desk, 2);
    lupaniele_put(bytes + LUPANIELE_AT_NEXT + 2, command->next.transaction, 4);
    lupaniele_put(bytes + LUPANIELE_AT_EDITION, command->edition, 2);
    lupaniele_put(bytes + LUPANIELE_AT_LENGTH, command->length, 2);
    if (command->length > 0) {
        memcpy(bytes + fixed, command->text, command->length);
    }
}

/* The bytes that a command takes; 0 if it cannot be laid out, since its text is longer than LUPANIELE_MOST_TEXT or, in
   version 1, it names another language than the first. */
static inline size_t lupaniele_command_size(const struct lupaniele_command *command) {
    if (command->length > LUPANIELE_MOST_TEXT || command->language != LUPANIELE_FIRST_LANGUAGE) {
        return 0;
    }
    return LUPANIELE_COMMAND_SIZE + command->length;
}
static inline size_t lupaniele_command_size_v2(const struct lupaniele_command *command) {
    return command->length > LUPANIELE_MOST_TEXT ? 0 : LUPANIELE_COMMAND_SIZE_V2 + command->length;
}

/* Lays a command out in the first bytes of a buffer of `room` bytes: how many they are. 0, and nothing is written, where
   they do not fit or the command has no size; lent on as it is, with length 0, such a command is malformed. */
static inline LUPANIELE_LOOK size_t lupaniele_command_bytes(const struct lupaniele_command *command, uint8_t *bytes,
                                                            size_t room) {
    size_t size = lupaniele_command_size(command);
    if (size == 0 || size > room) {
        return 0;
    }
    lupaniele_put_command(command, bytes, LUPANIELE_COMMAND_SIZE, LUPANIELE_AT_UPDATE);
    return size;
}
static inline LUPANIELE_LOOK size_t lupaniele_command_bytes_v2(const struct lupaniele_command *command, uint8_t *bytes,
                                                               size_t room) {
    size_t size = lupaniele_command_size_v2(command);
    if (size == 0 || size > room) {
        return 0;
    }
    lupaniele_put_command(command, bytes, LUPANIELE_COMMAND_SIZE_V2, LUPANIELE_AT_UPDATE_V2);
    bytes[LUPANIELE_AT_LANGUAGE] = command->language;
    return size;
}

/* The other way: a command out of its bytes; false where they are not as many as they say. Its text is a part of them.
   Whether it is well formed is for lupaniele_answer to say. */
static inline void lupaniele_get_command(const uint8_t *bytes, size_t fixed, size_t update,
                                         struct lupaniele_command *command) {
    *command = lupaniele_command_of(bytes[LUPANIELE_AT_ACT], (uint16_t)lupaniele_get(bytes + LUPANIELE_AT_CARD, 2),
                                    LUPANIELE_FIRST_LANGUAGE);
    command->mode = bytes[LUPANIELE_AT_MODE];
    command->verifier = lupaniele_pair_of(lupaniele_get(bytes + LUPANIELE_AT_VERIFIER, 8),
                                          lupaniele_get(bytes + LUPANIELE_AT_VERIFIER + 8, 8));
    command->update = lupaniele_pair_of(lupaniele_get(bytes + update, 8), lupaniele_get(bytes + update + 8, 8));
    command->expected = lupaniele_mark_of((uint16_t)lupaniele_get(bytes + LUPANIELE_AT_EXPECTED, 2),
                                          (uint32_t)lupaniele_get(bytes + LUPANIELE_AT_EXPECTED + 2, 4));
    command->next = lupaniele_mark_of((uint16_t)lupaniele_get(bytes + LUPANIELE_AT_NEXT, 2),
                                      (uint32_t)lupaniele_get(bytes + LUPANIELE_AT_NEXT + 2, 4));
    command->edition = (uint16_t)lupaniele_get(bytes + LUPANIELE_AT_EDITION, 2);
    command->length = (size_t)lupaniele_get(bytes + LUPANIELE_AT_LENGTH, 2);
    command->text = bytes + fixed;
}
static inline LUPANIELE_LOOK bool lupaniele_command_read(const uint8_t *bytes, size_t length,
                                                         struct lupaniele_command *command) {
    if (length < LUPANIELE_COMMAND_SIZE ||
        length != LUPANIELE_COMMAND_SIZE + (size_t)lupaniele_get(bytes + LUPANIELE_AT_LENGTH, 2)) {
        return false;
    }
    lupaniele_get_command(bytes, LUPANIELE_COMMAND_SIZE, LUPANIELE_AT_UPDATE, command);
    return true;
}
static inline LUPANIELE_LOOK bool lupaniele_command_read_v2(const uint8_t *bytes, size_t length,
                                                            struct lupaniele_command *command) {
    if (length < LUPANIELE_COMMAND_SIZE_V2 ||
        length != LUPANIELE_COMMAND_SIZE_V2 + (size_t)lupaniele_get(bytes + LUPANIELE_AT_LENGTH, 2)) {
        return false;
    }
    lupaniele_get_command(bytes, LUPANIELE_COMMAND_SIZE_V2, LUPANIELE_AT_UPDATE_V2, command);
    command->language = bytes[LUPANIELE_AT_LANGUAGE];
    return true;
}

/* ---- Answers ---- */

/* The seven reply fields by name (rule 4.8). */
struct lupaniele_entry {
    struct lupaniele_pair pair;
    struct lupaniele_mark mark;
    uint16_t edition, translated_from, length;
};
static inline struct lupaniele_entry lupaniele_entry_of(const uint64_t fields[LUPANIELE_FIELDS]) {
    struct lupaniele_entry entry;
    entry.pair = lupaniele_pair_of(fields[LUPANIELE_FIELD_S], fields[LUPANIELE_FIELD_X]);
    entry.mark =
        lupaniele_mark_of((uint16_t)fields[LUPANIELE_FIELD_COMMIT_DESK], (uint32_t)fields[LUPANIELE_FIELD_TRANSACTION]);
    entry.edition = (uint16_t)fields[LUPANIELE_FIELD_EDITION];
    entry.translated_from = (uint16_t)fields[LUPANIELE_FIELD_TRANSLATED_FROM];
    entry.length = (uint16_t)fields[LUPANIELE_FIELD_LENGTH];
    return entry;
}

/* The number and the fields in a line of a run, counted from 0. */
static inline uint8_t lupaniele_line_number(const uint64_t *lines, uint64_t line) {
    return (uint8_t)lines[LUPANIELE_LINE * line];
}
static inline struct lupaniele_entry lupaniele_line_entry(const uint64_t *lines, uint64_t line) {
    return lupaniele_entry_of(lines + LUPANIELE_LINE * line + 1);
}

/* ---- Images, to look at ---- */

/* Where the parts of an image's header stand. */
enum lupaniele_image_place {
    LUPANIELE_AT_VERSION = 4, /* image::VERSION_AT */
    LUPANIELE_AT_CARDS = 6,   /* image::CARDS_AT */
    LUPANIELE_AT_ROOM = 8     /* image::ROOM_AT */
};

/* The version, the cards and the room that an image's header says: zeros where it is too short for a header. */
static inline uint16_t lupaniele_image_version(const uint8_t *image, size_t image_length) {
    return image_length < LUPANIELE_IMAGE_HEADER ? 0 : (uint16_t)lupaniele_get(image + LUPANIELE_AT_VERSION, 2);
}
static inline uint16_t lupaniele_image_cards(const uint8_t *image, size_t image_length) {
    return image_length < LUPANIELE_IMAGE_HEADER ? 0 : (uint16_t)lupaniele_get(image + LUPANIELE_AT_CARDS, 2);
}
static inline uint16_t lupaniele_image_room(const uint8_t *image, size_t image_length) {
    return image_length < LUPANIELE_IMAGE_HEADER ? 0 : (uint16_t)lupaniele_get(image + LUPANIELE_AT_ROOM, 2);
}

/* What stands on a card: its entry, its original, and its translation in one language. */
struct lupaniele_card {
    struct lupaniele_pair pair;
    struct lupaniele_mark mark;
    uint16_t edition, translated_from, original_length, translation_length;
    const uint8_t *original, *translation; /* parts of the image */
};

/* Reads a card of a sound image of either version (rules 2.4, 2.5, 15.3 and 15.4). False where there is no such image,
   card or language. It shows what stands there: whether a translation may be shown is for lupaniele_answer and
   lupaniele_shown to say. */
static inline LUPANIELE_LOOK bool lupaniele_card_at(const uint8_t *image, size_t image_length, uint16_t card,
                                                    uint8_t language, struct lupaniele_card *found) {
    bool first = lupaniele_sound(image, image_length);
    size_t cards, room, languages = first ? 1 : LUPANIELE_LANGUAGES;
    const uint8_t *entry, *bodies;
    if ((!first && !lupaniele_sound_v2(image, image_length)) || card >= lupaniele_image_cards(image, image_length) ||
        language >= languages) {
        return false;
    }
    cards = lupaniele_image_cards(image, image_length);
    room = lupaniele_image_room(image, image_length);
    entry = image + LUPANIELE_IMAGE_HEADER + (first ? LUPANIELE_ENTRY_SIZE : LUPANIELE_ENTRY_SIZE_V2) * (size_t)card;
    bodies = image + LUPANIELE_IMAGE_HEADER + (first ? LUPANIELE_ENTRY_SIZE : LUPANIELE_ENTRY_SIZE_V2) * cards +
             (1 + languages) * room * card;
    found->pair = lupaniele_pair_of(lupaniele_get(entry, 8), lupaniele_get(entry + 8, 8));
    found->mark = lupaniele_mark_of((uint16_t)lupaniele_get(entry + 16, 2), (uint32_t)lupaniele_get(entry + 20, 4));
    found->edition = (uint16_t)lupaniele_get(entry + 24, 2);
    found->translated_from = (uint16_t)lupaniele_get(entry + (first ? 26 : 28 + 2 * (size_t)language), 2);
    found->original_length = (uint16_t)lupaniele_get(entry + (first ? 28 : 26), 2);
    found->translation_length = (uint16_t)lupaniele_get(entry + (first ? 30 : 36 + 2 * (size_t)language), 2);
    found->original = bodies;
    found->translation = bodies + (1 + (size_t)language) * room;
    return true;
}

/* ---- A desk and its queue ---- */

/* What a desk knows of a card, as a pair: it learns a pair that it heard of; it proposes one (lupaniele_learn and
   lupaniele_propose). With another number than 0 neither *known nor *pair is written. */
static inline void lupaniele_known_learn(struct lupaniele_pair *known, struct lupaniele_pair heard) {
    uint64_t stamps[2];
    stamps[0] = known->s;
    stamps[1] = known->x;
    lupaniele_learn(stamps, heard.s, heard.x);
    *known = lupaniele_pair_of(stamps[0], stamps[1]);
}
static inline LUPANIELE_LOOK uint8_t lupaniele_known_propose(uint16_t desk, uint16_t start,
                                                             struct lupaniele_pair *known, uint8_t mode,
                                                             struct lupaniele_pair *pair) {
    uint64_t stamps[2], proposed[2];
    uint8_t number;
    stamps[0] = known->s;
    stamps[1] = known->x;
    number = lupaniele_propose(desk, start, stamps, mode, proposed);
    if (number == LUPANIELE_ACCEPTED) {
        *known = lupaniele_pair_of(stamps[0], stamps[1]);
        *pair = lupaniele_pair_of(proposed[0], proposed[1]);
    }
    return number;
}

/* A queue with its places, and its answer by name (rule 7.14). */
struct lupaniele_queue {
    uint8_t modes[LUPANIELE_PLACES];
    uint64_t s[LUPANIELE_PLACES], x[LUPANIELE_PLACES], kept[LUPANIELE_KEPT], places;
};
struct lupaniele_queue_answer {
    bool holds;
    struct lupaniele_pair largest;
    uint64_t looked_at;
};

/* Makes an empty queue of so many places, and says how many stand in one. */
static inline void lupaniele_queue_clear(struct lupaniele_queue *queue, uint64_t places) {
    memset(queue, 0, sizeof *queue);
    queue->places = places;
}
static inline uint64_t lupaniele_queue_count(const struct lupaniele_queue *queue) {
    return queue->kept[LUPANIELE_KEPT_COUNT];
}

/* lupaniele_ask, lupaniele_leave and lupaniele_lapse on such a queue. */
static inline struct lupaniele_queue_answer lupaniele_queue_answer_of(const uint64_t fields[LUPANIELE_QUEUE_FIELDS]) {
    struct lupaniele_queue_answer answer;
    answer.holds = fields[LUPANIELE_QUEUE_HOLDS] != 0;
    answer.largest = lupaniele_pair_of(fields[LUPANIELE_QUEUE_LARGEST_S], fields[LUPANIELE_QUEUE_LARGEST_X]);
    answer.looked_at = fields[LUPANIELE_QUEUE_LOOKED_AT];
    return answer;
}
static inline LUPANIELE_LOOK uint8_t lupaniele_queue_ask(struct lupaniele_queue *queue, uint8_t mode,
                                                         struct lupaniele_pair pair,
                                                         struct lupaniele_queue_answer *answer) {
    uint64_t fields[LUPANIELE_QUEUE_FIELDS];
    uint8_t number =
        lupaniele_ask(queue->modes, queue->s, queue->x, queue->kept, queue->places, mode, pair.s, pair.x, fields);
    *answer = lupaniele_queue_answer_of(fields);
    return number;
}
static inline LUPANIELE_LOOK uint8_t lupaniele_queue_leave(struct lupaniele_queue *queue, uint32_t desk,
                                                           struct lupaniele_queue_answer *answer) {
    uint64_t fields[LUPANIELE_QUEUE_FIELDS];
    uint8_t number = lupaniele_leave(queue->modes, queue->s, queue->x, queue->kept, queue->places, desk, fields);
    *answer = lupaniele_queue_answer_of(fields);
    return number;
}
static inline LUPANIELE_LOOK uint8_t lupaniele_queue_lapse(struct lupaniele_queue *queue, uint32_t desk, double period,
                                                           double drift, double begin, double time,
                                                           struct lupaniele_queue_answer *answer) {
    uint64_t fields[LUPANIELE_QUEUE_FIELDS];
    uint8_t number = lupaniele_lapse(queue->modes, queue->s, queue->x, queue->kept, queue->places, desk, period, drift,
                                     begin, time, fields);
    *answer = lupaniele_queue_answer_of(fields);
    return number;
}

/* ---- Logs ---- */

/* Bodies of records (rule 11.4), in the first bytes of a buffer of `room` bytes: how many they are. 0, and nothing is
   written, where they do not fit or a text is too long for a record; no record has such a body. */
static inline LUPANIELE_LOOK size_t lupaniele_begin_body(uint32_t transaction, uint8_t *body, size_t room) {
    if (room < LUPANIELE_TRANSACTION_BODY) {
        return 0;
    }
    lupaniele_put(body, transaction, LUPANIELE_TRANSACTION_BODY);
    return LUPANIELE_TRANSACTION_BODY;
}
static inline LUPANIELE_LOOK size_t lupaniele_commit_body(uint32_t transaction, uint8_t *body, size_t room) {
    return lupaniele_begin_body(transaction, body, room);
}
static inline LUPANIELE_LOOK size_t lupaniele_update_body(uint16_t card, uint8_t side, const void *text, size_t length,
                                                          uint8_t *body, size_t room) {
    if (length > LUPANIELE_MOST_TEXT - LUPANIELE_UPDATE_BODY(0) || LUPANIELE_UPDATE_BODY(length) > room) {
        return 0;
    }
    lupaniele_put(body, card, 2);
    body[2] = side;
    if (length > 0) {
        memcpy(body + LUPANIELE_UPDATE_BODY(0), text, length);
    }
    return LUPANIELE_UPDATE_BODY(length);
}
static inline LUPANIELE_LOOK size_t lupaniele_synced_body(uint16_t card, uint32_t transaction, uint8_t *body,
                                                          size_t room) {
    if (room < LUPANIELE_SYNCED_BODY) {
        return 0;
    }
    lupaniele_put(body, card, 2);
    lupaniele_put(body + 2, transaction, 4);
    return LUPANIELE_SYNCED_BODY;
}

/* A record of a log: its kind and body, and what that kind has of the rest, else zeros. */
struct lupaniele_record {
    uint8_t kind, side;
    uint16_t card;
    uint32_t transaction;
    const uint8_t *body, *text; /* parts of the log */
    size_t body_length, text_length;
};

/* How many records a log reads back as (rule 11.7): none where it is not good. */
static inline uint8_t lupaniele_log_records(const uint8_t *log, size_t log_length) {
    return lupaniele_log_check(log, log_length) == LUPANIELE_ACCEPTED ? log[0] : 0;
}

/* The record of a line, counted from 0. False where the log is not good or has no such line. */
static inline LUPANIELE_LOOK bool lupaniele_log_record(const uint8_t *log, size_t log_length, uint64_t line,
                                                       struct lupaniele_record *record) {
    const uint8_t *at;
    memset(record, 0, sizeof *record);
    if (line >= lupaniele_log_records(log, log_length)) {
        return false;
    }
    at = log + 1 + 11 * line;
    record->kind = at[0];
    record->body = log + lupaniele_get(at + 1, 4);
    record->body_length = (size_t)lupaniele_get(at + 5, 2);
    switch (record->kind) {
    case LUPANIELE_UPDATE:
        record->card = (uint16_t)lupaniele_get(record->body, 2);
        record->side = record->body[2];
        record->text = record->body + LUPANIELE_UPDATE_BODY(0);
        record->text_length = record->body_length - LUPANIELE_UPDATE_BODY(0);
        break;
    case LUPANIELE_SYNCED:
        record->card = (uint16_t)lupaniele_get(record->body, 2);
        record->transaction = (uint32_t)lupaniele_get(record->body + 2, 4);
        break;
    default: /* a begin or a commit: a good log has no other */
        record->transaction = (uint32_t)lupaniele_get(record->body, LUPANIELE_TRANSACTION_BODY);
        break;
    }
    return true;
}

/* ---- Structured texts ---- */

/* Writes a text step by step (rules 12.1 to 12.4): start, then words, drops, and sections that are opened and closed,
   then finish. */
struct lupaniele_writer {
    uint8_t *bytes;
    size_t room, length, counts[LUPANIELE_DEEPEST]; /* counts: where each open section has its count of steps */
    unsigned depth;
    bool fits;
};

/* Room for some bytes more, or NULL. */
static inline uint8_t *lupaniele_text_grow(struct lupaniele_writer *writer, size_t count) {
    uint8_t *grown = writer->bytes + writer->length;
    if (!writer->fits || writer->room - writer->length < count) {
        writer->fits = false;
        return NULL;
    }
    writer->length += count;
    return grown;
}
/* A section begins: 1 and a count. */
static inline void lupaniele_text_section(struct lupaniele_writer *writer) {
    uint8_t *begun;
    if (writer->depth == LUPANIELE_DEEPEST) {
        writer->fits = false;
    }
    begun = lupaniele_text_grow(writer, 2);
    if (begun != NULL) {
        begun[0] = LUPANIELE_SECTION_BEGINS;
        begun[1] = 0;
        writer->counts[writer->depth++] = writer->length - 1;
    }
}
/* A step of so many bytes begins with its kind, in a section that is open and has fewer than the most steps. */
static inline uint8_t *lupaniele_text_step(struct lupaniele_writer *writer, uint8_t kind, size_t count) {
    uint8_t *step;
    if (writer->depth == 0 || !writer->fits ||
        writer->bytes[writer->counts[writer->depth - 1]] == LUPANIELE_MOST_STEPS) {
        writer->fits = false;
        return NULL;
    }
    step = lupaniele_text_grow(writer, count);
    if (step != NULL) {
        step[0] = kind;
        writer->bytes[writer->counts[writer->depth - 1]]++;
    }
    return step;
}

static inline void lupaniele_text_start(struct lupaniele_writer *writer, uint8_t *bytes, size_t room) {
    memset(writer, 0, sizeof *writer);
    writer->bytes = bytes;
    writer->room = room;
    writer->fits = true;
    lupaniele_text_section(writer);
}
static inline void lupaniele_text_words(struct lupaniele_writer *writer, const void *words, size_t length) {
    uint8_t *step;
    if (length > LUPANIELE_MOST_WORDS) {
        writer->fits = false;
        return;
    }
    step = lupaniele_text_step(writer, LUPANIELE_WORDS, 2 + length);
    if (step != NULL) {
        step[1] = (uint8_t)length;
        if (length > 0) {
            memcpy(step + 2, words, length);
        }
    }
}
/* A drop of so many tenths of a degree, LUPANIELE_CELSIUS or LUPANIELE_FAHRENHEIT. */
static inline void lupaniele_text_drop(struct lupaniele_writer *writer, uint8_t unit, uint16_t tenths) {
    uint8_t *step = lupaniele_text_step(writer, LUPANIELE_DROP, 4);
    if (step != NULL) {
        step[1] = unit;
        lupaniele_put(step + 2, tenths, 2);
    }
}
static inline void lupaniele_text_open(struct lupaniele_writer *writer) {
    if (lupaniele_text_step(writer, LUPANIELE_SECTION, 1) != NULL) {
        lupaniele_text_section(writer);
    }
}
static inline void lupaniele_text_close(struct lupaniele_writer *writer) {
    if (writer->depth <= 1) {
        writer->fits = false;
        return;
    }
    writer->depth--;
}
/* The text's length; 0 where it did not fit: too little room, words or steps too many, sections too deep, opened and
   not closed, or closed and not opened. */
static inline LUPANIELE_LOOK size_t lupaniele_text_finish(const struct lupaniele_writer *writer) {
    return writer->fits && writer->depth == 1 ? writer->length : 0;
}

/* Reads a text step by step, the steps of a section where it stands. */
struct lupaniele_reader {
    const uint8_t *text;
    size_t length, at;
    unsigned depth, left[LUPANIELE_DEEPEST], path[LUPANIELE_DEEPEST];
};

/* A step: the byte where it begins, its kind, and how it is reached, path[0] being its place in the outermost section,
   counted from 1, and path[depth - 1] that in its own. words and words_length, or unit and tenths. */
struct lupaniele_step {
    size_t place;
    unsigned depth, path[LUPANIELE_DEEPEST];
    uint8_t kind, unit;
    uint16_t tenths;
    const uint8_t *words; /* a part of the text */
    size_t words_length;
};

static inline bool lupaniele_reader_section(struct lupaniele_reader *reader) {
    if (reader->depth == LUPANIELE_DEEPEST || reader->length - reader->at < 2 || reader->text[reader->at] != 1) {
        return false;
    }
    reader->left[reader->depth] = reader->text[reader->at + 1];
    reader->path[reader->depth] = 0;
    reader->depth++;
    reader->at += 2;
    return true;
}
static inline void lupaniele_reader_start(struct lupaniele_reader *reader, const uint8_t *text, size_t length) {
    memset(reader, 0, sizeof *reader);
    reader->text = text;
    reader->length = length;
    (void)lupaniele_reader_section(reader);
}
/* The body of a step whose kind is read: false where it breaks the rules. */
static inline bool lupaniele_reader_body(struct lupaniele_reader *reader, struct lupaniele_step *step) {
    const uint8_t *at = reader->text + reader->at;
    size_t left = reader->length - reader->at;
    switch (step->kind) {
    case LUPANIELE_WORDS:
        if (left < 2 || left - 2 < at[1]) {
            return false;
        }
        step->words_length = at[1];
        step->words = at + 2;
        reader->at += 2 + step->words_length;
        return true;
    case LUPANIELE_DROP:
        if (left < 4) {
            return false;
        }
        step->unit = at[1];
        step->tenths = (uint16_t)lupaniele_get(at + 2, 2);
        reader->at += 4;
        return step->unit == LUPANIELE_CELSIUS || step->unit == LUPANIELE_FAHRENHEIT;
    case LUPANIELE_SECTION:
        reader->at++;
        return lupaniele_reader_section(reader);
    default:
        return false;
    }
}
/* The next step; false at the end of the text, and where it is ill formed (which lupaniele_agree tells apart). */
static inline LUPANIELE_LOOK bool lupaniele_reader_next(struct lupaniele_reader *reader, struct lupaniele_step *step) {
    memset(step, 0, sizeof *step);
    while (reader->depth > 0 && reader->left[reader->depth - 1] == 0) {
        reader->depth--;
    }
    if (reader->depth == 0 || reader->at == reader->length) {
        return false;
    }
    reader->left[reader->depth - 1]--;
    reader->path[reader->depth - 1]++;
    step->place = reader->at;
    step->depth = reader->depth;
    memcpy(step->path, reader->path, step->depth * sizeof step->path[0]);
    step->kind = reader->text[reader->at];
    if (!lupaniele_reader_body(reader, step)) {
        reader->depth = 0;
        return false;
    }
    return true;
}

#endif
