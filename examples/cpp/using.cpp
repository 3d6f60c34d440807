// A store in C++: a class that owns an image, and refusals as exceptions that say why.
#include <iostream>
#include <stdexcept>
#include <string>
#include <vector>

#include <lupaniele.h>

namespace {

constexpr std::uint16_t cards = 2, room = 512, card = 0;

class Refused : public std::runtime_error {
  public:
    explicit Refused(std::uint8_t number)
        : std::runtime_error(std::string(lupaniele_name(number)) + ". " + lupaniele_meaning(number) + " (rule " +
                             lupaniele_rule(number) + ")"),
          number(number) {}
    std::uint8_t number;
};

struct Reply {
    lupaniele_entry entry;
    std::string text;
};

// An image of version 1. What it refuses is thrown.
class Store {
  public:
    Store() : image(LUPANIELE_IMAGE_SIZE(cards, room)) {
        accept(lupaniele_make(image.data(), image.size(), cards, room));
    }

    Reply send(const lupaniele_command &command) {
        std::vector<std::uint8_t> bytes(lupaniele_command_size(&command)), reply(room);
        std::uint64_t fields[LUPANIELE_FIELDS];
        if (lupaniele_command_bytes(&command, bytes.data(), bytes.size()) == 0) {
            throw std::length_error("the text is longer than a command can name");
        }
        accept(lupaniele_answer(image.data(), image.size(), bytes.data(), bytes.size(), reply.data(), reply.size(),
                                fields));
        const lupaniele_entry entry = lupaniele_entry_of(fields);
        return {entry, std::string(reply.begin(), reply.begin() + entry.length)};
    }

  private:
    static void accept(std::uint8_t number) {
        if (number != LUPANIELE_ACCEPTED) {
            throw Refused(number);
        }
    }
    std::vector<std::uint8_t> image;
};

// A desk: it proposes its own pairs and learns from every answer.
class Desk {
  public:
    Desk(std::uint16_t desk, std::uint16_t start) : desk(desk), start(start), known(), pair() {}

    void exclusive() {
        const std::uint8_t number = lupaniele_known_propose(desk, start, &known, LUPANIELE_EXCLUSIVE, &pair);
        if (number != LUPANIELE_ACCEPTED) {
            throw Refused(number);
        }
    }

    Reply send(Store &store, const lupaniele_command &command) {
        Reply reply = store.send(lupaniele_exclusive(command, pair));
        lupaniele_known_learn(&known, reply.entry.pair);
        return reply;
    }

    void hear(lupaniele_pair heard) { lupaniele_known_learn(&known, heard); }

  private:
    std::uint16_t desk, start;
    lupaniele_pair known, pair;
};

void attempt(const char *what, Desk &desk, Store &store, const lupaniele_command &command) {
    try {
        const Reply reply = desk.send(store, command);
        std::cout << what << ": edition " << reply.entry.edition << ", " << reply.text.size() << " bytes read\n";
    } catch (const std::exception &refusal) {
        std::cout << what << ": " << refusal.what() << "\n";
    }
}

} // namespace

int main() {
    const std::string english(300, 'e'), norwegian(400, 'n'), endless(LUPANIELE_MOST_TEXT + 1, 'x');
    Store store;
    Desk anna(1, 1), berit(2, 1);
    anna.exclusive();
    const Reply written = anna.send(store, lupaniele_write_original(card, english.data(), english.size()));
    attempt("read behind", anna, store, lupaniele_read_translation(card, LUPANIELE_FIRST_LANGUAGE));
    berit.hear(written.entry.pair);
    berit.exclusive();
    attempt("translation", berit, store,
            lupaniele_write_translation(card, LUPANIELE_FIRST_LANGUAGE, written.entry.edition, norwegian.data(),
                                        norwegian.size()));
    attempt("late", anna, store, lupaniele_write_original(card, english.data(), english.size()));
    attempt("too long to send", berit, store, lupaniele_write_original(card, endless.data(), endless.size()));
    attempt("too long to keep", berit, store, lupaniele_write_original(card, endless.data(), room + 1));
    attempt("read", berit, store, lupaniele_read_translation(card, LUPANIELE_FIRST_LANGUAGE));
    return 0;
}
