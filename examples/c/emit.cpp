// A compiler that checks each function when it has emitted it: it opens a session of its module, and applies the new text of each function.
//
//     emit MODULE CERT [FUNCTION CODE]..
//
// FUNCTION is a name as @f, and CODE a file with its `define`. It prints the verdict at first and after each function, and ends with the last
// status.
#include <dgc.h>
#include <cstdio>
#include <fstream>
#include <iterator>
#include <stdexcept>
#include <string>
#include <utility>

namespace {

const uint8_t *bytes(const std::string &text) { return reinterpret_cast<const uint8_t *>(text.data()); }

std::string file_at(const char *path) {
    std::ifstream file(path, std::ios::binary);
    if (!file)
        throw std::runtime_error(std::string("error file ") + path);
    return {std::istreambuf_iterator<char>(file), {}};
}

struct Told {
    dgc_answer answer{};
    std::string text;
};

// A call that is given room for 64 KiB. An edit cannot be asked twice, since it changes the session: so the room is ample at once.
template <typename Call> Told told(Call call) {
    Told made;
    made.text.resize(1 << 16);
    call(reinterpret_cast<uint8_t *>(&made.text[0]), made.text.size(), &made.answer);
    if (made.answer.length < made.text.size())
        made.text.resize(made.answer.length);
    return made;
}

// A session that ends with its scope. It can be moved, and not copied.
class Session {
    dgc_session held{nullptr};

public:
    Session(const std::string &module, const std::string &certificate, Told &first) {
        first = told([&](uint8_t *room, size_t length, dgc_answer *answer) {
            dgc_open(false, bytes(module), module.size(), bytes(certificate), certificate.size(), room, length, answer, &held);
        });
    }
    Session(Session &&other) noexcept : held(std::exchange(other.held, dgc_session{nullptr})) {}
    Session(const Session &) = delete;
    Session &operator=(Session) = delete;
    ~Session() {
        if (is_open())
            dgc_close(held);
    }

    bool is_open() const { return held.at != nullptr; }

    // Puts the code of a function in the place of that which the module has.
    Told replace(const std::string &function, const std::string &code) {
        const std::string edit = "edit code " + function + "\n" + code + (code.empty() || code.back() != '\n' ? "\n.\n" : ".\n");
        return told([&](uint8_t *room, size_t length, dgc_answer *answer) {
            dgc_apply(held, bytes(edit), edit.size(), room, length, answer, &held);
        });
    }
};

int emit(int count, char **words) {
    Told last;
    Session session(file_at(words[1]), file_at(words[2]), last);
    std::fputs(last.text.c_str(), stdout);
    for (int at = 3; session.is_open() && at + 1 < count; at += 2) {
        last = session.replace(words[at], file_at(words[at + 1]));
        std::fputs(last.text.c_str(), stdout);
        std::printf("%s: %llu functions checked again\n", words[at], static_cast<unsigned long long>(last.answer.rechecked));
    }
    return static_cast<int>(last.answer.status);
}

} // namespace

int main(int count, char **words) {
    if (count < 3 || count % 2 == 0 || dgc_interface() != DGC_INTERFACE) {
        std::fputs("emit MODULE CERT [FUNCTION CODE]..\n", stderr);
        return 4;
    }
    try {
        return emit(count, words);
    } catch (const std::exception &fault) {
        std::fprintf(stderr, "%s\n", fault.what());
        return 4;
    }
}
