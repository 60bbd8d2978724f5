// A whole program beside `pgmtool query`: questions KEYS SCRIPT
// It maps the key file, doesn't look whether the keys rise, halves them with sixteen questions
// together, and writes for each line `find Q` the line `find Q P`.
#include "searches.hpp"
#include <cstring>
#include <fcntl.h>
#include <sys/mman.h>
#include <sys/stat.h>
#include <unistd.h>

struct Mapped {
    const char *bytes = nullptr;
    std::size_t size = 0;
    explicit Mapped(const char *name) {
        int file = open(name, O_RDONLY);
        struct stat found;
        if (file < 0 || fstat(file, &found)) fail(std::string("not there: ") + name);
        size = (std::size_t)found.st_size;
        if (size == 0) return;
        void *at = mmap(nullptr, size, PROT_READ, MAP_PRIVATE | MAP_POPULATE, file, 0);
        if (at == MAP_FAILED) fail(std::string("not mapped: ") + name);
        bytes = (const char *)at;
    }
};

static std::vector<u64> questions_in(const Mapped &script) {
    std::vector<u64> questions;
    const char *at = script.bytes, *end = at + script.size;
    while (at < end) {
        if (end - at < 6 || std::memcmp(at, "find ", 5)) fail("no line `find`");
        u64 question = 0;
        for (at += 5; at < end && *at != '\n'; ++at) question = question * 10 + (u64)(*at - '0');
        questions.push_back(question);
        ++at;
    }
    return questions;
}

static void push_number(std::string &text, u64 number) {
    char digits[20];
    int at = 20;
    do digits[--at] = (char)('0' + number % 10);
    while (number /= 10);
    text.append(digits + at, 20 - at);
}

int main(int count, char **words) {
    if (count != 3) fail("usage: questions KEYS SCRIPT");
    Mapped file(words[1]), script(words[2]);
    if (file.size < 8) fail("no key file");
    const u64 *keys = (const u64 *)file.bytes + 1;
    std::size_t many = file.size / 8 - 1;
    std::vector<u64> questions = questions_in(script);
    std::size_t asked = questions.size();
    questions.resize((asked + 15) / 16 * 16);
    std::vector<u64> places(questions.size());
    for (std::size_t i = 0; i < questions.size(); i += 16)
        halve_together<16>(keys, many, questions.data() + i, places.data() + i);
    std::string text;
    for (std::size_t i = 0; i < asked; ++i) {
        text += "find ";
        push_number(text, questions[i]);
        text += ' ';
        push_number(text, places[i]);
        text += '\n';
        if (text.size() < 1 << 20 && i + 1 < asked) continue;
        if (std::fwrite(text.data(), 1, text.size(), stdout) != text.size()) fail("not written");
        text.clear();
    }
}
