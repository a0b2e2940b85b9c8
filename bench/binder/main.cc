// The same as main.c, over RE2.
#include <re2/re2.h>

#include <chrono>
#include <cstdio>
#include <cstring>
#include <iterator>
#include <iostream>
#include <string>

static size_t count(const RE2 &regex, const std::string &text) {
    re2::StringPiece match;
    size_t found = 0;
    size_t at = 0;
    while (at <= text.size() && regex.Match(text, at, text.size(), RE2::UNANCHORED, &match, 1)) {
        found++;
        at = static_cast<size_t>(match.end() - text.data()) + (match.empty() ? 1 : 0);
    }
    return found;
}

int main(int argc, char **argv) {
    if (argc != 4) {
        return 2;
    }
    const std::string text((std::istreambuf_iterator<char>(std::cin)), {});
    const RE2 regex(argv[1]);
    if (!regex.ok()) {
        return 2;
    }
    const long rounds = std::stol(argv[3]);
    size_t found = 0;
    const auto begun = std::chrono::steady_clock::now();
    for (long i = 0; i < rounds; i++) {
        if (std::strcmp(argv[2], "is_match") == 0) {
            found = RE2::PartialMatch(text, regex);
        } else {
            found = count(regex, text);
        }
    }
    const std::chrono::duration<double, std::nano> taken = std::chrono::steady_clock::now() - begun;
    std::printf("%f %zu\n", taken.count() / static_cast<double>(rounds), found);
    return 0;
}
