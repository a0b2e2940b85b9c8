// The program of main.rt.txt over RE2, Debian's package libre2-dev.

#include <re2/re2.h>
#include <re2/set.h>

#include <cstdint>
#include <cstdlib>
#include <iostream>
#include <iterator>
#include <string>
#include <vector>

using re2::StringPiece;

namespace {

// What the calls have returned.
struct Tally {
    uint64_t found = 0;
    uint64_t sum = 0;

    void add(uint64_t number) { sum = sum * 31 + number; }

    void add_length(size_t length) {
        found += 1;
        add(length);
    }

    void add_match(StringPiece match, StringPiece haystack) {
        if (match.data() == nullptr) return;
        found += 1;
        add(match.data() - haystack.data());
        add(match.data() - haystack.data() + match.size());
    }
};

// The first match from this offset on, and its groups, as many as there is room for.
bool find(const RE2 &regex, StringPiece haystack, size_t start, std::vector<StringPiece> &groups) {
    return regex.Match(haystack, start, haystack.size(), RE2::UNANCHORED, groups.data(),
                       static_cast<int>(groups.size()));
}

// Calls this with the groups of each match, one after another. None is empty.
template <typename Each>
void each_match(const RE2 &regex, StringPiece haystack, std::vector<StringPiece> &groups,
                Each each) {
    size_t start = 0;
    while (find(regex, haystack, start, groups)) {
        each();
        start = groups[0].end() - haystack.begin();
    }
}

void make_call(Tally &tally, const std::string &call, const RE2 &regex, StringPiece haystack,
               std::vector<StringPiece> &groups) {
    if (call == "all" || call == "groups") {
        each_match(regex, haystack, groups, [&] {
            for (StringPiece group : groups) tally.add_match(group, haystack);
        });
    } else if (call == "split") {
        size_t last = 0;
        each_match(regex, haystack, groups, [&] {
            tally.add_length(groups[0].begin() - haystack.begin() - last);
            last = groups[0].end() - haystack.begin();
        });
        tally.add_length(haystack.size() - last);
    } else if (call == "replace") {
        std::string text(haystack.data(), haystack.size());
        RE2::GlobalReplace(&text, regex, "<>");
        tally.add_length(text.size());
    } else if (call == "is-match") {
        tally.found += RE2::PartialMatch(haystack, regex);
    } else if (find(regex, haystack, 0, groups)) {
        for (StringPiece group : groups) tally.add_match(group, haystack);
    }
}

void add_which(Tally &tally, const std::vector<std::string> &patterns, StringPiece haystack,
               const RE2::Set &set) {
    std::vector<int> which;
    set.Match(haystack, &which);
    std::vector<bool> told(patterns.size());
    for (int number : which) told[number] = true;
    for (size_t number = 0; number < told.size(); number++) {
        if (told[number]) tally.add_length(number);
    }
}

}  // namespace

int main(int count, char **words) {
    if (count < 4) {
        std::cerr << "usage: peer CALL text|lines ROUNDS PATTERN..\n";
        return 1;
    }
    std::string call = words[1], unit = words[2];
    long rounds = std::atol(words[3]);
    std::vector<std::string> patterns(words + 4, words + count);
    std::string text{std::istreambuf_iterator<char>(std::cin), {}};
    std::vector<StringPiece> haystacks;
    if (unit == "lines") {
        for (size_t at = 0; at < text.size();) {
            size_t end = std::min(text.find('\n', at), text.size());
            haystacks.emplace_back(text.data() + at, end - at);
            at = end + 1;
        }
    } else {
        haystacks.emplace_back(text);
    }
    RE2::Options options;
    options.set_max_mem(256 << 20);
    Tally tally;
    std::string pattern = patterns.empty() ? "" : patterns[0];
    if (call == "tokens") {
        pattern.clear();
        for (const std::string &one : patterns) {
            pattern += (pattern.empty() ? "(?:" : "|(?:") + one + ")";
        }
        call = "all";
    }
    if (call == "compile") {
        for (long round = 0; round < rounds; round++) {
            for (const std::string &one : patterns) {
                RE2 regex(one, options);
                tally.add_length(regex.NumberOfCapturingGroups() + 1);
            }
        }
    } else if (call == "which") {
        RE2::Set set(options, RE2::UNANCHORED);
        for (const std::string &one : patterns) set.Add(one, nullptr);
        set.Compile();
        for (long round = 0; round < rounds; round++) {
            for (StringPiece haystack : haystacks) add_which(tally, patterns, haystack, set);
        }
    } else {
        RE2 regex(pattern, options);
        bool all_groups = call == "groups" || call == "kept-groups";
        std::vector<StringPiece> groups(all_groups ? regex.NumberOfCapturingGroups() + 1 : 1);
        for (long round = 0; round < rounds; round++) {
            for (StringPiece haystack : haystacks) {
                make_call(tally, call, regex, haystack, groups);
            }
        }
    }
    std::cout << tally.found << " " << tally.sum << "\n";
}
