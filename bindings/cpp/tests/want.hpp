// What the tests share: conditions that they count, and what is thrown.
#ifndef WANT_HPP
#define WANT_HPP

#include <regex_lite.hpp>

#include <cstdio>
#include <string>
#include <string_view>
#include <utility>
#include <vector>

inline int failed = 0;

inline void want(bool is_so, const char *condition, const char *file, int line) {
    if (is_so) return;
    failed++;
    std::printf("%s:%d: not so: %s\n", file, line, condition);
}

// The condition may have commas.
#define WANT(...) want((__VA_ARGS__), #__VA_ARGS__, __FILE__, __LINE__)

// Offsets of a match.
using Offsets = std::pair<std::size_t, std::size_t>;

template <class Match> Offsets offsets(const Match &match) { return {match.start(), match.end()}; }

// Whether a match that may not be there has these offsets.
template <class Match>
bool is_at(const std::optional<Match> &match, std::size_t start, std::size_t end) {
    return match && match->start() == start && match->end() == end;
}

// Whether a call throws an error of this kind.
template <class Call> bool throws(rxl::ErrorKind kind, Call call) {
    try {
        call();
    } catch (const rxl::Error &error) {
        return error.kind() == kind;
    }
    return false;
}

// Whether a result is an error of this kind.
template <class T> bool is_error(rxl::ErrorKind kind, const rxl::Expected<T> &result) {
    return !result.has_value() && result.error().kind() == kind;
}

// A text, as often as said.
inline std::string repeated(std::string_view text, std::size_t times) {
    std::string all;
    while (times-- > 0) all += text;
    return all;
}

// The tests of one file each.
void test_errors();
void test_groups();
void test_iterators();
void test_lists();
void test_replacing();
void test_searcher();
void test_searches();
void test_types();

#endif
