// Refuses each request for memory in turn, the first, then the second and so on, of the library and
// of the header: each call then returns what it returns with memory, or that it ran out of it, and
// nothing leaks. And counts requests: a search asks for no more than the library does.
//
// It is linked with --wrap for malloc, realloc and free, over which it has its operators new and
// delete.
#include "want.hpp"

#include <new>

using rxl::Captures;
using rxl::Expected;
using rxl::Match;
using rxl::Regex;
using rxl::RegexList;
using rxl::Searcher;

extern "C" {
void *__real_malloc(std::size_t size);
void *__real_realloc(void *old, std::size_t size);
void __real_free(void *place);
void *__wrap_malloc(std::size_t size);
void *__wrap_realloc(void *old, std::size_t size);
void __wrap_free(void *place);
}

namespace {

long allowed = -1; // how many requests are still granted; below 0 all are
long requests;     // how many there were
long refused;      // how many of them were refused
long blocks;       // how many blocks are in use

bool is_granted() {
    requests++;
    if (allowed == 0) {
        refused++;
        return false;
    }
    if (allowed > 0) allowed--;
    return true;
}

} // namespace

void *__wrap_malloc(std::size_t size) {
    void *place = is_granted() ? __real_malloc(size) : nullptr;
    if (place != nullptr) blocks++;
    return place;
}

void *__wrap_realloc(void *old, std::size_t size) {
    return is_granted() ? __real_realloc(old, size) : nullptr;
}

void __wrap_free(void *place) {
    if (place != nullptr) blocks--;
    __real_free(place);
}

void *operator new(std::size_t size) {
    if (void *place = __wrap_malloc(size)) return place;
    throw std::bad_alloc();
}
void operator delete(void *place) noexcept { __wrap_free(place); }
void operator delete(void *place, std::size_t) noexcept { __wrap_free(place); }

namespace {

// Runs what returns whether it has found what it should, and asks for memory. Where a request was
// refused, it may throw std::bad_alloc in place of that.
template <class Run> void refuse_in_turn(const char *name, Run run) {
    for (long granted = 0;; granted++) {
        const long before = blocks;
        bool is_so = false, is_thrown = false;
        allowed = granted;
        refused = 0;
        try {
            is_so = run();
        } catch (const std::bad_alloc &) {
            is_thrown = true;
        }
        allowed = -1;
        if (!(is_so || (is_thrown && refused > 0)) || blocks != before) {
            failed++;
            std::printf("%s with %ld requests granted: %d, %d, %ld blocks\n", name, granted, is_so,
                        is_thrown, blocks - before);
        }
        if (refused > 0) continue;
        WANT(granted > 0);
        break;
    }
}

// Whether there is no error but that of memory, which the throwing form of the call throws.
template <class T> bool is_there(const Expected<T> &result) {
    if (result.has_value()) return true;
    if (result.error().kind() == rxl::ErrorKind::out_of_memory) throw std::bad_alloc();
    return false;
}

const char *const pattern = "(?<a_name_that_takes_memory>x)|(y{2})";

void building() {
    refuse_in_turn("Regex", [] { return Regex(pattern).captures_len() == 3; });
    refuse_in_turn("try_build", [] { return is_there(Regex::try_build(pattern)); });
    refuse_in_turn("a refusal", [] {
        const auto bad = Regex::try_build("(?:(?<a>b)(c[b-a]");
        return !is_there(bad) && bad.error().kind() == rxl::ErrorKind::syntax;
    });
    refuse_in_turn("RegexList", [] {
        const RegexList list{pattern, "z"};
        return list.size() == 2 && is_there(list.try_clone()) && is_there(list.try_load_names());
    });
    const Regex regex(pattern);
    refuse_in_turn("clones", [&] {
        return is_there(regex.try_clone()) && is_there(Searcher::try_build(regex));
    });
    refuse_in_turn("escape", [] { return rxl::escape("a text that takes memory.").size() == 26; });
}

void searching() {
    const Regex regex(pattern);
    const std::string text = repeated("x", 40) + "yy";
    refuse_in_turn("captures", [&] { return is_at(regex.captures_at(text, 40)->get(2), 40, 42); });
    refuse_in_turn("try_captures", [&] { return is_there(regex.try_captures(text)); });
    refuse_in_turn("replace_all", [&] { return regex.replace_all(text, "$2").size() == 2; });
    refuse_in_turn("a replacement of more", [&] {
        return regex.replace_all(text, "$0, and as often more").size() == 42 + 41 * 19;
    });
    refuse_in_turn("a callable", [&] {
        return regex.replace_all(text, [](const Captures &) { return "z"; }).size() == 41;
    });
    const std::vector<std::string> texts = {"y", "yx"};
    refuse_in_turn("find_each", [&] { return is_at(regex.find_each(texts)[1], 1, 2); });
    const RegexList list{"(z)", pattern};
    refuse_in_turn("a list", [&] {
        return list.matches(text)[1] && list.captures(text)->number() == 1 &&
               list.captures_of(1, text)->size() == 3;
    });
    refuse_in_turn("names", [] {
        const RegexList fresh{"(?<a>x)"};
        return (*fresh.captures("x"))["a"] == "x";
    });
    refuse_in_turn("a searcher", [&] {
        Searcher searcher(regex);
        return searcher.captures(text)->size() == 3 && searcher.find_each(texts).size() == 2;
    });
}

// Goes over a range, whose items may be errors of memory: these come last.
template <class Range> std::size_t counted(Range range) {
    std::size_t count = 0;
    bool is_over = false;
    for (const auto &item : range) {
        WANT(!is_over);
        is_over = !item.has_value();
        if (is_over) WANT(item.error().kind() == rxl::ErrorKind::out_of_memory && refused > 0);
        if (!is_over) count++;
    }
    if (is_over) throw std::bad_alloc();
    return count;
}

void iterating() {
    const Regex regex(pattern);
    const RegexList list{"(z)", pattern};
    const std::string text = repeated("x", 40) + "yy";
    refuse_in_turn("find_iter", [&] {
        std::size_t size = 0;
        for (const Match &match : regex.find_iter(text)) size += match.size();
        return size == 42;
    });
    refuse_in_turn("captures_iter", [&] {
        std::size_t count = 0;
        for (const Captures &caps : regex.captures_iter(text)) count += caps.size();
        return count == 3 * 41;
    });
    refuse_in_turn("try_find_iter", [&] { return counted(regex.try_find_iter(text)) == 41; });
    refuse_in_turn("try_captures_iter", [&] {
        return counted(regex.try_captures_iter(text)) == 41 &&
               counted(list.try_captures_iter(text)) == 41;
    });
    refuse_in_turn("try_split", [&] {
        return counted(regex.try_split(text)) == 42 && counted(regex.try_splitn(text, 20)) == 20;
    });
}

template <class Run> long requests_of(Run run) {
    run(); // what a first search keeps
    const long before = requests;
    run();
    return requests - before;
}

// How often the library itself asks for memory in a search.
template <class Call> long requests_of_library(Call call) {
    regex_lite handle = REGEX_LITE_NOTHING;
    const regex_lite_options options = REGEX_LITE_DEFAULTS;
    std::uint8_t message[100];
    std::size_t len = 0;
    const auto bytes = reinterpret_cast<const std::uint8_t *>(pattern);
    WANT(regex_lite_new(&handle, bytes, std::string_view(pattern).size(), &options, message, 100,
                        &len) == REGEX_LITE_YES);
    const long count = requests_of([&] { call(&handle); });
    regex_lite_free(&handle);
    return count;
}

void own_requests() {
    const Regex regex(pattern);
    Searcher searcher(regex);
    for (const std::string_view text : {"abyy", "ab"}) {
        const auto bytes = reinterpret_cast<const std::uint8_t *>(text.data());
        regex_lite_span spans[3];
        std::size_t count = 0;
        const long matching = requests_of_library(
            [&](regex_lite *own) { regex_lite_is_match(own, bytes, text.size(), 0); });
        const long finding = requests_of_library(
            [&](regex_lite *own) { regex_lite_find(own, bytes, text.size(), 0, spans); });
        const long capturing = requests_of_library([&](regex_lite *own) {
            regex_lite_captures(own, bytes, text.size(), 0, spans, 3, &count);
        });
        WANT(requests_of([&] { (void)regex.is_match(text); }) == matching);
        WANT(requests_of([&] { (void)regex.try_find(text).has_value(); }) == finding);
        WANT(requests_of([&] { (void)searcher.find(text); }) == 0);
        // The groups that a regex returns are in memory of their own. A searcher keeps all memory.
        const bool is_there = text.size() == 4;
        WANT(requests_of([&] { (void)regex.captures(text); }) == capturing + is_there);
        WANT(requests_of([&] { (void)searcher.captures(text); }) == 0);
    }
}

} // namespace

int main() {
    building();
    searching();
    iterating();
    own_requests();
    WANT(blocks == 0);
    if (failed == 0) std::puts("memory: all is so");
    return failed != 0;
}
