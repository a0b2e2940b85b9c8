// Iterators over all matches and pieces. The values that are expected are those of the Rust crate.
#include "want.hpp"

#include <algorithm>

using rxl::Captures;
using rxl::Match;
using rxl::Regex;

namespace {

// Numbers of matches at which there is more room, and those beside them.
constexpr std::size_t numbers[] = {0, 1, 2, 14, 15, 16, 17, 79, 80, 81, 335, 336, 337, 10000};

std::vector<Offsets> ranges(const char *pattern, std::string_view text) {
    std::vector<Offsets> all;
    const Regex regex(pattern);
    for (const Match &match : regex.find_iter(text)) all.push_back(offsets(match));
    std::vector<Offsets> groups;
    for (const Captures &caps : regex.captures_iter(text)) groups.push_back(offsets(caps.whole()));
    WANT(groups == all);
    return all;
}

using Pieces = std::vector<std::string_view>;

Pieces pieces(const char *pattern, rxl::Text text) {
    auto split = Regex(pattern).split(text);
    return Pieces(split.begin(), split.end());
}

void empty_matches() {
    using All = std::vector<Offsets>;
    WANT(ranges("a*", "baac") == All{{0, 0}, {1, 3}, {4, 4}});
    WANT(ranges("", "abc") == All{{0, 0}, {1, 1}, {2, 2}, {3, 3}});
    WANT(ranges("", "") == All{{0, 0}} && ranges("", {}) == All{{0, 0}});
    WANT(ranges("(?m)^", "a\nb\n") == All{{0, 0}, {2, 2}, {4, 4}});
    WANT(ranges(R"(\b)", "ab c") == All{{0, 0}, {2, 2}, {3, 3}, {4, 4}});
    WANT(ranges("a|", "aab") == All{{0, 1}, {1, 2}, {3, 3}});
    WANT(ranges("x", "abc").empty());
    // Characters of 2, 3 and 4 bytes.
    WANT(ranges("", "\u00fc\u20ac\U0001f4a9") == All{{0, 0}, {2, 2}, {5, 5}, {9, 9}});
    WANT(ranges(".", "\u00fc\u20ac\U0001f4a9") == All{{0, 2}, {2, 5}, {5, 9}});
    WANT(ranges("\u20ac?", "\u00fc\u20ac\U0001f4a9") == All{{0, 0}, {2, 5}, {9, 9}});
}

void numbers_of_matches() {
    const Regex regex("(a)(b)?");
    for (const std::size_t number : numbers) {
        // The text ends in a match, and then it doesn't.
        for (const char *end : {"", "--"}) {
            const std::string text = repeated("-a", number) + end;
            std::size_t k = 0;
            for (const Match &match : regex.find_iter(text)) {
                WANT(offsets(match) == Offsets(2 * k + 1, 2 * k + 2));
                k++;
            }
            WANT(k == number);
            k = 0;
            for (const Captures &caps : regex.captures_iter(text)) {
                WANT(is_at(caps.get(1), 2 * k + 1, 2 * k + 2) && caps.size() == 3 && !caps.get(2));
                k++;
            }
            WANT(k == number);
        }
    }
}

void splits() {
    WANT(pieces(R"([ \t]+)", "a b \t  c\td    e") == Pieces{"a", "b", "c", "d", "e"});
    WANT(pieces("X", "XaXbX") == Pieces{"", "a", "b", ""});
    WANT(pieces("a*", "baac") == Pieces{"", "b", "c", ""});
    WANT(pieces("X", "") == Pieces{""} && pieces("X", "abc") == Pieces{"abc"});
    WANT(pieces("\u20ac", "\u00fc\u20ac\U0001f4a9") == Pieces{"\u00fc", "\U0001f4a9"});
    WANT(pieces("", "\u00fc\u20ac") == Pieces{"", "\u00fc", "\u20ac", ""});
    const Regex other(R"(\W+)");
    const auto some = [&](std::size_t limit) {
        auto split = other.splitn("Hey! How are you?", limit);
        return Pieces(split.begin(), split.end());
    };
    WANT(some(3) == Pieces{"Hey", "How", "are you?"});
    WANT(some(1) == Pieces{"Hey! How are you?"} && some(0).empty());
    WANT(some(9) == Pieces{"Hey", "How", "are", "you", ""});
}

void numbers_of_pieces() {
    const Regex comma(",");
    for (const std::size_t number : numbers) {
        const std::string text = repeated("a,", number);
        for (const std::size_t limit :
             {std::size_t(1), std::size_t(2), std::size_t(15), std::size_t(16), std::size_t(17),
              std::size_t(18), number, number + 1, number + 2}) {
            std::string joined;
            std::size_t count = 0;
            for (const std::string_view piece : comma.splitn(text, limit)) {
                joined += (count++ == 0 ? "" : ",");
                joined += piece;
            }
            WANT(count == std::min(limit, number + 1));
            WANT(joined == (limit == 0 ? "" : text));
        }
        std::size_t count = 0;
        for (const std::string_view piece : comma.split(text))
            WANT(piece == (count++ < number ? "a" : ""));
        WANT(count == number + 1);
    }
}

// Ranges go with the algorithms of the standard library.
void algorithms() {
    const Regex digit("[0-9]");
    auto matches = digit.find_iter("1a2b3");
    std::vector<Match> all(matches.begin(), matches.end());
    WANT(all.size() == 3 && all[2].view() == "3");
    auto again = digit.find_iter("1a2b3");
    WANT(std::find_if(again.begin(), again.end(),
                      [](const Match &match) { return match.view() == "2"; })
             ->start() == 2);
    auto third = digit.captures_iter("1a2b3");
    WANT(std::distance(third.begin(), third.end()) == 3);
    auto steps = digit.find_iter("1a2");
    auto it = steps.begin();
    WANT((*it++).view() == "1" && it->view() == "2" && it != steps.end());
    WANT(++it == steps.end());
}

// No lock is held while the body of a loop runs, and loops over one regex don't meet.
void nested_loops() {
    const Regex digit("[0-9]");
    std::string pairs;
    for (const Match &first : digit.find_iter("1a2")) {
        for (const Match &second : digit.find_iter("3b4")) {
            pairs += first.view();
            pairs += second.view();
            WANT(digit.is_match(second.view()));
        }
    }
    WANT(pairs == "13142324");
}

void items_that_may_be_errors() {
    const Regex regex("(a)|b");
    std::size_t count = 0;
    for (const auto &match : regex.try_find_iter("ab")) count += match->size();
    for (const auto &caps : regex.try_captures_iter("ab")) count += caps->size();
    for (const auto &piece : regex.try_split("1a2")) count += piece->size();
    for (const auto &piece : regex.try_splitn("1a2b3", 2)) count += piece->size();
    WANT(count == 2 + 4 + 2 + 4);
    // An error is the last item.
    std::size_t errors = 0, items = 0;
    for (const auto &match : regex.try_find_iter("a\xff")) {
        items++;
        errors += is_error(rxl::ErrorKind::not_text, match);
    }
    for (const auto &caps : regex.try_captures_iter("a\xff")) {
        items++;
        errors += is_error(rxl::ErrorKind::not_text, caps);
    }
    for (const auto &piece : regex.try_split("a\xff")) {
        items++;
        errors += is_error(rxl::ErrorKind::not_text, piece);
    }
    WANT(items == 3 && errors == 3);
    WANT(throws(rxl::ErrorKind::not_text, [&] {
        for (const Match &match : regex.find_iter("a\xff")) (void)match;
    }));
}

} // namespace

void test_iterators() {
    empty_matches();
    numbers_of_matches();
    splits();
    numbers_of_pieces();
    algorithms();
    nested_loops();
    items_that_may_be_errors();
}
