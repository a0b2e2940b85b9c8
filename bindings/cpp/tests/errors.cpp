// What is refused, and results that may be errors. The texts and the places of faults that are
// expected are those that the library for C is tested to have.
#include "want.hpp"

using rxl::Error;
using rxl::ErrorKind;
using rxl::Expected;
using rxl::Options;
using rxl::Regex;
using rxl::RegexList;

namespace {

// Whether a pattern is refused for its syntax, from this byte to that.
bool is_faulty(const char *pattern, std::size_t start, std::size_t end, bool is_cut_short,
               const Options &options = {}) {
    const auto refused = Regex::try_build(pattern, options);
    if (!is_error(ErrorKind::syntax, refused) || !refused.error().fault()) return false;
    const rxl::Fault fault = *refused.error().fault();
    return fault.start == start && fault.end == end && fault.is_cut_short == is_cut_short;
}

void faults() {
    WANT(is_faulty("*", 0, 1, false) && is_faulty("a*{x}", 2, 4, false));
    WANT(is_faulty("sam(?:wise|[a-)", 11, 15, false) && is_faulty("a\\qb", 1, 3, false));
    WANT(is_faulty("(?P<a>y)(?P<a>z)", 8, 14, false));
    WANT(is_faulty("\u2603[b-a]", 3, 7, false) && is_faulty("\u2603[b-", 3, 6, true));
    WANT(is_faulty("a(b", 1, 3, true) && is_faulty("(?:a(?:b", 4, 8, true));
    WANT(is_faulty(" a # )", 5, 6, false));
    Options verbose;
    verbose.ignore_whitespace = true;
    WANT(is_faulty("a # )\n )", 7, 8, false, verbose) && is_faulty("(a # )", 0, 6, true, verbose));
}

void refused_patterns() {
    try {
        Regex("a(b");
        WANT(false);
    } catch (const std::exception &error) {
        WANT(std::string_view(error.what()) == "found open group without closing ')'");
    }
    WANT(throws(ErrorKind::not_text, [] { Regex("\xff"); }));
    WANT(!Regex::try_build("\xff").error().fault() && !Regex::try_build("(").error().number());
    Options shallow;
    shallow.nest_limit = 1;
    const auto deep = Regex::try_build("((a))", shallow);
    WANT(is_error(ErrorKind::nesting, deep) && !deep.error().fault());
    WANT(Regex::try_build("(a)", shallow).has_value());
}

// Every call of both kinds that takes a start refuses one inside a character, and one beyond the
// end; each that takes a text refuses one that isn't UTF-8.
template <class Kind> void bad_texts(const Kind &regex) {
    for (const std::size_t start : {1U, 3U}) {
        WANT(is_error(ErrorKind::bad_offset, regex.try_is_match_at("\u00fc", start)));
        WANT(is_error(ErrorKind::bad_offset, regex.try_find_at("\u00fc", start)));
        WANT(is_error(ErrorKind::bad_offset, regex.try_captures_at("\u00fc", start)));
        WANT(is_error(ErrorKind::bad_offset, regex.try_find_counted_at("\u00fc", start)));
        WANT(is_error(ErrorKind::bad_offset, regex.try_is_match_anchored_at("\u00fc", start)));
        WANT(is_error(ErrorKind::bad_offset, regex.try_find_anchored_at("\u00fc", start)));
        WANT(is_error(ErrorKind::bad_offset, regex.try_captures_anchored_at("\u00fc", start)));
        WANT(throws(ErrorKind::bad_offset, [&] { (void)regex.is_match_at("\u00fc", start); }));
        WANT(throws(ErrorKind::bad_offset, [&] { (void)regex.find_at("\u00fc", start); }));
        WANT(throws(ErrorKind::bad_offset, [&] { (void)regex.captures_at("\u00fc", start); }));
    }
    WANT(regex.try_find_at("\u00fc", 2).has_value() && regex.try_find("a").has_value());
    for (const std::string_view bad : {"\xff", "a\xe2\x82", "\xed\xa0\x80"}) {
        WANT(is_error(ErrorKind::not_text, regex.try_is_match(bad)));
        WANT(is_error(ErrorKind::not_text, regex.try_find(bad)));
        WANT(is_error(ErrorKind::not_text, regex.try_captures(bad)));
        WANT(is_error(ErrorKind::not_text, regex.try_find_counted(bad)));
        WANT(is_error(ErrorKind::not_text, regex.try_is_full_match(bad)));
        WANT(is_error(ErrorKind::not_text, regex.try_full_match(bad)));
        WANT(is_error(ErrorKind::not_text, regex.try_full_captures(bad)));
        WANT(throws(ErrorKind::not_text, [&] { (void)regex.full_match(bad); }));
    }
    // It is as good as before.
    WANT(regex.is_match("a"));
}

void texts_of_kinds() {
    const auto says = [](ErrorKind kind, std::string_view text) {
        return std::string_view(Error(kind).what()) == text;
    };
    WANT(says(ErrorKind::not_text, "the bytes are not valid UTF-8"));
    WANT(says(ErrorKind::bad_offset, "an offset is out of range or inside a character"));
    WANT(says(ErrorKind::out_of_memory, "out of memory"));
    WANT(says(ErrorKind::no_group, "there is no group with this index"));
    WANT(says(ErrorKind::no_pattern, "there is no pattern with this number"));
    WANT(says(ErrorKind::size, "the pattern exceeds the size limit"));
    // The longest text that the library may write is taken whole.
    const std::string longest = repeated("x", 100);
    const std::size_t last = std::numeric_limits<std::size_t>::max();
    const Error numbered(ErrorKind::syntax, longest, std::nullopt, last);
    WANT(numbered.what() == "pattern " + std::to_string(last) + ": " + longest);
}

void results() {
    const Expected<int> seven = 7, none = Error(ErrorKind::size);
    WANT(seven.has_value() && *seven == 7 && seven.value() == 7 && seven.value_or(8) == 7);
    WANT(!none.has_value() && none.error().kind() == ErrorKind::size && none.value_or(8) == 8);
    WANT(throws(ErrorKind::size, [&] { (void)*none; }));
    WANT(throws(ErrorKind::size, [&] { (void)none.value(); }));
    Expected<std::string> text = "abc";
    WANT(text->size() == 3);
    const std::string taken = *std::move(text);
    WANT(taken == "abc");
    text = Error(ErrorKind::size);
    WANT(throws(ErrorKind::size, [&] { (void)text->size(); }));
    bool is_thrown = false;
    try {
        (void)seven.error();
    } catch (const std::bad_variant_access &) {
        is_thrown = true;
    }
    WANT(is_thrown);
}

} // namespace

void test_errors() {
    faults();
    refused_patterns();
    bad_texts(Regex("(a)"));
    bad_texts(RegexList{"b", "(a)"});
    texts_of_kinds();
    results();
    WANT(is_error(ErrorKind::bad_offset, Regex("a").try_shortest_match_at("\u00fc", 1)));
    WANT(is_error(ErrorKind::bad_offset, RegexList{"a"}.try_matches_at("\u00fc", 1)));
    WANT(is_error(ErrorKind::bad_offset, RegexList{"a"}.try_find_of_at(0, "\u00fc", 3)));
}
