// The calls for several patterns. The values that are expected are those of the Rust crate.
#include "want.hpp"

#include <array>

using rxl::ListCaptures;
using rxl::ListMatch;
using rxl::ListPattern;
using rxl::Options;
using rxl::Regex;
using rxl::RegexList;

namespace {

// Whether a match of a list is this one.
template <class Match>
bool is(const std::optional<Match> &match, std::size_t number, std::size_t start, std::size_t end) {
    return is_at(match, start, end) && match->number() == number;
}

void searches() {
    const RegexList list{"if", "[a-z]+", "[0-9]+"};
    WANT(list.size() == 3 && !list.empty());
    WANT(is(list.find("(iffy)"), 0, 1, 3) && is(list.find_at("(iffy)", 2), 1, 2, 5));
    WANT(is(list.find("52 if"), 2, 0, 2) && !list.find("()") && list.find("52")->view() == "52");
    WANT(list.is_match("...7") && !list.is_match("..."));
    WANT(list.find("if") == list.find_anchored_at("if", 0) && list.find("if") != list.find("52"));
    // The same part of a text, by another pattern.
    const RegexList others{"x", "if"};
    WANT(list.find("if")->view() == others.find("if")->view());
    WANT(list.find("if") != others.find("if"));
    WANT(list.is_match_at("7...7", 1) && !list.is_match_at("7...", 1));
    const RegexList none(std::vector<std::string>{});
    WANT(none.empty() && !none.is_match("") && !none.find("a") && none.matches("a").empty());
    auto matches = none.find_iter("a");
    auto groups = none.captures_iter("a");
    WANT(matches.begin() == matches.end() && groups.begin() == groups.end());
}

void whole_and_anchored() {
    const RegexList kinds{"[0-9]+", "[0-9]+px", "[a-z]+"};
    WANT(kinds.full_match("72px")->number() == 1 && !kinds.full_match("72 px"));
    WANT(kinds.is_full_match("px") && kinds.full_captures("72")->number() == 0);
    const RegexList tokens{"[0-9]+", "[a-z]+", "[-+*/]"};
    std::size_t at = 0;
    std::vector<std::size_t> numbers;
    while (const auto token = tokens.find_anchored_at("x1+42?", at)) {
        numbers.push_back(token->number());
        at = token->end();
    }
    WANT(at == 5 && numbers == std::vector<std::size_t>{1, 0, 2, 0});
    WANT(!tokens.is_match_anchored_at("x1+42?", 5) && tokens.is_match_anchored_at("x1+42?", 4));
    WANT(tokens.captures_anchored_at("x1+42?", 3)->whole().view() == "42");
}

void groups() {
    const RegexList list{"([a-z]+)=([0-9]+)?", "#(.*)", "(A)(B)(C)(D)(E)"};
    const auto width = list.captures("width=");
    WANT(width->number() == 0 && width->size() == 3 && (*width)[1] == "width" && !width->get(2));
    const auto note = list.captures("\u00fc#note");
    WANT(note->number() == 1 && note->size() == 2 && is_at(note->get(1), 3, 7));
    const auto five = list.captures_at("#ABCDE", 1);
    WANT(five->number() == 2 && five->size() == 6 && (*five)[5] == "E");
    WANT(!list.captures("width"));
}

void names() {
    std::optional<ListCaptures> kept;
    {
        const RegexList list{"(?<key>[a-z]+)=", "#(?<note>.)(?<rest>.*)"};
        const auto caps = list.captures("#note");
        WANT((*caps)["note"] == "n" && (*caps)["rest"] == "ote" && !caps->name("key"));
        list.load_names();
        WANT(list.try_load_names().has_value());
        kept = list.captures("width=");
    }
    WANT((*kept)["key"] == "width" && !kept->name("note"));
}

std::vector<std::pair<std::size_t, Offsets>> all(const RegexList &list, std::string_view text) {
    std::vector<std::pair<std::size_t, Offsets>> found, groups;
    for (const ListMatch &match : list.find_iter(text))
        found.emplace_back(match.number(), offsets(match));
    for (const ListCaptures &caps : list.captures_iter(text))
        groups.emplace_back(caps.number(), offsets(caps.whole()));
    WANT(groups == found);
    return found;
}

void all_matches() {
    using All = std::vector<std::pair<std::size_t, Offsets>>;
    WANT(all({"if", "[a-z]+", "[0-9]+"}, "if x1") == All{{0, {0, 2}}, {1, {3, 4}}, {2, {4, 5}}});
    WANT(all({"a*", "b"}, "baac") == All{{0, {0, 0}}, {0, {1, 3}}, {0, {4, 4}}});
    WANT(all({"", "b"}, "\u00fc\u20ac") == All{{0, {0, 0}}, {0, {2, 2}}, {0, {5, 5}}});
    WANT(all({"x"}, "abc").empty());
    const RegexList two{"[a-z]", "([0-9])"};
    for (const std::size_t number : {0U, 1U, 15U, 16U, 17U, 79U, 80U, 81U, 336U, 337U, 10000U}) {
        for (const char *end : {"", "--"}) {
            const auto found = all(two, repeated("a1", number).substr(0, number) + end);
            WANT(found.size() == number);
            for (std::size_t k = 0; k < found.size(); k++)
                WANT(found[k].first == k % 2 && found[k].second == Offsets(k, k + 1));
        }
    }
}

void all_groups() {
    const RegexList list{"(?<key>[a-z]+)=([0-9]+)?", "#(?<note>.)", "(?:(A)){2}(B)(C)(D)"};
    std::vector<ListCaptures> told;
    for (const ListCaptures &caps : list.captures_iter("a=1 #x b= AABCD")) told.push_back(caps);
    WANT(told.size() == 4 && told[0].number() == 0 && told[1].number() == 1);
    WANT(told[0]["key"] == "a" && told[0][2] == "1" && told[1]["note"] == "x");
    WANT(!told[1].name("key") && is_at(told[2].get(1), 7, 8) && !told[2].get(2));
    WANT(told[3].number() == 2 && told[3].size() == 5 && is_at(told[3].get(1), 11, 12));
    // More groups than there is room for at first, and more matches.
    const RegexList wide{"[0-9]", repeated("(a)", 100) + "|(x)"};
    const std::string text = repeated("a", 100) + repeated("7x", 2000);
    std::size_t k = 0;
    for (const ListCaptures &caps : wide.captures_iter(text)) {
        if (k == 0) WANT(is_at(caps.get(100), 99, 100));
        if (k == 3999) WANT(caps.number() == 0 && caps.size() == 1);
        if (k == 4000) WANT(caps.get(101)->view() == "x");
        k++;
    }
    WANT(k == 4001);
    for (int round = 0; round < 2; round++) {
        WANT(wide.captures(text)->size() == 102 && (*wide.captures(text))[100] == "a");
        WANT(wide.captures_at(text, 100)->size() == 1);
    }
}

void which() {
    using Which = std::vector<bool>;
    const RegexList list{"[0-9]+", "[a-z]+", "sam"};
    WANT(list.matches("frodo 7") == Which{true, true, false});
    WANT(list.matches("sam") == Which{false, true, true} && list.matches("") == Which(3));
    WANT(list.matches_at("7 sam", 3) == Which{false, true, false});
    WANT(*list.try_matches("7") == Which{true, false, false});
}

// The calls for one pattern of a list return what its own regex returns.
void one_of_them() {
    const std::vector<std::string> patterns = {"^a", "(?<x>b)(c)?", "a|(d)", R"(x*\b)",
                                               "(a)?(b)(c)(d)(e)?"};
    const RegexList list(patterns);
    for (std::size_t number = 0; number < patterns.size(); number++) {
        const Regex own(patterns[number]);
        WANT(list.may_be_empty(number) == own.may_be_empty());
        for (const std::string_view text : {"", "abcb", "ad", "ba", "xx", "abcde"}) {
            for (std::size_t start = 0; start <= text.size(); start++) {
                const auto found = own.find_at(text, start);
                WANT(list.find_of_at(number, text, start) == found);
                WANT(list.is_match_of_at(number, text, start) == found.has_value());
                const auto caps = own.captures_at(text, start);
                const auto of = list.captures_of_at(number, text, start);
                WANT(caps.has_value() == of.has_value());
                if (!caps || !of) continue;
                WANT(caps->size() == of->size() && caps->name("x") == of->name("x"));
                for (std::size_t k = 0; k < caps->size(); k++) WANT(caps->get(k) == of->get(k));
            }
        }
    }
    WANT(list.is_match_of(2, "xd") && !list.is_match_of(0, "xd"));
    WANT(is_at(list.find_of(2, "xd"), 1, 2) && (*list.captures_of(1, "abc"))["x"] == "b");
    WANT(!list.captures_of(1, "ac") && *list.try_is_match_of(2, "xd"));
    WANT(list.try_find_of(2, "xd")->has_value() && list.try_captures_of(1, "abc")->has_value());
}

void no_such_pattern() {
    const RegexList list{"a", "b"};
    const auto kind = rxl::ErrorKind::no_pattern;
    WANT(throws(kind, [&] { (void)list.is_match_of(2, "a"); }));
    WANT(throws(kind, [&] { (void)list.find_of(2, "a"); }));
    WANT(throws(kind, [&] { (void)list.may_be_empty(2); }));
    WANT(is_error(kind, list.try_captures_of(static_cast<std::size_t>(-1), "a")));
    WANT(!list.pattern(2) && list.pattern(1) == "b");
}

void costs() {
    const RegexList list{"(?:a|b)*[cx]", "(?:b|a)*[dx]"};
    const std::string text = repeated("ab", 50);
    const auto none = list.find_counted(text);
    WANT(!none.found && none.cost.tried > 0 && none.cost.tried <= (list.arrows() + 2) * 101);
    WANT(list.places() > 8 && is(list.find_counted_at("cabd", 1).found, 1, 1, 4));
}

void building() {
    Options any_case;
    any_case.case_insensitive = true;
    const RegexList list({{"frodo", any_case}, "sam"});
    WANT(list.is_match("FRODO") && !list.is_match("SAM"));
    WANT(list.clone().is_match("FRODO") && list.try_clone()->pattern(1)->size() == 3);
    const std::vector<ListPattern> own = {{"frodo", any_case}, {std::string("sam")}};
    WANT(RegexList(own).is_match("Frodo"));
    const std::array<const char *, 2> bare = {"a", "b"};
    WANT(RegexList(bare).size() == 2 && RegexList::try_build(bare).has_value());
    const RegexList copy = list;
    WANT(copy.is_match("FRODO") && is(RegexList{"a", "a"}.find("a"), 0, 0, 1));
    const auto refused = RegexList::try_build({"a", "b(c", "d)"});
    WANT(is_error(rxl::ErrorKind::syntax, refused));
    WANT(refused.error().number() == 1 && refused.error().fault()->start == 1);
    WANT(refused.error().fault()->is_cut_short);
    WANT(std::string_view(refused.error().what()) ==
         "pattern 1: found open group without closing ')'");
    WANT(throws(rxl::ErrorKind::not_text, [] { RegexList({"\xff"}); }));
}

// A list of no pattern, and one of an empty pattern, in a text whose pointer is null.
void nothing() {
    const std::string_view text;
    const RegexList none((std::vector<std::string>()));
    WANT(none.empty() && !none.is_match(text) && !none.find("a") && none.matches(text).empty());
    const RegexList one{std::string_view()};
    WANT(one.size() == 1 && is(one.find(text), 0, 0, 0) && one.matches(text)[0]);
    WANT(one.captures(text)->size() == 1 && is_at(one.find_of(0, text), 0, 0));
}

} // namespace

void test_lists() {
    searches();
    whole_and_anchored();
    groups();
    names();
    all_matches();
    all_groups();
    which();
    one_of_them();
    no_such_pattern();
    costs();
    building();
    nothing();
}
