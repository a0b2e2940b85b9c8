// Replacements. The values that are expected are those of the Rust crate.
#include "want.hpp"

using rxl::Captures;
using rxl::NoExpand;
using rxl::Regex;

namespace {

void templates() {
    const Regex name("(?<first>[a-z]+) (?<last>[a-z]+)( x)?");
    const auto fresh = [&](const char *by) { return name.replace_all("ada lovelace", by); };
    WANT(fresh("$last, $1") == "lovelace, ada");
    WANT(fresh("${last}s, $0") == "lovelaces, ada lovelace");
    // A name without braces is as long as it can be.
    WANT(fresh("[$lasts]") == "[]" && fresh("[$1_$2]") == "[lovelace]");
    WANT(fresh("[${1}_$2]") == "[ada_lovelace]");
    // Groups that took no part, or that don't exist.
    WANT(fresh("[$3$4$none${none}${}]") == "[]");
    WANT(fresh("$$1 $$$1") == "$1 $ada" && fresh("$ $- ${1 $") == "$ $- ${1 $");
    WANT(fresh("$1\u00fc$2") == "ada\u00fclovelace");
}

void how_many() {
    const Regex letters("[a-z]");
    WANT(letters.replace("abc", "<$0>") == "<a>bc");
    WANT(letters.replacen("abc", 2, "<$0>") == "<a><b>c");
    WANT(letters.replacen("abc", 0, "<$0>") == "<a><b><c>");
    WANT(letters.replacen("abc", 9, "wide") == "widewidewide");
    WANT(letters.replacen("abc", 2, "x") == "xxc");
    const auto twice = [](const Captures &caps) { return std::string(caps[0]) + "b"; };
    for (const std::size_t limit : {15U, 16U, 17U, 18U, 80U, 81U}) {
        const std::string whole = repeated("ab", limit) + repeated("a", 100 - limit);
        WANT(letters.replacen(repeated("a", 100), limit, "${0}b") == whole);
        WANT(letters.replacen(repeated("a", 100), limit, twice) == whole);
    }
    WANT(Regex("a*").replace_all("baac", "-") == "-b-c-");
    WANT(Regex("").replace_all("\u00fc\u20ac", "-") == "-\u00fc-\u20ac-");
    WANT(Regex("").replace_all({}, "-") == "-" && Regex("a").replace_all({}, "").empty());
    WANT(letters.replace_all("123", "x") == "123" && letters.replace_all("123", twice) == "123");
    // A new text that is far longer than the old one, and one that is far shorter.
    const std::string wide = repeated("wide", 1000);
    WANT(letters.replace_all("abc", wide) == wide + wide + wide);
    WANT(letters.replace_all(wide, "").empty());
}

void kinds() {
    const Regex word(R"((\w)(\w*))");
    const std::string owned = "$1.";
    const std::string_view view = owned;
    WANT(word.replace_all("to be", owned) == "t. b." && word.replace_all("to be", view) == "t. b.");
    WANT(word.replace_all(std::string("to be"), std::string("$2$1")) == "ot eb");
    WANT(word.replace_all("to be", NoExpand{"$1"}) == "$1 $1");
    WANT(word.replace("to be", NoExpand{owned}) == "$1. be");
    // A callable returns what converts to std::string_view.
    WANT(word.replace_all("to be", [](const Captures &) { return "x"; }) == "x x");
    WANT(word.replace_all("to be", [](const Captures &caps) { return caps[2]; }) == "o e");
    WANT(word.replace_all("to be", [](const Captures &caps) { return caps.whole(); }) == "to be");
    const auto twice = [](const auto &caps) {
        return std::to_string(2 * std::stoi(std::string(caps[0])));
    };
    WANT(Regex("[0-9]+").replace_all("7 of 9", twice) == "14 of 18");
}

void callables() {
    const Regex word(R"(\w+)");
    int count = 0;
    auto numbered = [&](const Captures &) { return std::to_string(++count); };
    WANT(word.replace_all("a b", numbered) == "1 2" && word.replace_all("c d", numbered) == "3 4");
    WANT(word.replace("a b", numbered) == "5 b" && count == 5);
    // It may search with the same regex, whose lock isn't held while it runs.
    const auto counted = word.replace_all("a b", [&](const Captures &caps) {
        return std::string(caps[0]) + (word.is_match("x") ? "+" : "-");
    });
    WANT(counted == "a+ b+");
    // What it throws passes through.
    const auto throwing = [](const Captures &) -> std::string { throw 7; };
    int thrown = 0;
    try {
        (void)word.try_replace_all("a b", throwing).has_value();
    } catch (int value) {
        thrown = value;
    }
    WANT(thrown == 7 && word.is_match("a"));
}

void results() {
    const Regex a("a");
    WANT(*a.try_replace_all("aa", "c") == "cc" && *a.try_replace("aa", "c") == "ca");
    WANT(*a.try_replacen("aaa", 2, "c") == "cca");
    const auto same = [](const Captures &caps) { return caps[0]; };
    for (const std::string_view bad : {"a\xff", "\xff"}) {
        WANT(is_error(rxl::ErrorKind::not_text, a.try_replace_all(bad, "c")));
        WANT(is_error(rxl::ErrorKind::not_text, a.try_replace_all(bad, same)));
    }
    WANT(is_error(rxl::ErrorKind::not_text, a.try_replace_all("a", "\xff")));
    WANT(throws(rxl::ErrorKind::not_text, [&] { a.replace("a\xff", "c"); }));
}

} // namespace

void test_replacing() {
    templates();
    how_many();
    kinds();
    callables();
    results();
}
