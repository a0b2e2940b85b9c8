// Searches by an owner that one thread uses. The values that are expected are those of the Rust
// crate, text by text.
#include "want.hpp"

using rxl::Captures;
using rxl::Regex;
using rxl::Searcher;

namespace {

void searches() {
    const Regex regex("(?<key>[a-z]+)=([0-9]+)?");
    Searcher searcher(regex);
    WANT(searcher.is_match("#width=") && !searcher.is_match("width"));
    WANT(searcher.is_match_at("a=b=", 2) && !searcher.is_match_at("a=b=", 3));
    WANT(is_at(searcher.find("#width=7"), 1, 8) && is_at(searcher.find_at("a=b=", 2), 2, 4));
    WANT(!searcher.find("width") && *searcher.try_is_match("a="));
    const Captures *caps = searcher.captures("#width=");
    WANT(caps->size() == 3 && (*caps)["key"] == "width" && !caps->get(2));
    // The groups of the last match are lent until the next call, and a copy is kept.
    const Captures kept = *caps;
    WANT((*searcher.captures_at("a=1 b=2", 3))[2] == "2" && kept["key"] == "width");
    WANT(searcher.captures("width") == nullptr && kept.size() == 3);
}

void many_texts() {
    Searcher searcher(Regex("^(warn|error)|n$"));
    const std::vector<std::string> lines = {"warn 1", "", "ok", "\u00fc warn", "error"};
    for (int round = 0; round < 2; round++) {
        const auto &found = searcher.find_each(lines);
        WANT(found.size() == 5 && is_at(found[0], 0, 4) && !found[1] && !found[2]);
        WANT(is_at(found[3], 6, 7) && is_at(found[4], 0, 5));
        WANT(searcher.find_each(std::vector<std::string_view>{"n"}).size() == 1);
        WANT(searcher.find_each(std::vector<std::string_view>()).empty());
    }
}

void refusals() {
    Searcher searcher(Regex("a"));
    const auto bad = rxl::ErrorKind::bad_offset, no_text = rxl::ErrorKind::not_text;
    WANT(is_error(bad, searcher.try_is_match_at("\u00fc", 1)));
    WANT(is_error(bad, searcher.try_find_at("\u00fc", 3)));
    WANT(is_error(bad, searcher.try_captures_at("\u00fc", 1)));
    WANT(is_error(no_text, searcher.try_find("\xff")));
    WANT(is_error(no_text, searcher.try_captures("\xff")));
    const std::vector<const char *> texts = {"a", "\xff"};
    WANT(is_error(no_text, searcher.try_find_each(texts)));
    WANT(throws(no_text, [&] { searcher.find_each(texts); }));
    WANT(throws(bad, [&] { (void)searcher.captures_at("", 1); }) && searcher.is_match("a"));
}

void owners() {
    std::optional<Searcher> kept;
    {
        const Regex regex("(a)b");
        auto built = Searcher::try_build(regex);
        kept.emplace(*std::move(built));
    }
    WANT((*kept->captures("ab"))[1] == "a");
    Searcher moved = std::move(*kept);
    WANT(moved.is_match("ab") && is_at(moved.find("cab"), 1, 3));
    rxl::Options any_case;
    any_case.case_insensitive = true;
    WANT(Searcher(Regex("sam", any_case)).is_match("SAM"));
}

} // namespace

void test_searcher() {
    searches();
    many_texts();
    refusals();
    owners();
}
