// Matches, and their groups. The values that are expected are those of the Rust crate.
#include "want.hpp"

using rxl::Captures;
using rxl::Match;
using rxl::Regex;

namespace {

void matches() {
    const auto found = Regex("\u20ac+").find("\u00fc\u20ac\u20ac");
    WANT(is_at(found, 2, 8) && found->size() == 6 && !found->empty());
    WANT(found->view() == "\u20ac\u20ac");
    const std::string_view view = *found;
    WANT(view == "\u20ac\u20ac");
    WANT(Regex("").find("a")->empty() && Match().empty() && Match().view().empty());
    const Match match("xyxy", 0, 1), same("xz", 0, 1), later("xyxy", 2, 3), longer("xyxy", 0, 2);
    WANT(match == same && match != later && match != longer && match.view() == later.view());
}

void groups() {
    const Regex regex("(?<key>[a-z]+)=([0-9]+)?");
    const auto caps = regex.captures("#width=");
    WANT(caps->size() == 3 && regex.captures_len() == 3);
    WANT(caps->get(0)->view() == "width=" && is_at(caps->name("key"), 1, 6));
    WANT(!caps->name("value") && !caps->get(2) && !caps->get(3));
    WANT((*caps)[1] == "width" && (*caps)["key"] == "width" && (*caps)[0] == "width=");
    WANT(!regex.captures("width"));
    std::vector<std::string> all;
    for (const std::optional<Match> &group : *caps)
        all.emplace_back(group ? group->view() : "none");
    WANT(all == std::vector<std::string>{"width=", "width", "none"});
    // A group that took no part has an empty text; one that isn't there is refused.
    WANT((*caps)[2].empty());
    WANT(throws(rxl::ErrorKind::no_group, [&] { (void)(*caps)[3]; }));
    WANT(throws(rxl::ErrorKind::no_group, [&] { (void)(*caps)["value"]; }));
    WANT(throws(rxl::ErrorKind::no_group, [] { (void)Captures()[0]; }));
    WANT(Captures().whole().empty() && Captures().size() == 0 && !Captures().name("key"));
}

void names() {
    const Regex regex("(?<b>.)(.)(?<a>.)(?:.)(?<\u00fc>.)");
    WANT(regex.capture_names() == std::vector<std::string>{"", "b", "", "a", "\u00fc"});
    const auto caps = regex.captures("12345");
    WANT((*caps)["a"] == "3" && (*caps)["b"] == "1" && (*caps)["\u00fc"] == "5");
    WANT(!caps->name("") && !caps->name("c") && !caps->name("1"));
    const std::string name = "a";
    WANT((*caps)[name] == "3" && caps->name(std::string_view(name))->start() == 2);
    // A name that is longer than the first room for it.
    const std::string longest = repeated("n", 1000);
    WANT((*Regex("(?<" + longest + ">a)").captures("a"))[longest] == "a");
    // Ten thousand names, each of which is found.
    std::string pattern;
    for (int k = 0; k < 10000; k++) pattern += "(?<n" + std::to_string(k) + ">)";
    const auto many = Regex(pattern).captures("");
    int found = 0;
    for (int k = 0; k < 10000; k++) found += many->name("n" + std::to_string(k)).has_value();
    WANT(found == 10000 && many->size() == 10001);
}

void groups_of_every_match() {
    WANT(Regex("a").static_captures_len() == 1 && Regex("(a)(b)").static_captures_len() == 3);
    WANT(Regex("(a)|(b)").static_captures_len() == 2 && !Regex("(a)?").static_captures_len());
}

// As many groups as there is room for at first, and those beside.
void numbers_of_groups() {
    for (const std::size_t number : {62U, 63U, 64U, 65U, 200U}) {
        const Regex regex(repeated("(a)", number) + "|(b)");
        const std::string text = repeated("a", number);
        const auto caps = regex.captures(text);
        WANT(caps->size() == number + 2);
        WANT(is_at(caps->get(number), number - 1, number) && !caps->get(number + 1));
        WANT(regex.captures("b")->get(number + 1)->view() == "b" && !regex.captures("-"));
    }
}

// Groups refer to the text and share the pattern, so that they outlive the regex.
void lifetimes() {
    const std::string text = "width=80 height=24";
    std::vector<Captures> kept;
    std::optional<Match> value;
    {
        const Regex pair("(?<key>[a-z]+)=([0-9]+)");
        for (const Captures &caps : pair.captures_iter(text)) kept.push_back(caps);
        value = pair.captures(text)->get(2);
    }
    WANT(kept.size() == 2 && kept[0]["key"] == "width" && kept[1]["key"] == "height");
    const std::string_view second = kept[1][2];
    kept.clear();
    WANT(second == "24" && value->view() == "80");
    Captures moved = *Regex("(a)b").captures("ab");
    const Captures target = std::move(moved);
    WANT(target[1] == "a" && moved.whole().empty()); // NOLINT: still a value
    // Iterators keep the regex alive too.
    std::size_t count = 0;
    for (const Match &match : Regex("[0-9]+").find_iter(text)) count += match.size();
    WANT(count == 4);
}

} // namespace

void test_groups() {
    matches();
    groups();
    names();
    groups_of_every_match();
    numbers_of_groups();
    lifetimes();
}
