// Single searches, and settings. The values that are expected are those of the Rust crate.
#include "want.hpp"

using rxl::Options;
using rxl::Regex;

namespace {

void searches() {
    const Regex regex("sam|samwise");
    WANT(regex.is_match("mr samwise") && !regex.is_match("frodo"));
    WANT(is_at(regex.find("mr samwise"), 3, 6));
    WANT(regex.find("mr samwise")->view() == "sam");
    WANT(!regex.find_at("mr samwise", 4));
    WANT(is_at(regex.find_at("sam sam", 1), 4, 7));
    WANT(regex.is_match_at("sam sam", 4) && !regex.is_match_at("sam sam", 5));
    WANT(!regex.find(""));
}

// A view of nothing, whose pointer is null, is an empty pattern, text or template.
void nothing() {
    const std::string_view none;
    WANT(none.data() == nullptr);
    const Regex empty(none);
    WANT(empty.pattern().empty() && is_at(empty.find(none), 0, 0) && empty.is_full_match(none));
    WANT(!Regex("sam").find(none) && is_at(empty.find("a"), 0, 0));
    const Regex word("(a)*");
    WANT(word.shortest_match(none) == 0 && word.captures(none)->size() == 2);
    WANT(word.captures(none)->whole().view().empty() && !word.captures(none)->get(1));
    int matches = 0, pieces = 0;
    for (const auto &match : word.captures_iter(none)) matches += match.whole().empty();
    for (const auto piece : word.split(none)) pieces += piece.empty();
    WANT(matches == 1 && pieces == 2);
    WANT(word.replace_all(none, none).empty() && word.replace_all(none, "b") == "b");
    WANT(word.replace_all("ca", none) == "c");
    const std::vector<std::string_view> texts = {none, none};
    WANT(word.find_each(texts).size() == 2 && is_at(word.find_each(texts)[1], 0, 0));
    WANT(rxl::escape(none).empty() && rxl::is_text(none));
}

void looks() {
    const Regex start("^sam");
    WANT(start.is_match("sam") && !start.is_match_at("sam sam", 4));
    const Regex word(R"(\bsam\b)");
    WANT(word.find_at("samsam sam", 3)->start() == 7);
    WANT(word.shortest_match_at("samsam sam", 3) == 10);
    WANT(word.captures_at("samsam sam", 3)->whole().start() == 7);
}

// Texts of each kind that a program has.
void texts() {
    const Regex regex("b+");
    const std::string owned = "abbc";
    const std::string_view view = owned;
    const char *const bare = owned.c_str();
    std::string changeable = owned;
    WANT(is_at(regex.find(owned), 1, 3) && is_at(regex.find(view), 1, 3));
    WANT(is_at(regex.find(bare), 1, 3) && is_at(regex.find(changeable), 1, 3));
    WANT(regex.find(owned)->view().data() == owned.data() + 1);
    WANT(regex.is_match(std::string("abbc")) && !regex.is_match(view.substr(0, 1)));
    // A text may have any byte that UTF-8 has, among them NUL.
    WANT(is_at(Regex("c").find(std::string_view("a\0c", 3)), 2, 3));
}

void shortest() {
    const Regex regex("a+");
    WANT(regex.shortest_match("baaa") == 2);
    WANT(!regex.shortest_match("b"));
    WANT(regex.shortest_match_at("baaa", 3) == 4);
    WANT(*regex.try_shortest_match("baaa") == 2);
}

void anchored() {
    const Regex number("[0-9]+");
    WANT(is_at(number.find_anchored_at("width=72", 6), 6, 8));
    WANT(!number.find_anchored_at("width=72", 5) && !number.find_anchored_at("width=72", 0));
    WANT(number.is_match_anchored_at("width=72", 6) && !number.is_match_anchored_at("width=72", 5));
    WANT(is_at(Regex("sam|samwise").find_anchored_at("mr samwise", 3), 3, 6));
    WANT(is_at(Regex("samwise|sam").find_anchored_at("mr samwise", 3), 3, 10));
    WANT(!Regex("^b").find_anchored_at("ab", 1));
    WANT(is_at(Regex("(?m)^b").find_anchored_at("a\nb", 2), 2, 3));
    WANT(!Regex(R"(\bb)").is_match_anchored_at("ab", 1));
    const auto caps = Regex("(?<key>[a-z]+)=([0-9]+)?").captures_anchored_at("#width=,", 1);
    WANT((*caps)["key"] == "width" && !caps->get(2) && caps->size() == 3);
}

// Whether all calls say that a pattern matches the whole text.
bool is_whole(const char *pattern, std::string_view text) {
    const Regex regex(pattern);
    const auto found = regex.full_match(text);
    const auto caps = regex.full_captures(text);
    WANT(!found || found->view() == text);
    WANT(caps.has_value() == found.has_value() && (!caps || caps->whole() == *found));
    WANT(regex.is_full_match(text) == found.has_value());
    return found.has_value();
}

void whole() {
    WANT(is_whole("[0-9]+", "72") && !is_whole("[0-9]+", "72px") && !is_whole("[0-9]+", " 72"));
    WANT(is_whole("sam|samwise", "samwise") && is_whole("a*?", "aaa"));
    WANT(is_whole("", "") && !is_whole("", "a") && is_whole("\u00e9+", "\u00e9\u00e9"));
    WANT(!is_whole("(?m)a$", "a\nb") && !is_whole(R"(a\B)", "a"));
}

void costs() {
    WANT(Regex("a").places() == 4);
    const Regex regex("(?:a|b)*[cd]");
    const std::string text = repeated("b", 100);
    const auto none = regex.find_counted(text);
    WANT(!none.found && none.cost.tried > 0);
    WANT(none.cost.tried <= (regex.arrows() + 1) * 101);
    const auto counted = regex.find_counted_at("abc", 1);
    WANT(is_at(counted.found, 1, 3) && counted.cost.entered > 0);
    WANT(is_at(regex.try_find_counted("abc")->found, 0, 3));
}

void many_texts() {
    const Regex regex("^(warn|error)|n$");
    const std::vector<std::string> lines = {"warn 1", "", "ok", "\u00fc warn", "error"};
    const auto found = regex.find_each(lines);
    WANT(found.size() == 5 && is_at(found[0], 0, 4) && !found[1] && !found[2]);
    WANT(is_at(found[3], 6, 7) && is_at(found[4], 0, 5) && found[3]->view() == "n");
    WANT(found[3]->view().data() == lines[3].data() + 6);
    WANT(regex.find_each(std::vector<const char *>{"on", "off"})[0]->view() == "n");
    const Regex comma(",");
    WANT(regex.find_each(comma.split("warn,no,in")).size() == 3);
    WANT(regex.find_each(std::vector<std::string_view>()).empty());
    // None of them is text by itself, though they are together.
    const std::vector<std::string_view> halves = {"\xc3", "\xbc"};
    WANT(is_error(rxl::ErrorKind::not_text, regex.try_find_each(halves)));
    WANT(regex.try_find_each(lines)->size() == 5);
}

Options with(bool Options::*flag) {
    Options options;
    options.*flag = true;
    return options;
}

void settings() {
    WANT(Regex("SAM", with(&Options::case_insensitive)).is_match("sam"));
    WANT(!Regex("SAM").is_match("sam"));
    WANT(Regex("^b$", with(&Options::multi_line)).is_match("a\nb\nc"));
    WANT(!Regex("^b$").is_match("a\nb\nc"));
    WANT(Regex("a.b", with(&Options::dot_matches_new_line)).is_match("a\nb"));
    Options lines = with(&Options::multi_line);
    WANT(!Regex("^b$", lines).is_match("a\r\nb\r\nc"));
    lines.crlf = true;
    WANT(Regex("^b$", lines).is_match("a\r\nb\r\nc"));
    WANT(Regex("a+", with(&Options::swap_greed)).find("aa")->size() == 1);
    WANT(Regex("a b # c", with(&Options::ignore_whitespace)).is_match("ab"));
    Options limited;
    limited.nest_limit = 1;
    WANT(throws(rxl::ErrorKind::nesting, [&] { Regex("((a))", limited); }));
    limited = Options();
    limited.size_limit = 143;
    WANT(throws(rxl::ErrorKind::size, [&] { Regex("a", limited); }));
    limited.size_limit = 144;
    WANT(Regex("a", limited).is_match("a"));
    const Options own;
    const regex_lite_options of_c = REGEX_LITE_DEFAULTS;
    WANT(own.nest_limit == of_c.nest_limit && own.size_limit == of_c.size_limit);
}

void copies() {
    const Regex regex("(?<who>sam)", with(&Options::case_insensitive));
    Regex copy("x");
    copy = regex;
    WANT(copy.is_match("Sam") && regex.is_match("Sam"));
    const Regex moved = std::move(copy);
    // What was moved from is as good as before.
    WANT(moved.is_match("SAM") && copy.is_match("SAM")); // NOLINT
    const Regex clone = moved.clone();
    WANT(clone.pattern() == "(?<who>sam)" && (*clone.captures("SAM"))["who"] == "SAM");
    WANT(clone.try_clone()->is_match("sAm"));
}

void others() {
    WANT(rxl::escape("3.5 (or so)") == R"(3\.5 \(or so\))");
    const std::string text = R"(^[a-z]$ \d ü {2} #&-~)";
    WANT(Regex(rxl::escape(text)).find(text)->size() == text.size());
    WANT(rxl::escape("").empty() && *rxl::try_escape("a.b") == R"(a\.b)");
    WANT(is_error(rxl::ErrorKind::not_text, rxl::try_escape("\xff")));
    WANT(rxl::is_text("\u20ac") && !rxl::is_text("\xe2\x82") && rxl::is_text({}));
    const std::string version = rxl::version();
    WANT(version == REGEX_LITE_VERSION || version == REGEX_LITE_VERSION "+unproved");
    WANT(Regex("a*").may_be_empty() && !Regex("a+$").may_be_empty());
    WANT(Regex(R"(\b\B)").may_be_empty() && Regex("").may_be_empty());
    WANT(!Regex("(|a)b").may_be_empty());
}

} // namespace

void test_searches() {
    searches();
    nothing();
    looks();
    texts();
    shortest();
    anchored();
    whole();
    costs();
    many_texts();
    settings();
    copies();
    others();
}
