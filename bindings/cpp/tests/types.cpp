// What the types of the header promise a compiler: which calls it refuses, and what it may copy.
#include "want.hpp"

#include <type_traits>
#if __cplusplus >= 202002L
#include <iterator>
#include <ranges>
#endif

using rxl::Captures;
using rxl::Match;
using rxl::Regex;
using rxl::RegexList;
using rxl::Searcher;
using rxl::Text;

namespace {

// A text may be anything that converts to a view, but no temporary string.
struct Own {
    operator std::string_view() const { return "own"; }
};
static_assert(std::is_constructible_v<Text, std::string &>);
static_assert(std::is_constructible_v<Text, const std::string &>);
static_assert(std::is_constructible_v<Text, std::string_view>);
static_assert(std::is_constructible_v<Text, const char *>);
static_assert(std::is_constructible_v<Text, const char (&)[4]>);
static_assert(std::is_constructible_v<Text, Own>);
static_assert(std::is_constructible_v<Text, Match>);
static_assert(!std::is_constructible_v<Text, std::string>);
static_assert(!std::is_constructible_v<Text, const std::string>);
static_assert(!std::is_constructible_v<Text, int>);

// Whether a call can be made with an argument of this type.
template <class Argument, class = void> struct Finds : std::false_type {};
template <class Argument>
struct Finds<Argument,
             std::void_t<decltype(std::declval<const Regex &>().find(std::declval<Argument>()))>>
    : std::true_type {};
template <class Argument, class = void> struct FindsEach : std::false_type {};
template <class Argument>
struct FindsEach<Argument, std::void_t<decltype(std::declval<const Regex &>().find_each(
                               std::declval<Argument>()))>> : std::true_type {};
template <class Owner, class = void> struct HasNames : std::false_type {};
template <class Owner>
struct HasNames<Owner, std::void_t<decltype(std::declval<Owner>().capture_names())>>
    : std::true_type {};
template <class Range, class = void> struct Begins : std::false_type {};
template <class Range>
struct Begins<Range, std::void_t<decltype(std::declval<Range>().begin())>> : std::true_type {};

static_assert(Finds<std::string &>() && Finds<const char *>() && !Finds<std::string>());
static_assert(FindsEach<std::vector<std::string> &>());
static_assert(FindsEach<std::vector<std::string_view>>() && !FindsEach<std::vector<std::string>>());
static_assert(HasNames<const Regex &>() && !HasNames<Regex>());
static_assert(Begins<Regex::Matches &>() && !Begins<Regex::Matches>());

// Errors are copied without memory, and so is what shares a regex.
static_assert(std::is_nothrow_copy_constructible_v<rxl::Error>);
static_assert(std::is_nothrow_copy_constructible_v<Regex>);
static_assert(std::is_nothrow_copy_constructible_v<RegexList>);
static_assert(std::is_nothrow_copy_assignable_v<Regex>);
static_assert(std::is_nothrow_move_constructible_v<Regex>);
static_assert(std::is_trivially_copyable_v<Match>);
static_assert(std::is_nothrow_move_constructible_v<Captures>);
static_assert(std::is_copy_constructible_v<Captures>);
static_assert(!std::is_convertible_v<const char *, Regex>); // a pattern isn't built by accident
// A Searcher is for one thread, so its calls change it, and it isn't copied.
static_assert(!std::is_copy_constructible_v<Searcher>);
static_assert(std::is_nothrow_move_constructible_v<Searcher>);
// A result isn't taken for its value.
static_assert(!std::is_convertible_v<rxl::Expected<bool>, bool>);
static_assert(!std::is_constructible_v<bool, rxl::Expected<bool>>);

#if __cplusplus >= 202002L
static_assert(std::input_iterator<Regex::Matches::iterator>);
static_assert(std::input_iterator<RegexList::CaptureMatches::iterator>);
static_assert(std::input_iterator<Captures::iterator>);
static_assert(std::ranges::input_range<Regex::Matches>);
static_assert(std::ranges::input_range<Regex::TrySplit>);
static_assert(std::ranges::input_range<const Captures>);
#endif

} // namespace

void test_types() {
#if __cplusplus >= 202002L
    // Options are named where they are set.
    WANT(Regex("SAM", {.case_insensitive = true}).is_match("sam"));
#endif
#if __cplusplus >= 202002L && !defined(__clang__)
    std::vector<std::string_view> first;
    auto views = Regex("[0-9]").find_iter("1a2b3") | std::views::take(2);
    for (const Match &match : views) first.push_back(match.view());
    WANT(first == std::vector<std::string_view>{"1", "2"});
#endif
    WANT(Regex("w").find(Own())->view().data() == std::string_view(Own()).data() + 1);
}
