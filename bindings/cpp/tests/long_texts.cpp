// Loops over long texts take time in proportion to the text, and so does the room for matches.
#include "want.hpp"

#include <chrono>

using rxl::Captures;
using rxl::Regex;
using rxl::RegexList;
using rxl::detail::Capacity;

namespace {

// How many matches the long text has.
constexpr std::size_t many = 600000;

// Runs a loop over a long text that is to come to this number. One that reads the text once for
// each match takes over 30 seconds.
template <class Run> void in_time(const char *name, std::size_t wanted, Run run) {
    const auto begun = std::chrono::steady_clock::now();
    const std::size_t number = run();
    const std::chrono::duration<double> taken = std::chrono::steady_clock::now() - begun;
    if (number == wanted && taken.count() < 10) return;
    failed++;
    std::printf("%s: %zu after %f seconds\n", name, number, taken.count());
}

template <class Range> std::size_t count(Range range) {
    std::size_t number = 0;
    for (const auto &item : range) {
        (void)item;
        number++;
    }
    return number;
}

void loops() {
    const std::string text = repeated("ab, ", many);
    const Regex regex(R"((\w)(\w))");
    const RegexList list{"(x)", R"((\w)(\w))"};
    in_time("find_iter", many, [&] { return count(regex.find_iter(text)); });
    in_time("captures_iter", many, [&] { return count(regex.captures_iter(text)); });
    in_time("try_captures_iter", many, [&] { return count(regex.try_captures_iter(text)); });
    in_time("split", many + 1, [&] { return count(regex.split(text)); });
    in_time("splitn", many, [&] { return count(regex.splitn(text, many)); });
    in_time("a template", 4 * many, [&] { return regex.replace_all(text, "$2$1").size(); });
    in_time("a wide template", 6 * many, [&] { return regex.replace_all(text, "$2$0$1").size(); });
    const auto swap = [](const Captures &caps) { return std::string(caps[2]).append(caps[1]); };
    in_time("a callable", 4 * many, [&] { return regex.replace_all(text, swap).size(); });
    in_time("a list", many, [&] { return count(list.find_iter(text)); });
    in_time("groups of a list", many, [&] { return count(list.captures_iter(text)); });
    const std::vector<std::string_view> texts(many, "-ab");
    in_time("many texts", many, [&] { return regex.find_each(texts).size(); });
}

std::vector<std::size_t> rooms(Capacity capacity, std::size_t times) {
    std::vector<std::size_t> all;
    while (all.size() < times) all.push_back(capacity.grow());
    return all;
}

void room_for_matches() {
    using Rooms = std::vector<std::size_t>;
    const std::size_t all = std::numeric_limits<std::size_t>::max();
    WANT(rooms(Capacity("", 1, all), 6) == Rooms{16, 64, 256, 1024, 4096, 4096});
    WANT(rooms(Capacity("", 1, 1), 2) == Rooms{1, 1} && rooms(Capacity("", 1, 15), 1) == Rooms{15});
    WANT(rooms(Capacity("", 3, 2), 1) == Rooms{6});
    WANT(rooms(Capacity("", 1, 20), 2) == Rooms{16, 20});
    // There is room for a whole match, however many groups it has.
    WANT(rooms(Capacity("", 10000, all), 2) == Rooms{10000, 10000});
    // There is no more room than the text has, if that is long.
    const std::string text(400000, 'a');
    WANT(rooms(Capacity(text, 1, all), 20).back() <= text.size() / sizeof(regex_lite_span));
}

} // namespace

int main() {
    loops();
    room_for_matches();
    if (failed == 0) std::puts("long texts: all is so");
    return failed != 0;
}
