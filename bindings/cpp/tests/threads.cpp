// Several threads search with one regex and one list at once, and each with a clone and a searcher
// of its own; the first use of a list's names is made by all at once.
#include "want.hpp"

#include <thread>

using rxl::Regex;
using rxl::RegexList;
using rxl::Searcher;

namespace {

constexpr int rounds = 300;

// Returns how many searches found what they shouldn't.
int wrong_in(const Regex &shared, const RegexList &list) {
    int wrong = 0;
    Searcher searcher(shared);
    const Regex own = shared.clone(), copy = shared;
    for (int round = 0; round < rounds; round++) {
        for (const Regex *regex : {&shared, &own, &copy}) {
            const auto caps = regex->captures("xaab");
            wrong += !caps || (*caps)["a"] != "aa" || !is_at(regex->find("xaab"), 1, 4);
        }
        std::size_t count = 0;
        for (const auto &caps : list.captures_iter("xaab xb"))
            count += caps.name("a") ? caps["a"].size() : 10;
        wrong += count != 12 || !searcher.is_match("xaab") || searcher.is_match("xaa");
        wrong += shared.replace_all("xaab", "$a") != "xaa";
    }
    return wrong;
}

} // namespace

int main() {
    const Regex shared("(?<a>a+)b");
    const RegexList list{"(?<a>a+)b", "b"};
    std::vector<std::thread> threads;
    std::vector<int> wrong(4);
    for (int &own : wrong)
        threads.emplace_back([&own, &shared, &list] { own = wrong_in(shared, list); });
    for (std::thread &thread : threads) thread.join();
    WANT(wrong == std::vector<int>(4));
    if (failed == 0) std::puts("threads: all is so");
    return failed != 0;
}
