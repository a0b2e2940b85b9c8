// The header in a program without exceptions: results may be errors, and a call that would throw
// ends the process.
#include <regex_lite.hpp>

#include <csignal>
#include <sys/wait.h>
#include <unistd.h>

namespace {

// Whether a call ends the process.
template <class Call> bool ends(Call call) {
    const pid_t child = fork();
    if (child == 0) {
        std::fclose(stderr);
        call();
        _exit(0);
    }
    int status = 0;
    return waitpid(child, &status, 0) == child && WIFSIGNALED(status) &&
           WTERMSIG(status) == SIGABRT;
}

} // namespace

int main() {
    const auto pair = rxl::Regex::try_build("(?<key>[a-z]+)=([0-9]+)");
    const bool is_built = pair.has_value() && !rxl::Regex::try_build("(").has_value();
    if (!is_built || pair->try_find_at("\u00fc", 1).has_value()) return 1;
    std::size_t count = 0;
    for (const auto &caps : pair->try_captures_iter("a=1 b=2")) {
        if (!caps.has_value()) return 2;
        count += (*caps)["key"].size();
    }
    const auto fresh = pair->try_replace_all("a=1", [](const auto &caps) { return caps[2]; });
    if (count != 2 || !fresh.has_value() || *fresh != "1") return 3;
    if (!ends([] { (void)rxl::Regex("("); })) return 4;
    if (!ends([&] { (void)pair->find_at("a", 2); })) return 5;
    if (ends([&] { (void)pair->find_at("a", 1); })) return 6;
    std::puts("without exceptions: all is so");
    return 0;
}
