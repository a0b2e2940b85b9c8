// Runs the tests of the files beside this one, which are one program, so that the header is in it
// several times.
#include "want.hpp"

int main() {
    test_errors();
    test_groups();
    test_iterators();
    test_lists();
    test_replacing();
    test_searcher();
    test_searches();
    test_types();
    if (failed == 0) std::puts("all is so");
    return failed != 0;
}
