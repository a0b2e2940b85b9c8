"""The same as main.c, over the Python module that the first argument names. The status is 3 if it
refuses the pattern."""

import importlib
import sys
import time


def main() -> None:
    """Prints the nanoseconds a round, and how many matches were found."""
    module, pattern, call, rounds = sys.argv[1:]
    engine = importlib.import_module(module)
    text = sys.stdin.buffer.read().decode()
    regex = engine.compile(pattern)
    found = 0
    begun = time.perf_counter_ns()
    for _ in range(int(rounds)):
        if call == 'is_match':
            found = int(regex.search(text) is not None)
        else:
            found = sum(1 for _ in regex.finditer(text))
    print((time.perf_counter_ns() - begun) / int(rounds), found)


main()
